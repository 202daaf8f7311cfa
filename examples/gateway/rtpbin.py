#!/usr/bin/env python3
"""Sends a test picture and a tone to a room, and hears it, until it is asked to end: a member that is GStreamer.

    rtpbin.py ROOM [GATEWAY.TOML]

Its `rtpbin` does what RTP asks of a sender of pictures: it reports (RTCP), sends again what is missing (NACK), and makes
a key frame where one is asked for (PLI). What it hears goes to a `fakesink`: put `autoaudiosink` there to listen. It
takes a seat at the desk.
"""

import contextlib
import signal
import subprocess
import sys

from refused import Refused
from room_member import ENDS, RoomMember, Wire, free_port
from sdp import PCMU, VP8

# The picture, and the tone in Hz.
SIZE, PATTERN, TONE = "width=320,height=240,framerate=15/1", "ball", 700
# A key frame comes where one is asked for, and after so many frames.
KEY, BITS = 250, 300_000


def pipeline(one, port, sound, control):
    """GStreamer's words. It sends to `port`, and gets the mix at `sound`, and RTCP of its two sessions at `control`."""
    out = f"udpsink host=127.0.0.1 port={port} sync=false async=false"
    heard = f"application/x-rtp,media=audio,encoding-name=PCMU,clock-rate=8000,payload={PCMU}"
    return [
        "rtpbin name=b rtp-profile=avpf",
        # The picture. What was sent in the last second is kept for those who ask for it again.
        f"videotestsrc is-live=true pattern={PATTERN} ! video/x-raw,{SIZE}",
        f"! vp8enc deadline=1 cpu-used=8 target-bitrate={BITS} keyframe-max-dist={KEY}",
        f"! rtpvp8pay pt={VP8} ssrc={one.camera} mtu=1100 picture-id-mode=15-bit",
        "! rtprtxqueue max-size-time=1000 ! b.send_rtp_sink_0",
        f"b.send_rtp_src_0 ! {out} b.send_rtcp_src_0 ! {out}",
        f"udpsrc address=127.0.0.1 port={control[0]} caps=application/x-rtcp ! b.recv_rtcp_sink_0",
        # The tone, in packets of 20 ms, and what is heard.
        f"audiotestsrc is-live=true samplesperbuffer=160 freq={TONE} volume=0.15 ! audio/x-raw,rate=8000,channels=1",
        f"! mulawenc ! rtppcmupay pt={PCMU} ssrc={one.voice} min-ptime=20000000 max-ptime=20000000",
        f"! b.send_rtp_sink_1 b.send_rtp_src_1 ! {out} b.send_rtcp_src_1 ! {out}",
        f"udpsrc address=127.0.0.1 port={control[1]} caps=application/x-rtcp ! b.recv_rtcp_sink_1",
        f"udpsrc address=127.0.0.1 port={sound} caps={heard} ! b.recv_rtp_sink_1",
        "b. ! rtppcmudepay ! mulawdec ! audioconvert ! fakesink",
    ]


def main():
    if len(sys.argv) not in (2, 3) or not sys.argv[1].isdecimal():
        sys.exit(__doc__)
    one = RoomMember("agent-rtpbin", int(sys.argv[1]), *sys.argv[2:])
    sound, control = free_port(), [free_port(), free_port()]
    wire = Wire(one, {PCMU: sound}, control)
    wire.start()
    try:
        one.joins(speaks=True, shows=True)
    except Refused as why:
        sys.exit(str(why))
    words = ["gst-launch-1.0", "-q", *" ".join(pipeline(one, wire.port, sound, control)).split()]
    # A Ctrl-C is for this program alone.
    sender = subprocess.Popen(words, stdin=subprocess.DEVNULL, start_new_session=True)
    signal.pthread_sigmask(signal.SIG_BLOCK, ENDS)
    print(f"member {one.member} of room {one.room} shows {one.camera} and speaks as {one.voice}", flush=True)
    while sender.poll() is None and not signal.sigtimedwait(ENDS, 1):
        pass
    sender.terminate()
    sender.wait()
    with contextlib.suppress(Refused):
        one.leaves()


if __name__ == "__main__":
    main()
