"""Programs that send: GStreamer, which answers NACKs and PLIs, and ffmpeg, which answers neither."""

import shutil
import socket
import subprocess

from checks.camera import AUDIO_PT, TONE, VIDEO_PT
from lab.network.ending import under
from operators.serving import free_port

# A frame, and how many a second. What is shown is noise, so that a frame has some packets.
WIDTH, HEIGHT, RATE = 320, 240, 25
BITS = 800000
# So many frames are between two key frames. ffmpeg sends none when it is asked to.
GST_KEY, FFMPEG_KEY = 250, 12


def gst_commands(ssrcs, port, hearing):
    """GStreamer, with a session that hears control and keeps what it sent for a second."""
    video, audio = ssrcs
    sink = f"udpsink host=127.0.0.1 port={port} sync=false async=false"
    size = f"width={WIDTH},height={HEIGHT},framerate={RATE}/1"
    yield " ".join([
        "gst-launch-1.0 -q rtpbin name=b rtp-profile=avpf",
        f"videotestsrc is-live=true pattern=snow ! video/x-raw,{size} ! vp8enc deadline=1 cpu-used=8 "
        f"target-bitrate={BITS} keyframe-max-dist={GST_KEY} !",
        f"rtpvp8pay pt={VIDEO_PT} ssrc={video} mtu=1100 picture-id-mode=15-bit ! rtprtxqueue max-size-time=1000 ! "
        "b.send_rtp_sink_0",
        f"b.send_rtp_src_0 ! {sink} b.send_rtcp_src_0 ! {sink}",
        f"udpsrc address=127.0.0.1 port={hearing} caps=application/x-rtcp ! b.recv_rtcp_sink_0",
        f"audiotestsrc is-live=true samplesperbuffer=160 freq={TONE} volume=0.25 ! audio/x-raw,rate=8000,channels=1 ! "
        "mulawenc !",
        f"rtppcmupay ssrc={audio} pt={AUDIO_PT} min-ptime=20000000 max-ptime=20000000 ! {sink}",
    ]).split()  # fmt: skip


def ffmpeg_words(source, coding, kind, ssrc, where):
    """ffmpeg, which sends one stream."""
    reading = ["ffmpeg", "-v", "error", "-re", "-f", "lavfi", "-i", source]
    return [*reading, *coding.split(), "-payload_type", str(kind), "-ssrc", str(ssrc), "-f", "rtp", where]


def ffmpeg_commands(ssrcs, port, _):
    """ffmpeg twice, for the picture and for the sound."""
    where = f"rtp://127.0.0.1:{port}?rtcpport={port}&pkt_size="
    picture = f"testsrc2=size={WIDTH}x{HEIGHT}:rate={RATE}"
    vp8 = f"-c:v libvpx -deadline realtime -cpu-used 8 -lag-in-frames 0 -threads 1 -b:v {BITS} -g {FFMPEG_KEY}"
    sound = f"sine=frequency={TONE}:sample_rate=8000:samples_per_frame=160,volume=2"
    yield ffmpeg_words(picture, vp8, VIDEO_PT, ssrcs[0], f"{where}1100")
    yield ffmpeg_words(sound, "-c:a pcm_mulaw -ac 1", AUDIO_PT, ssrcs[1], f"{where}172")


PROGRAMS = {"GStreamer": ("gst-launch-1.0", gst_commands), "ffmpeg": ("ffmpeg", ffmpeg_commands)}


def is_there(name):
    return shutil.which(PROGRAMS[name][0]) is not None


def started(name, relay, ssrcs):
    """The programs of a sender, which send to a relay."""
    hearing = free_port(socket.SOCK_DGRAM)
    port = relay.serves(hearing)
    null = subprocess.DEVNULL
    return [
        subprocess.Popen([*under(), *words], stdin=null, stdout=null, stderr=null)
        for words in PROGRAMS[name][1](ssrcs, port, hearing)
    ]
