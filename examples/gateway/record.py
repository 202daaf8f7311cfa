#!/usr/bin/env python3
"""Records a room until it is asked to end (Ctrl-C, or SIGTERM): a member that listens, and ffmpeg.

    record.py ROOM FILE [GATEWAY.TOML]

FILE.wav has the sound. FILE.webm has a picture, too, where one comes within the first seconds: what operators pin, or
who has the floor, or else who spoke last. It takes a seat at the desk, where all see its member. Operators remove that
like any other.
"""

import contextlib
import pathlib
import signal
import subprocess
import sys
import tempfile
import time

from refused import Refused
from room_member import ENDS, RoomMember, Wire, description, free_port, is_taken
from sdp import PCMU, VP8
from speaking import Speaking
from stage import HOLD, Stage, staged

# Where nobody speaks nothing comes, and that is silence in the file.
SILENCES = "aresample=async=1:first_pts=0"
# How often it looks who speaks; for how long ffmpeg waits for a first picture, and may take to start, in seconds.
QUARTER, WAITS, STARTS = 0.25, 8, 20


class Sight:
    """What the member sees: a camera of its room."""

    def __init__(self, one):
        self.one, self.stage, self.speaking, self.since = one, Stage(), Speaking(), -HOLD

    def look(self):
        """Changes what is seen, where it is time for that."""
        now, desk = time.monotonic(), self.one.desk
        if self.stage.rows is None or desk.version() != self.stage.rows.version:
            self.stage.see(desk.rows(), now)
        rows = self.stage.rows
        self.stage.speak(self.speaking.hears(desk.levels() or [], now), now)
        room = rows.members.get(self.one.member)
        if room is None:
            return
        shown, cameras = rows.subs.get(self.one.slot), self.stage.cameras[room]
        others = [one for one in self.stage.ranked(self.one.member, [shown]) if one not in rows.mutes]
        wanted = staged(room, rows, cameras) or next(iter(others), None)
        if wanted not in (None, shown) and (shown not in cameras or now - self.since >= HOLD):
            self.since = now
            desk.group([f"subscribe {self.one.slot} {wanted}"])


def writer_of(path, file, ports):
    """ffmpeg, which writes what comes to these ports."""
    words = ["ffmpeg", "-v", "error", "-y", "-protocol_whitelist", "file,udp,rtp"]
    if VP8 in ports:
        # The two streams go by the moments at which they come.
        words += ["-use_wallclock_as_timestamps", "1", "-analyzeduration", str(WAITS * 1_000_000), "-i", file.name]
        words += ["-map", "0:a", "-map", "0:v", "-c:v", "copy", "-af", SILENCES, "-c:a", "libopus", "-ar", "48000"]
    else:
        words += ["-i", file.name, "-af", SILENCES]
        words += ["-c:a", "pcm_s16le"] if path.suffix == ".wav" else ["-c:a", "libopus", "-ar", "48000"]
    # A Ctrl-C is for this program alone, and ffmpeg then writes the end of its file.
    return subprocess.Popen([*words, path], stdin=subprocess.DEVNULL, start_new_session=True)


def main():
    if len(sys.argv) not in (3, 4) or not sys.argv[1].isdecimal():
        sys.exit(__doc__)
    try:
        record()
    except Refused as why:
        sys.exit(str(why))


def record():
    path = pathlib.Path(sys.argv[2])
    one = RoomMember("agent-recording", int(sys.argv[1]), *sys.argv[3:])
    rows = one.desk.rows()
    has_picture = any(kind != "audio" and rows.members[who] == one.room for who, kind in rows.sources.values())
    ports = {kind: free_port() for kind in ([PCMU, VP8] if has_picture and path.suffix != ".wav" else [PCMU])}
    wire, sight = Wire(one, ports), Sight(one) if VP8 in ports else None
    wire.start()
    with tempfile.NamedTemporaryFile("w", suffix=".sdp") as file:
        file.write(description(ports))
        file.flush()
        writer, end = writer_of(path, file, ports), time.monotonic() + STARTS
        signal.pthread_sigmask(signal.SIG_BLOCK, ENDS)
        while writer.poll() is None and not all(map(is_taken, ports.values())) and time.monotonic() < end:
            time.sleep(0.05)
        one.joins(sees=VP8 in ports)
        kinds = "sound and a picture" if VP8 in ports else "sound"
        print(f"recording {kinds} of room {one.room} as member {one.member}", flush=True)
        while writer.poll() is None and not signal.sigtimedwait(ENDS, QUARTER):
            # Where the bridge is gone, the next look tries again.
            with contextlib.suppress(Refused):
                if sight:
                    sight.look()
        # It heeds the signal at the next packet, or 10 s after the last one, and then writes the end of its file.
        writer.send_signal(signal.SIGINT)
        with contextlib.suppress(subprocess.TimeoutExpired):
            writer.wait(1)
        with contextlib.suppress(Refused):
            one.leaves()
        # 255 is how it ends by a signal.
        if writer.wait(20) not in (0, 255):
            sys.exit(f"ffmpeg has written no {path}. A .wav has the sound alone.")


if __name__ == "__main__":
    main()
