#!/usr/bin/env python3
"""Plays a file to whoever is alone in a room, until a second one joins: music on hold. By a member that speaks, and
ffmpeg.

    music.py ROOM FILE [GATEWAY.TOML]

It takes a seat at the desk. Its member is there while it plays.
"""

import contextlib
import signal
import subprocess
import sys
import time

from refused import Refused
from room_member import FIRST, RoomMember


class Music:
    def __init__(self, room, file, *settings):
        self.room, self.file, self.settings = room, file, settings
        self.desk, self.one, self.player = RoomMember("agent-music", room, *settings).desk, None, None

    def look(self):
        """Plays while one caller is in the room, and no longer."""
        callers = [one for one, room in self.desk.rows().members.items() if room == self.room and one < FIRST]
        if len(callers) == 1 and not self.player:
            self.begin()
        elif self.player and (len(callers) != 1 or self.player.poll() is not None):
            self.end()

    def begin(self):
        self.one = RoomMember("agent-music", self.room, *self.settings)
        self.one.desk = self.desk
        self.one.joins(speaks=True)
        words = ["ffmpeg", "-v", "error", "-re", "-stream_loop", "-1", "-i", self.file, "-vn", "-ac", "1", "-ar", "8000"]
        words += ["-c:a", "pcm_mulaw", "-ssrc", str(self.one.voice - (self.one.voice >> 31 << 32)), "-f", "rtp"]
        words += [f"rtp://{self.one.bridge}?localrtpport={self.one.port}&pkt_size=172"]
        self.player = subprocess.Popen(words, stdin=subprocess.DEVNULL, stdout=subprocess.DEVNULL)

    def end(self):
        if self.player:
            self.player.kill()
            self.player.wait()
            self.player = None
            self.one.leaves()


def main():
    if len(sys.argv) not in (3, 4) or not sys.argv[1].isdecimal():
        sys.exit(__doc__)
    signal.signal(signal.SIGTERM, lambda *_: sys.exit())
    music = Music(int(sys.argv[1]), *sys.argv[2:])
    with contextlib.suppress(KeyboardInterrupt):
        try:
            while True:
                # Where the bridge is gone, the next look tries again.
                with contextlib.suppress(Refused):
                    music.look()
                time.sleep(0.5)
        finally:
            with contextlib.suppress(Refused):
                music.end()


if __name__ == "__main__":
    main()
