"""A call over a path: a sender, the path, what is in the middle, and a receiver that measures what it sees and
hears."""

import dataclasses
import statistics
import tempfile
import time

from checks.camera import AUDIO_PT, VIDEO_PT, Camera
from lab.network import programs
from lab.network.bridge import Bridge
from lab.network.heard import Heard
from lab.network.janus import Janus
from lab.network.loop import Loop
from lab.network.path import Path
from lab.network.relay import Relay, roomy_socket
from lab.network.seen import Seen
from lab.network.streams import AUDIO, PATIENCE, SLOT, VIDEO
from operators.packets import is_rtcp, pli

# How many seconds a call goes on before packets are lost.
SETTLED = 2
# A receiver asks for a key frame where it can't decode, at most each so many seconds.
BETWEEN_PLIS = 0.3
# How many packets a frame of a sender of its own has, and whether it answers NACKs.
OWN = {"own 250/s": (10, True), "own 50/s": (2, True), "own silent": (10, False)}


@dataclasses.dataclass(frozen=True)
class Row:
    """A call: who sends, over which path."""

    sender: str
    path: Path

    def __str__(self):
        return f"{self.sender}, {self.path}"

    @property
    def answers(self):
        """Whether the sender answers NACKs."""
        return OWN[self.sender][1] if self.sender in OWN else self.sender == "GStreamer"


@dataclasses.dataclass
class Measured:
    """What was measured.

    These are shares of the time, the longest gaps in seconds, octets of control for each octet that came, packets sent
    again for each first one, the median of the seconds from asking to sending again, and whether control kept its
    bound. And what a busy machine did: by how many seconds the relay was late at worst, and so the mixes of what is in
    the middle. The picture is also measured where the path ends, before what is in the middle.
    """

    still: float
    longest: float
    path_still: float
    path_longest: float
    missing: float
    silence: float
    control: float
    again: float
    after: float
    is_bounded: bool
    late: float
    stood: float


class Receiver:
    """A member that measures. It asks for key frames, as a decoder does, at an address that it is told."""

    def __init__(self, loop, buffer):
        self.socket, self.seen, self.heard = roomy_socket(), Seen(buffer), Heard()
        self.asked, self.asks_at = 0.0, None
        loop.reads(self.socket, self.takes)

    def takes(self, octets):
        now = time.monotonic()
        if is_rtcp(octets):
            return
        if octets[1] & 127 == VIDEO_PT:
            self.seen.takes(octets, now)
            self.asks(now)
        elif octets[1] & 127 == AUDIO_PT:
            self.heard.takes(octets, now)

    def asks(self, now):
        if self.seen.is_broken() and now > self.asked + BETWEEN_PLIS:
            self.asked = now
            self.socket.sendto(pli(SLOT), self.asks_at)

    def has_begun(self):
        return bool(self.seen.shown) and self.heard.has_begun()


def starts(row, loop, relay):
    """Starts a row's sender. Its programs."""
    if row.sender not in OWN:
        return programs.started(row.sender, relay, (VIDEO, AUDIO))
    camera = Camera(loop, relay.takes_up, (VIDEO, AUDIO), *OWN[row.sender])
    relay.hears = camera.hears
    return []


def measured(loop, relay, receiver, seconds):
    """Lets packets be lost for some seconds. What is seen, heard and sent meanwhile."""
    loop.latest = receiver.heard.latest = 0.0
    begin, before = relay.begin(seconds)
    end = begin + seconds
    # What is shown later is known a little later.
    loop.run(end + 0.5)
    still, path, silent = (of.gaps(begin, end) for of in (receiver.seen, relay.seen, receiver.heard))
    since, sent = relay.octets - before, relay.up.counts
    return Measured(
        sum(still) / seconds, max(still, default=0), sum(path) / seconds, max(path, default=0),
        sum(silent) / seconds, max(silent, default=0),
        since.control / max(1, since.came), sent["again"] / max(1, sent["first"]),
        statistics.median(relay.waits or [0]),
        relay.octets.control <= 1.5 * relay.octets.came + 256, loop.latest, receiver.heard.latest,
    )  # fmt: skip


def held(row, middle, args):
    """Holds a call of a row. What was measured, or None where nothing is seen or heard."""
    loop = Loop()
    relay, receiver = Relay(loop, row.path, args, middle.goal_of, middle.HOST), Receiver(loop, args.buffer)
    middle.joins(loop, relay, receiver)
    running = starts(row, loop, relay)
    try:
        loop.run(time.monotonic() + PATIENCE, receiver.has_begun)
        if not receiver.has_begun():
            return None
        loop.run(time.monotonic() + SETTLED)
        return measured(loop, relay, receiver, args.seconds)
    finally:
        for program in running:
            program.kill()
            program.wait()


def hold(job):
    """Holds a call of a row through a bridge of its own, or through Janus where no program is told. A fault of either
    is told as a text."""
    row, program, args, folder = job
    folder = tempfile.mkdtemp(dir=folder)
    try:
        middle = Bridge(folder, program, args.lanes) if program else Janus(folder)
        try:
            return held(row, middle, args)
        finally:
            middle.close()
    except SystemExit as said:
        return f"{row}: {str(said).removeprefix('tools/bridge: ')}"
