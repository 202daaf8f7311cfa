"""A path between a sender and the bridge: what is lost on it, and how long the rest takes.

All that is random comes from generators with a seed, one for each kind of packet in each direction. The nth packet of a
kind has the same fate in each run with one seed, whoever sends it and whoever it is sent to.
"""

import collections
import dataclasses
import random

from operators.packets import is_rtcp, seq_of

# How much later than others a packet comes that is overtaken, in seconds.
OVERTAKEN = (0.005, 0.03)


@dataclasses.dataclass(frozen=True)
class Path:
    """What a path does. Losses and the round trip are those of both directions; only what goes up is overtaken or
    shifted.

    loss: the share of packets that is lost. burst: how many are lost in a row, on average; 1 where each is lost by
    itself. trip: the round trip in seconds. overtaken: the share of packets that others overtake. shift: by how many
    seconds the way up gets longer for good, a quarter of the time after losses begin.
    """

    loss: float = 0
    burst: int = 1
    trip: float = 0.1
    overtaken: float = 0
    shift: float = 0

    def __str__(self):
        parts = [f"{100 * self.loss:g} % lost{f' in bursts of {self.burst}' if self.burst > 1 else ''}"]
        parts += [f"{100 * self.overtaken:g} % overtaken"] if self.overtaken else []
        parts += [f"{1e3 * self.shift:g} ms longer"] if self.shift else []
        return f"{1e3 * self.trip:g} ms, {', '.join(parts)}"


class Losses:
    """Which packets of a kind are lost, one after another. In bursts it is a Gilbert model."""

    def __init__(self, seed, path):
        self.random, self.was_lost = random.Random(seed), False
        self.begins = path.loss / (path.burst * (1 - path.loss)) if path.burst > 1 else path.loss
        self.goes_on = 1 - 1 / path.burst if path.burst > 1 else path.loss

    def is_next_lost(self):
        self.was_lost = self.random.random() < (self.goes_on if self.was_lost else self.begins)
        return self.was_lost


class Direction:
    """One direction of a path. It is smooth, with the delay alone, until it is told to begin."""

    def __init__(self, name, path, seed):
        self.name, self.path, self.seed = name, path, seed
        self.greatest, self.losses, self.delays = {}, {}, {}
        self.begun, self.shifts_at = False, float("inf")
        # How many packets were sent for the first time, and again.
        self.counts = collections.Counter()

    def begin(self, moment, seconds):
        """From a moment on packets are lost, for so many seconds."""
        self.begun = True
        self.shifts_at = moment + seconds / 4

    def is_again(self, octets):
        """Whether an RTP packet has a number that isn't ahead of all that came before it."""
        stream, seq = octets[8:12], seq_of(octets)
        ahead = (seq - self.greatest.get(stream, seq - 1)) % 65536
        if 0 < ahead < 32768:
            self.greatest[stream] = seq
        return not 0 < ahead < 32768

    def kind(self, octets):
        """What has losses of its own: control, and each payload type, apart what is sent again. None is what sets up a
        connection."""
        if len(octets) < 12 or octets[0] >> 6 != 2:
            return None
        return "control" if is_rtcp(octets) else f"{octets[1] & 127} {'again' if self.is_again(octets) else 'first'}"

    def is_lost(self, kind):
        if kind not in self.losses:
            self.losses[kind] = Losses(f"{self.seed} {self.path} {self.name} {kind}", self.path)
        return self.losses[kind].is_next_lost()

    def more(self, kind, moment):
        """How much longer than usual a packet takes."""
        longer = self.path.shift if moment >= self.shifts_at else 0
        if kind not in self.delays:
            self.delays[kind] = random.Random(f"{self.seed} {self.path} {self.name} {kind} overtaken")
        is_overtaken = self.delays[kind].random() < self.path.overtaken
        return longer + (self.delays[kind].uniform(*OVERTAKEN) if is_overtaken else 0)

    def seconds(self, octets, moment):
        """How long a datagram takes that is sent at a moment, or None where it is lost."""
        kind, usual = self.kind(octets), self.path.trip / 2
        if not self.begun or kind is None:
            return usual
        self.counts[kind.split()[-1]] += 1
        if self.is_lost(kind):
            return None
        return usual + (self.more(kind, moment) if self.name == "up" else 0)
