"""What a receiver sees: which frames of VP8 are whole and can be decoded, when they are shown, and how long the picture
stands still.

Each frame has a picture number (RFC 7741 section 4.2). A frame can be decoded if it is a key frame, or if the one
before it was decoded. It is shown by its timestamp, so many milliseconds behind the fastest frame, or as soon as it can
be where it is later.
"""

import dataclasses
import itertools

from operators.packets import number, payload_of, seq_of

# Frames are so far apart, in units of timestamps and in seconds.
FRAME, CLOCK = 3600, 90000
# A picture that stays for longer stands still, in seconds.
STILL = 0.1
# How many packets a receiver remembers.
KEPT = 4096


@dataclasses.dataclass
class Part:
    """A packet of a frame. The picture has so many bits."""

    ts: int
    marker: bool
    first: bool
    key: bool
    picture: int
    bits: int


def part_of(octets):
    """What a packet says of its frame."""
    payload = payload_of(octets)
    at, picture, bits = 1, 0, 0
    if payload[0] & 0x80:
        at, has = 2, payload[1]
        if has & 0x80:
            bits = 15 if payload[2] & 0x80 else 7
            picture = number(payload[2 : 2 + (bits + 1) // 8]) % 2**bits
            at += (bits + 1) // 8
        at += bool(has & 0x40) + bool(has & 0x30)
    first = payload[0] & 0x1F == 0x10
    return Part(number(octets[4:8]), octets[1] > 127, first, first and not payload[at] & 1, picture, bits)


def nearest(value, modulus, near):
    """The number nearest to another one that is this value by a modulus."""
    return near + (value - near + modulus // 2) % modulus - modulus // 2


class Seen:
    """The receiver's picture."""

    def __init__(self, buffer):
        self.buffer, self.parts, self.whole, self.shown = buffer, {}, {}, []
        self.seq, self.ts, self.picture, self.last, self.base = None, None, 0, None, float("inf")

    def takes(self, octets, moment):
        """Takes a packet that came at a moment."""
        part = part_of(octets)
        self.seq = seq_of(octets) if self.seq is None else self.seq
        self.ts = part.ts if self.ts is None else self.ts
        seq, part.ts = nearest(seq_of(octets), 2**16, self.seq), nearest(part.ts, 2**32, self.ts)
        self.parts[seq] = part
        if seq > self.seq:
            self.parts.pop(seq - KEPT, None)
            self.seq = seq
        self.completes(seq, moment)
        self.decodes(moment)

    def completes(self, seq, moment):
        """Keeps the frame of a packet if it is whole."""
        ts, begin, end = self.parts[seq].ts, seq, seq
        while not self.parts[begin].first and begin - 1 in self.parts and self.parts[begin - 1].ts == ts:
            begin -= 1
        while not self.parts[end].marker and end + 1 in self.parts and self.parts[end + 1].ts == ts:
            end += 1
        first = self.parts[begin]
        if first.first and self.parts[end].marker:
            picture = self.picture_of(first)
            self.base = min(self.base, moment - first.ts / CLOCK)
            if self.last is None or picture > self.last:
                self.whole[picture] = first.ts, first.key

    def picture_of(self, part):
        """A frame's picture number, as if it never wrapped."""
        expected = self.picture + round((part.ts - self.ts) / FRAME)
        picture = nearest(part.picture, 2**part.bits, expected) if part.bits else expected
        if part.ts > self.ts or not self.whole:
            self.ts, self.picture = part.ts, picture
        return picture

    def decodes(self, moment):
        """Shows each frame that can be decoded now."""
        while (following := self.following()) is not None:
            ts, _ = self.whole[following]
            due = max(moment, self.base + ts / CLOCK + self.buffer)
            self.shown.append(max(due, self.shown[-1]) if self.shown else due)
            self.last = following
            self.whole = {picture: frame for picture, frame in self.whole.items() if picture > following}

    def following(self):
        """The next frame that can be decoded."""
        if self.last is not None and self.last + 1 in self.whole:
            return self.last + 1
        return min((picture for picture, (_, key) in self.whole.items() if key), default=None)

    def is_broken(self):
        """Whether a frame has come that can't be decoded."""
        return bool(self.whole)

    def gaps(self, begin, end):
        """How long each picture stays in a time that is over the usual, in seconds."""
        moments = [begin, *(moment for moment in self.shown if begin < moment < end), end]
        return [b - a for a, b in itertools.pairwise(moments) if b - a > STILL]
