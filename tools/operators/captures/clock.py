"""Moments of a capture put right: a clock that was set while it ran, and single packets with a moment of their own."""

import dataclasses

from operators.captures.links import UDP
from operators.packets import number

# A clock was set where a packet is so far before the one that stands ahead of it in the file, or so far after it while
# the timestamps of streams say something else, in nanoseconds.
BACK, AHEAD = 100_000_000, 1_000_000_000
# Where no stream says how long it was, a longer time is one in which nothing was captured.
SILENCE = 60_000_000_000
# So many packets in a row may have a moment of their own.
ALONE = 32
# The clock rates of payload types (RFC 3551). Of other types the packets before say it.
RATES = {0: 8000, 8: 8000, 9: 8000, 11: 44100, 97: 8000}
# Streams tell the time between packets that are so near to it, and a rate by packets that are so far apart.
NEAR, FAR = 2_000_000_000, 200_000_000


def stream_of(packet):
    """The stream of an RTP packet, or None."""
    octets = packet.octets
    if packet.protocol != UDP or len(octets) < 12 or octets[0] >> 6 != 2 or 192 <= octets[1] <= 223:
        return None
    return packet.source, packet.target, octets[8:12], octets[1] & 127


class Stream:
    """The last packet of a stream, and its clock rate as far as it is known."""

    def __init__(self, packet):
        self.first = self.last = packet
        self.rate = RATES.get(packet.octets[1] & 127)

    @staticmethod
    def behind(one, other):
        """By how much a later packet's timestamp is ahead."""
        return (number(other.octets[4:8]) - number(one.octets[4:8]) + 2**31) % 2**32 - 2**31

    def take(self, packet):
        self.last = packet
        far = packet.moment - self.first.moment
        if far > FAR and packet.octets[1] & 127 not in RATES:
            rate = self.behind(self.first, packet) * 10**9 // far
            self.rate = rate if rate > 0 else None
        if far > 10 * FAR:
            self.first = packet


class Clock:
    """Goes through packets in the order of the file, and gives them their moments."""

    def __init__(self, notes):
        self.notes, self.shift, self.before, self.streams = notes, 0, None, {}

    def straighten(self, packets, count):
        """So many of the packets with their moments put right, and a few more where one of them has a moment of its
        own. What stands behind them tells which."""
        found, at = [], 0
        while at < min(count, len(packets)):
            packet = packets[at]
            moment = packet.moment + self.shift
            if self.before is not None and not -BACK <= moment - self.before <= AHEAD:
                moment, alone = self.jump(packets, at, moment)
                if alone:
                    found += [dataclasses.replace(one, moment=self.before) for one in packets[at : at + alone]]
                    at += alone
                    continue
            self.before = moment
            packet = packet if packet.moment == moment else dataclasses.replace(packet, moment=moment)
            self.keep(packet)
            found.append(packet)
            at += 1
        return found

    def keep(self, packet):
        """Remembers the packet of a stream."""
        key = stream_of(packet)
        if key and key in self.streams:
            self.streams[key].take(packet)
        elif key:
            self.streams[key] = Stream(packet)

    def jump(self, packets, at, moment):
        """The moment of a packet that is far from the one before it, or how many packets stand alone there."""
        by = moment - self.before
        for alone, packet in enumerate(packets[at + 1 : at + 1 + ALONE], 1):
            back = packet.moment + self.shift - self.before
            if -BACK <= back <= AHEAD and (by < 0 or by > SILENCE):
                self.notes.add("a packet has a moment that is far from its neighbours': it gets theirs", self.before)
                return moment, alone
        passed = self.passed(packets, at)
        if passed is None and by > 0 or passed is not None and abs(by - passed) < AHEAD:
            return moment, 0
        passed = max(0, passed or 0)
        way = "back" if by < passed else "ahead"
        self.notes.add(
            f"the clock of the capture was set {way} by {abs(by - passed) / 1e9:,.1f} s: time is counted on as if it "
            "hadn't been",
            self.before,
        )
        self.shift += passed - by
        return self.before + passed, 0

    def passed(self, packets, at):
        """How long it was from the packet before one to that, as streams of two senders say alike by their timestamps,
        or None."""
        found, base = {}, packets[at].moment
        for packet in packets[at:]:
            key = stream_of(packet)
            if abs(packet.moment - base) > NEAR:
                break
            stream = self.streams.get(key)
            if stream and stream.rate and key not in found and self.before - stream.last.moment < NEAR:
                units = Stream.behind(stream.last, packet)
                found[key] = (
                    stream.last.moment - self.before + units * 10**9 // stream.rate - (packet.moment - base)
                )
        for key, one in found.items():
            near = [other for other in found if other[0] != key[0] and abs(found[other] - one) < AHEAD // 4]
            if near and (one < AHEAD or key[3] in RATES):
                return int(one)
        return None
