"""Frames of a capture: pcap (of microseconds and of nanoseconds) and pcapng, in both orders of octets, packed by gzip
or not.

The file is read from its beginning to its end and nothing is looked for twice, so a pipe serves as well.
"""

import dataclasses
import gzip
import struct
import zlib

from operators.captures.notes import BadCapture

# The magic numbers of pcap, by the units of its moments a second.
PCAP = {0xA1B2C3D4: 10**6, 0xA1B23C4D: 10**9}
SECTION, ORDER = 0x0A0D0D0A, 0x1A2B3C4D
INTERFACE, OLD_PACKET, SIMPLE_PACKET, STATISTICS, PACKET = 1, 2, 3, 5, 6
# No frame and no block of a capture is longer, in octets.
MOST = 1 << 26
# Moments of packets, in nanoseconds since 1970: up to the year 2262.
MOMENTS = range(1 << 63)
# A moment counts units of no less than 1 ps, and what is added to it is 200 years at most, in seconds.
MOST_UNITS, MOST_OFFSET = 10**12, 200 * 366 * 86400
ENDS = "the capture ends in the middle of a packet"
# What Python calls the orders of octets.
ENDS_OF = {"<": "little", ">": "big"}


@dataclasses.dataclass(frozen=True)
class Frame:
    """What was captured of a frame: its moment in nanoseconds since 1970, its link type, its octets, and how many it
    had."""

    moment: int
    link: int
    octets: bytes
    length: int


@dataclasses.dataclass(frozen=True)
class Interface:
    """An interface of a pcapng section: its link type, the units of its moments a second, and what is added, in
    seconds."""

    link: int
    units: int = 10**6
    offset: int = 0


class Reader:
    """The frames of a stream of octets. What is wrong with it goes to notes."""

    def __init__(self, stream, notes):
        self.stream, self.notes = stream, notes

    def read(self, size, may_end=False):
        """So many octets, or None at the end. An end in between is noted."""
        if size > MOST:
            self.notes.add(f"a record of {size} octets is no packet: the rest isn't read")
            return None
        octets = b""
        while len(octets) < size:
            try:
                more = self.stream.read(size - len(octets))
            except (EOFError, OSError, zlib.error):
                more = b""
            if not more:
                if octets or not may_end:
                    self.notes.add(ENDS)
                return None
            octets += more
        return octets

    def frames(self):
        """All frames, as they come. A moment that can't be is noted, and its frame left out."""
        for frame in self.forms():
            if frame.moment in MOMENTS:
                yield frame
            else:
                self.notes.add("a packet whose moment is before 1970 or after 2262 is left out")

    def forms(self):
        """The frames of a capture in its form."""
        magic = self.read(4, may_end=True)
        if magic is None:
            raise BadCapture("the capture is empty")
        if magic[:2] == b"\x1f\x8b":
            self.stream = gzip.GzipFile(fileobj=Joined(magic, self.stream))
            magic = self.read(4, may_end=True) or b""
        for order in "<", ">":
            if len(magic) == 4:
                word = struct.unpack(order + "I", magic)[0]
                if word in PCAP:
                    return self.pcap(order, PCAP[word])
                if word == SECTION:
                    return self.pcapng()
        raise BadCapture(f"it begins with {magic.hex()}, which is neither pcap nor pcapng")

    def pcap(self, order, units):
        """The frames of a pcap file behind its magic number."""
        head = self.read(20)
        if head is None:
            return
        link = struct.unpack(order + "HHiIII", head)[5] & 0xFFFF
        while True:
            head = self.read(16, may_end=True)
            if head is None:
                return
            seconds, rest, kept, length = struct.unpack(order + "IIII", head)
            octets = self.read(kept)
            if octets is None:
                return
            yield Frame(seconds * 10**9 + rest * 10**9 // units, link, octets, length)

    def pcapng(self):
        """The frames of a pcapng file behind the type of its first block."""
        order, kind, interfaces = "<", SECTION, []
        while True:
            size = self.read(4)
            if size is None:
                return
            if kind == SECTION:
                mark = self.read(4)
                if mark is None:
                    return
                order, interfaces = "<" if struct.unpack("<I", mark)[0] == ORDER else ">", []
            body = self.read(struct.unpack(order + "I", size)[0] - (12 if kind == SECTION else 8))
            if body is None:
                return
            frame = self.block(order, kind, body[:-4], interfaces)
            if frame:
                yield frame
            head = self.read(4, may_end=True)
            if head is None:
                return
            kind = struct.unpack(order + "I", head)[0]

    def block(self, order, kind, body, interfaces):
        """The frame of a block, if it has one. An interface is put to the others."""
        if kind == INTERFACE and len(body) >= 8:
            interfaces.append(self.interface(order, body))
        elif kind == STATISTICS:
            lost = options_of(order, body[12:]).get(5)
            if lost is not None and len(lost) != 8:
                self.notes.add(f"an option of {len(lost)} octets is no count of lost packets (isb_ifdrop): not read")
            elif lost and any(lost):
                count = int.from_bytes(lost, ENDS_OF[order])
                self.notes.add(f"the capture itself lost {count} packets: what they held can't be known")
        elif kind in (PACKET, OLD_PACKET) and len(body) >= 20:
            return packet_of(order, kind, body, interfaces)
        elif kind == SIMPLE_PACKET and interfaces and len(body) >= 4:
            self.notes.add("a packet without its moment (a simple packet block) is left out")
        return None

    def interface(self, order, body):
        """An interface, by an interface description block. What an option can't say is noted."""
        options, units, offset = options_of(order, body[8:]), 10**6, 0
        resolution = options.get(9, b"\x06")
        if len(resolution) == 1:
            units = 2 ** (resolution[0] & 127) if resolution[0] & 128 else 10 ** resolution[0]
        if len(resolution) != 1 or units > MOST_UNITS:
            self.notes.add(f"an interface has the resolution {told(resolution)} (if_tsresol): microseconds are taken")
            units = 10**6
        added = options.get(14, bytes(8))
        if len(added) == 8:
            offset = int.from_bytes(added, ENDS_OF[order], signed=True)
        if len(added) != 8 or abs(offset) > MOST_OFFSET:
            self.notes.add(f"an interface has the offset {told(added)} (if_tsoffset): none is taken")
            offset = 0
        return Interface(struct.unpack(order + "H", body[:2])[0], units, offset)


class Joined:
    """A stream behind octets that were read of it."""

    def __init__(self, first, stream):
        self.first, self.stream = first, stream

    def read(self, size=-1):
        if not self.first:
            return self.stream.read(size)
        size = len(self.first) if size < 0 else size
        first, self.first = self.first[:size], self.first[size:]
        return first


def options_of(order, octets):
    """The options of a block, by their numbers."""
    found, at = {}, 0
    while at + 4 <= len(octets):
        code, size = struct.unpack(order + "HH", octets[at : at + 4])
        if code == 0:
            break
        found[code] = octets[at + 4 : at + 4 + size]
        at += 4 + (size + 3) // 4 * 4
    return found


def told(octets):
    """An option in words."""
    return octets[:16].hex() or "of no octet"


def packet_of(order, kind, body, interfaces):
    """The frame of a packet block, or None where its interface isn't there."""
    number, high, low, kept, length = struct.unpack(order + "IIIII", body[:20])
    if kind == OLD_PACKET:
        number = struct.unpack(order + "H", body[:2])[0]
    if number >= len(interfaces):
        return None
    it = interfaces[number]
    moment = it.offset * 10**9 + ((high << 32) + low) * 10**9 // it.units
    return Frame(moment, it.link, body[20 : 20 + kept], length)


def frames_of(stream, notes):
    """The frames of a stream of octets. BadCapture where it is no capture at all."""
    return Reader(stream, notes).frames()
