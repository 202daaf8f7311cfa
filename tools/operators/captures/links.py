"""IPv4 packets in frames, by their link types, and datagrams and segments in these."""

import dataclasses
import functools
import struct

# The link types that are read (tcpdump.org/linktypes.html), and what a reader calls them.
NULL, ETHERNET, RAW, COOKED, LOOP, IPV4, COOKED_2 = 0, 1, 101, 113, 108, 228, 276
NAMES = {
    NULL: "null loopback", ETHERNET: "Ethernet", RAW: "raw IP", COOKED: "Linux cooked v1", LOOP: "loopback",
    IPV4: "raw IPv4", COOKED_2: "Linux cooked v2", 12: "raw IP", 14: "raw IP",
}  # fmt: skip
OTHERS = {
    105: "802.11", 127: "802.11 with radiotap", 9: "PPP", 50: "PPP", 147: "a user's own", 189: "USB", 187: "Bluetooth"
}
IP, VLANS = 0x0800, (0x8100, 0x88A8)
UDP, TCP = 17, 6
CUT = "packets are cut short, by `-s` of tcpdump: they count by their headers"
# So many packets may wait for the rest of their fragments, with so many octets in all. A packet has no more than that.
MOST_WAITING, MOST_OCTETS, LONGEST = 256, 1 << 22, 65535


def behind_vlans(octets, at):
    """The IPv4 packet behind the type of a frame at a place, if it is one."""
    kind = octets[at : at + 2]
    while int.from_bytes(kind, "big") in VLANS:
        at += 4
        kind = octets[at : at + 2]
    return octets[at + 2 :] if int.from_bytes(kind, "big") == IP else None


def packet_in(link, octets):
    """The IPv4 packet in a frame, or None where there is none."""
    if link == ETHERNET:
        return behind_vlans(octets, 12)
    if link == COOKED:
        return behind_vlans(octets, 14)
    if link == COOKED_2:
        return octets[20:] if octets[:2] == b"\x08\x00" else None
    if link in (NULL, LOOP):
        return octets[4:] if octets[:4] in (b"\x02\0\0\0", b"\0\0\0\x02") else None
    return octets


def is_read(link):
    return link in NAMES


def link_name(link):
    return f"{link} ({OTHERS[link]})" if link in OTHERS else str(link)


@dataclasses.dataclass(frozen=True)
class Packet:
    """A UDP datagram or a TCP segment: its moment, its protocol, its two addresses, its octets, for TCP its header, and
    how many octets are missing at its end, since the capture was cut short."""

    moment: int
    protocol: int
    source: str
    target: str
    octets: bytes
    seq: int = 0
    flags: int = 0
    missing: int = 0


@functools.lru_cache(maxsize=65536)
def address_text(host, port):
    return f"{'.'.join(map(str, host))}:{port}"


class Packets:
    """The packets of frames. What can't be read of them goes to notes."""

    def __init__(self, notes):
        self.notes, self.waiting = notes, {}

    def of(self, frames):
        """The packets of frames, one after another."""
        for frame in frames:
            if not is_read(frame.link):
                self.notes.add(
                    f"link type {link_name(frame.link)} isn't read: capture on Ethernet, `any` or `lo`", frame.moment
                )
                continue
            packet = packet_in(frame.link, frame.octets)
            if packet and len(packet) >= 20 and packet[0] >> 4 == 4:
                found = self.in_ip(frame, packet)
                if found:
                    yield found

    def in_ip(self, frame, ip):
        """The packet in an IPv4 packet, once all of its fragments are there."""
        head, size, part = (ip[0] & 15) * 4, *struct.unpack("!H2xH", ip[2:8])
        protocol = ip[9]
        if protocol not in (UDP, TCP) or head < 20:
            return None
        body, missing = ip[head : size or None], max(0, (size or len(ip)) - len(ip))
        if not size and frame.length > len(frame.octets):
            missing = frame.length - len(frame.octets)
        if missing and frame.length <= len(frame.octets):
            self.notes.add("broken IP packets", frame.moment)
            return None
        if missing:
            self.notes.add(CUT, frame.moment)
        if part & 0x3FFF:
            body = self.joined((ip[12:20], protocol, ip[4:6]), part, body, frame.moment) if not missing else None
        return packet_of(frame.moment, protocol, ip[12:20], body, missing) if body else None

    def joined(self, key, part, body, moment):
        """All octets of a packet whose fragments have come (RFC 791), or None."""
        first, is_last = (part & 0x1FFF) * 8, not part & 0x2000
        parts = self.waiting.setdefault(key, Fragments())
        parts.take(first, body, is_last)
        whole = parts.joined()
        if whole or parts.octets > LONGEST:
            del self.waiting[key]
        while len(self.waiting) > MOST_WAITING or sum(one.octets for one in self.waiting.values()) > MOST_OCTETS:
            del self.waiting[next(iter(self.waiting))]
            self.notes.add("a packet lacks a fragment, and is left out", moment)
        return whole


class Fragments:
    """What has come of a packet."""

    def __init__(self):
        self.parts, self.octets, self.end = {}, 0, None

    def take(self, first, body, is_last):
        self.octets += len(body) - len(self.parts.get(first, b""))
        self.parts[first] = body
        if is_last:
            self.end = first + len(body)

    def joined(self):
        """All octets, once none is missing."""
        if self.end is None or self.octets < self.end:
            return None
        whole = b""
        while len(whole) < self.end:
            more = self.parts.get(len(whole))
            if not more:
                return None
            whole += more
        return whole


def packet_of(moment, protocol, hosts, body, missing=0):
    """The datagram or segment in the body of an IPv4 packet, of which octets may be missing at the end."""
    if len(body) < (8 if protocol == UDP else 20):
        return None
    ports = struct.unpack("!HH", body[:4])
    source, target = address_text(hosts[:4], ports[0]), address_text(hosts[4:], ports[1])
    if protocol == UDP:
        size = int.from_bytes(body[4:6], "big")
        octets = body[8:size]
        return Packet(moment, UDP, source, target, octets, missing=max(0, size - 8 - len(octets)) if missing else 0)
    octets, seq = body[(body[12] >> 4) * 4 :], int.from_bytes(body[4:8], "big")
    return Packet(moment, TCP, source, target, octets, seq, body[13], missing)
