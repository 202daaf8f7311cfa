"""Captures written: frames of each link type that is read, in pcap and pcapng."""

import struct

from operators.captures.links import COOKED, COOKED_2, ETHERNET, IPV4, LOOP, NULL, RAW, TCP, UDP

# What stands before an IPv4 packet, by the link type. A VLAN's tag stands in some Ethernet frames.
HEADS = {
    NULL: b"\x02\0\0\0", LOOP: b"\0\0\0\x02", RAW: b"", IPV4: b"", 12: b"",
    ETHERNET: bytes(12) + b"\x08\x00", COOKED: bytes(14) + b"\x08\x00", COOKED_2: b"\x08\x00" + bytes(18),
}  # fmt: skip
VLAN = bytes(12) + b"\x81\x00\x00\x07\x08\x00"


def host_and_port(address):
    host, _, port = address.partition(":")
    return bytes(map(int, host.split("."))), int(port)


def ip_packets(protocol, source, target, body, number=0, most=None):
    """The IPv4 packets that carry a body (RFC 791), in fragments of at most so many octets."""
    size = most // 8 * 8 if most else len(body)
    for at in range(0, len(body), size):
        part = body[at : at + size]
        is_more = at + len(part) < len(body)
        head = struct.pack("!BBHHHBBH", 0x45, 0, 20 + len(part), number, is_more << 13 | at // 8, 64, protocol, 0)
        yield head + source + target + part


def udp_packets(source, target, octets, number=0, most=None):
    """The IPv4 packets of a datagram."""
    (from_host, from_port), (to_host, to_port) = host_and_port(source), host_and_port(target)
    head = struct.pack("!HHHH", from_port, to_port, 8 + len(octets), 0)
    return ip_packets(UDP, from_host, to_host, head + octets, number, most)


def tcp_packet(source, target, seq, flags, octets=b""):
    """The IPv4 packet of a segment."""
    (from_host, from_port), (to_host, to_port) = host_and_port(source), host_and_port(target)
    head = struct.pack("!HHIIBBHHH", from_port, to_port, seq % 2**32, 0, 0x50, flags, 65535, 0, 0)
    return next(ip_packets(TCP, from_host, to_host, head + octets))


def pcap(packets, link=ETHERNET, order="<", units=10**6, head=None, most=None):
    """A pcap file of (moment, IPv4 packet). At most so many octets of a frame are kept."""
    magic = 0xA1B2C3D4 if units == 10**6 else 0xA1B23C4D
    parts = [struct.pack(order + "IHHiIII", magic, 2, 4, 0, 0, most or 262144, link)]
    for moment, packet in packets:
        frame = (HEADS.get(link, b"") if head is None else head) + packet
        kept = frame[:most] if most else frame
        parts += [
            struct.pack(order + "IIII", moment // 10**9, moment % 10**9 * units // 10**9, len(kept), len(frame)), kept
        ]
    return b"".join(parts)


def block(order, kind, body):
    """A block of pcapng."""
    body += bytes(-len(body) % 4)
    return struct.pack(order + "II", kind, len(body) + 12) + body + struct.pack(order + "I", len(body) + 12)


def pcapng(packets, link=ETHERNET, order="<", digits=9):
    """A pcapng file of (moment, IPv4 packet), with so many digits of a second."""
    section = block(order, 0x0A0D0D0A, struct.pack(order + "IHHq", 0x1A2B3C4D, 1, 0, -1))
    resolution = struct.pack(order + "HHB3xHH", 9, 1, digits, 0, 0)
    parts = [section, block(order, 1, struct.pack(order + "HHI", link, 0, 0) + resolution)]
    for moment, packet in packets:
        frame, units = HEADS[link] + packet, moment * 10**digits // 10**9
        head = struct.pack(order + "IIIII", 0, units >> 32, units & 0xFFFFFFFF, len(frame), len(frame))
        parts.append(block(order, 6, head + frame))
    return b"".join(parts)
