"""Captures that somebody made to do harm: escape sequences for a terminal, options that say too much, senders and
fragments without end, and packets that no order of what happened explains."""

from checks.captures.writing import block, pcap, pcapng, tcp_packet, udp_packets
from checks.explain.made import BEGIN, BRIDGE, DESK, GAP, ONE, OPERATOR, OTHER, Made
from checks.explain.mutants import HOSTILE
from operators.captures.lines import ACK, SYN
from operators.captures.links import ETHERNET, UDP
from operators.packets import rtp

# The bridge's port as an IPv4 packet has it.
PORT = int(BRIDGE.rpartition(":")[2]).to_bytes(2, "big")
# What operators say, and what a desk answers.
TALK = [
    (b"add-room 1", b"ok 1"), (b"add-" + HOSTILE + b" 1", b"fault 1 3 " + HOSTILE),
    (b"add-member 10 1 " + ONE.encode() + b" pcmu 9001 0 0", b"ok 2"), (b"add-source 201 10 audio", b"ok 3"),
    (b"show", b"room 1\nmember 0 10 1 " + ONE.encode() + b" pcmu 9001 0 0\nsource 201 10 " + HOSTILE + b"\nend 3"),
    (b"as " + HOSTILE, b"as " + HOSTILE),
    (b"mute " + HOSTILE, b"no 3 4 " + HOSTILE), (HOSTILE, HOSTILE), (b"show", HOSTILE + b"\nend 3"),
]  # fmt: skip
# A desk in a file.
ROWS = b"room 1\nmember 0 10 1 " + HOSTILE + b" pcmu 9001 0 0\nsource 201 10 audio\nmute " + HOSTILE + b"\nend 3\n"


def named(ssrc):
    """A receiver report of an SSRC, whose CNAME isn't meant to be read."""
    item = ssrc.to_bytes(4, "big") + bytes([1, len(HOSTILE)]) + HOSTILE
    item += bytes(4 - len(item) % 4)
    return b"\x80\xc9\0\x01" + ssrc.to_bytes(4, "big") + b"\x81\xca" + (len(item) // 4).to_bytes(2, "big") + item


def for_terminals():
    """A capture with escape sequences wherever it has a text."""
    packets, asked, said, moment = [], 1000, 5000, BEGIN
    packets.append((BEGIN, tcp_packet(OPERATOR, DESK, asked - 1, SYN)))
    packets.append((BEGIN, tcp_packet(DESK, OPERATOR, said - 1, SYN | ACK)))
    for question, answer in TALK:
        moment += 1_000_000
        packets.append((moment, tcp_packet(OPERATOR, DESK, asked, 24, question + b"\n")))
        packets.append((moment + 100_000, tcp_packet(DESK, OPERATOR, said, 24, answer + b"\n")))
        asked, said = asked + len(question) + 1, said + len(answer) + 1
    for at in range(8):
        sound = rtp(at, at * 160, 201, bytes(160), pt=0)
        for ends, octets in (((ONE, BRIDGE), sound), ((OTHER, BRIDGE), HOSTILE), ((BRIDGE, ONE), named(1))):
            packets += [(moment + GAP * (at + 1), it) for it in udp_packets(*ends, octets)]
        packets += [(moment + GAP * (at + 1), it) for it in udp_packets(ONE, BRIDGE, named(201))]
    return pcap(packets, units=10**9)


def with_option(number, octets):
    """A pcapng whose interface has an option."""
    sizes = [size.to_bytes(2, "little") for size in (ETHERNET, 0, number, len(octets))]
    body = sizes[0] + bytes(6) + sizes[2] + sizes[3] + octets + bytes(-len(octets) % 4)
    whole = pcapng(Made(2).packets, digits=6)
    # Behind the section and the interface of its own.
    first = 28
    return whole[:first] + block("<", 1, body) + whole[first + int.from_bytes(whole[first + 4 : first + 8], "little") :]


def strangers(count, packets):
    """A call, and so many senders: of those whom nobody knows, of those who say that they are a member, and SSRCs of a
    member that none of its sources has."""
    packets = list(packets)
    for at in range(count):
        address = f"10.1.{at // 256}.{at % 256}:6000"
        for sender, ssrc in ((address, 1000 + at), (address, 202), (ONE, 5000 + at)):
            sound = rtp(1, 160, ssrc, bytes(160), pt=0)
            packets += [(packets[-1][0] + 1000, it) for it in udp_packets(sender, BRIDGE, sound)]
    return packets


def of_strangers(count):
    """A capture of these."""
    return pcap(strangers(count, Made(2).packets), units=10**9)


def of_fragments(count):
    """A capture of so many datagrams, each of which lacks its last fragment."""
    packets = []
    for at in range(count):
        *first, _ = udp_packets(ONE, BRIDGE, bytes(60_000), at, 1480)
        packets += [(BEGIN + at * 1000, it) for it in first]
    return pcap(packets, units=10**9)


# Packets that no order explains


class VideoLast(Made):
    """A call in which a picture comes just behind each tick, so that either could have been taken first."""

    def turn(self, tick, shows):
        super().turn(tick, shows)
        self.moment = BEGIN + GAP * (tick + 1) + 1_000_000
        self.comes(self.one, rtp(self.seq, tick * 1800 + 900, 101, bytes([tick, 9]) * 20, marker=1))
        self.seq += 1


def changed(packets, count):
    """A capture of packets, with another last octet in so many of the last ones of media that the bridge sends."""
    sent = [at for at, (_, octets) in enumerate(packets) if is_media_of_bridge(octets)]
    last = set(sent[-count:])
    return pcap(
        [
            (moment, octets[:-1] + bytes([octets[-1] ^ 1]) if at in last else octets)
            for at, (moment, octets) in enumerate(packets)
        ],
        units=10**9,
    )


def is_media_of_bridge(octets):
    """Whether an IPv4 packet is an RTP packet from the bridge's port."""
    return octets[9] == UDP and octets[20:22] == PORT and not 192 <= octets[29] <= 223
