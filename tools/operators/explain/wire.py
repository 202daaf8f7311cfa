"""What a capture has of one bridge: its datagrams in and out, and the lines of its operators."""

import collections
import dataclasses
import re

from operators.captures.clock import Clock
from operators.captures.files import frames_of
from operators.captures.lines import Connections
from operators.captures.links import CUT, UDP, Packets
from operators.captures.notes import BadCapture, Notes
from operators.explain.desks import streams_of
from operators.explain.operators import is_good
from operators.models.lines import ALONE

USUAL_UDP = "5004"
# A line that a bridge alone says.
ANSWER = re.compile(
    r"ok [0-9]+|no [0-9]+ [0-9]+ \w+.*|end( [0-9]+)?|fault [0-9]+ [0-9] \w+|busy|call [0-9]+ [0-9]+ .*"
    r"|lease [0-9]{1,10} [!-~]{1,64}",
    re.ASCII,
)
# A line of HTTP. What the page tells browsers are lines of a desk, too.
HTTP = re.compile(r"[A-Z]{3,7} \S+ HTTP/1\.[01]|HTTP/1\.[01] [0-9]{3}\b.*", re.ASCII)
# The calls that are spelled as rows of a desk are. Lines that are no calls stand in an answer of `help`, too, and the
# answers to `as` and `lease off` are spelled as the lines are: what says surely who is the bridge counts as so many of
# these. A group is an operator's call, or stands in an answer of `groups`.
ROWS, SURE, GROUP = ("mute ", "pin "), 100, "group "
# The header of RTP, in octets.
HEADER = 12
# What helps where packets are cut.
LONGER = "capture with `-s 96` or more"
# A capture may have packets out of order by so much, in nanoseconds.
REORDERED = 10_000_000


@dataclasses.dataclass(frozen=True)
class Datagram:
    """A datagram: its moment, the address of the bridge's peer, and its octets. Of one that the capture cut, how many
    octets it kept; the others are 0."""

    moment: int
    peer: str
    octets: bytes
    kept: int = None


class Wire:
    """What a capture has of one bridge. Moments are nanoseconds since 1970."""

    def __init__(self, notes):
        self.notes, self.udp, self.tcp, self.others = notes, None, None, []
        self.into, self.out, self.asked, self.answered, self.ends = [], [], [], [], {}
        # The operators whose connections begin in the capture.
        self.begun = set()
        self.begin = self.end = 0
        # The moment of which seconds are told, and the seats and names that are known of operators, by their addresses.
        self.zero, self.seats, self.names = 0, {}, {}
        # How many datagrams were cut before what is needed of them.
        self.cut = 0

    def is_cut(self):
        """Whether datagrams are cut short."""
        return any(one.kept is not None for one in (*self.into, *self.out))


def is_port_of(address, named):
    """Whether an address is the one that is named, or has the port that is named."""
    return address == named or address.rpartition(":")[2] == named


# Which end of a connection is a bridge


def bridge_end(lines, listens):
    """The end of a connection that is a bridge, by its lines: the one that listens, or that answers, or to which go
    lines that are no rows; groups, where nothing else says it. None where nothing does."""
    if listens:
        return listens
    told, groups = collections.Counter(), collections.Counter()
    for line in lines:
        if ANSWER.fullmatch(line.text):
            told[line.source] += SURE
        elif is_good(line.text) and line.text.startswith(GROUP):
            groups[line.target] += 1
        elif is_good(line.text) and not line.text.startswith(ROWS):
            told[line.target] += 1 if line.text.split(" ")[0] in ALONE else SURE
    (end, count), (_, other) = [*(told or groups).most_common(2), (None, 0), (None, 0)][:2]
    return end if count > other else None


def desks_in(lines, listening):
    """The desks of a capture by their addresses, each with the lines of its connections, but for those of HTTP.
    `listening` has the end that listens, by the two ends of a connection."""
    connections, desks, unsure = collections.defaultdict(list), collections.defaultdict(list), []
    for line in lines:
        connections[frozenset((line.source, line.target))].append(line)
    for ends, some in connections.items():
        if any(HTTP.fullmatch(line.text) for line in some):
            continue
        end = bridge_end(some, listening.get(ends))
        if end is None:
            unsure += [(one, some) for one in ends]
        elif any(ANSWER.fullmatch(line.text) if line.source == end else is_good(line.text) for line in some):
            desks[end] += some
    for end, some in unsure:
        # Rows alone, of a desk that is known.
        if end in desks:
            desks[end] += some
    return desks


# Which datagrams are of which desk


class Known:
    """What the lines of a desk say of its bridge: the addresses of members, and the SSRCs of streams."""

    def __init__(self, lines):
        texts = [line.text for line in lines if line.is_whole]
        self.members = members_in(texts)
        self.outs = streams_of(texts)


def members_in(texts):
    """The addresses of the members that some lines name."""
    found = set()
    for text in texts:
        words = text.split(" ")
        found |= {words[at + 3] for at, word in enumerate(words) if word == "add-member" and len(words) > at + 3}
        if words[0] == "member" and len(words) == 9:
            found.add(words[4])
    return found


class Media:
    """The addresses that exchange datagrams: the peers of each, and the SSRCs of what it sends."""

    def __init__(self, datagrams):
        self.peers, self.sent = collections.defaultdict(set), collections.defaultdict(set)
        for packet in datagrams:
            self.peers[packet.source].add(packet.target)
            self.peers[packet.target].add(packet.source)
            if len(packet.octets) >= HEADER and not 192 <= packet.octets[1] <= 223:
                self.sent[packet.source].add(int.from_bytes(packet.octets[8:12], "big"))

    def of(self, known):
        """The addresses that may be the bridge of a desk: those with which most of its members exchange datagrams, and
        of these the ones that send its streams."""
        counts = {one: len(known.members & peers) for one, peers in self.peers.items() if one not in known.members}
        best = max(counts.values(), default=0)
        found = [one for one, count in counts.items() if best and count == best]
        sending = [one for one in found if self.sent[one] & known.outs]
        return sending or found

    def busiest(self, others):
        """The address with the most peers, where none of some others' is meant."""
        peers = {one: them for one, them in self.peers.items() if one not in others}
        most = max(map(len, peers.values()), default=0)
        found = [one for one, them in peers.items() if len(them) == most]
        usual = [one for one in found if is_port_of(one, USUAL_UDP)]
        if len(found) > 1 and not usual:
            raise BadCapture(f"which of {', '.join(sorted(found)[:4])} is the bridge's? Name it by --udp")
        return (usual or found or [None])[0]


class Choice:
    """Chooses one of the bridges of a capture."""

    def __init__(self, desks, media):
        self.known, self.media = {tcp: Known(lines) for tcp, lines in desks.items()}, media
        self.found = {tcp: media.of(known) for tcp, known in self.known.items()}

    def told(self):
        """The bridges in words."""
        return ", ".join(
            f"tcp {tcp} (udp {' or '.join(sorted(self.found[tcp])) or 'unknown'}, {len(known.members)} members)"
            for tcp, known in sorted(self.known.items())
        )

    def named_tcp(self, tcp):
        found = [address for address in self.known if is_port_of(address, tcp)]
        if not found:
            more = f": there are {self.told()}" if self.known else ""
            raise BadCapture(f"no operator's line goes to {tcp} in it{more}")
        if len(found) > 1:
            raise BadCapture(f"several bridges are in it: {self.told()}; name one by --tcp, with its host")
        return found[0]

    def named_udp(self, udp):
        found = [address for address in self.media.peers if is_port_of(address, udp)]
        if not found:
            raise BadCapture(f"no datagram goes to or from {udp} in it")
        return max(found, key=lambda address: len(self.media.peers[address]))

    def pair(self, udp, tcp):
        """The addresses of the bridge's datagrams and of its desk, either or both of which are named, or neither."""
        if tcp:
            tcp = self.named_tcp(tcp)
            return (self.named_udp(udp) if udp else self.udp_of(tcp)), tcp
        if udp:
            udp = self.named_udp(udp)
            return udp, self.tcp_of(udp)
        if len(self.known) > 1:
            raise BadCapture(f"several bridges are in it: {self.told()}; choose one by --tcp or --udp")
        tcp = next(iter(self.known), None)
        return (self.udp_of(tcp) if tcp else self.media.busiest(())), tcp

    def udp_of(self, tcp):
        """Where a desk's bridge takes datagrams."""
        found = self.found[tcp]
        if len(found) > 1:
            raise BadCapture(
                f"its members exchange datagrams with {' and with '.join(sorted(found))}: which is the bridge of tcp "
                f"{tcp}? Name it by --udp, too"
            )
        others = {one for other, them in self.found.items() if other != tcp for one in them}
        if found or self.known[tcp].members and self.media.peers and others:
            return found[0] if found else None
        return self.media.busiest(others)

    def tcp_of(self, udp):
        """The desk of the bridge with an address for datagrams, or None where it isn't in the capture."""
        found = [tcp for tcp, them in self.found.items() if udp in them]
        alone = [tcp for tcp in found if self.found[tcp] == [udp]]
        if len(found) > 1 and len(alone) != 1:
            raise BadCapture(
                f"the members of tcp {' and of tcp '.join(sorted(found))} exchange datagrams with {udp}: which is its "
                "desk? Name it by --tcp, too"
            )
        # A desk whose members nobody knows may be that of the one bridge.
        unknown = [tcp for tcp, known in self.known.items() if not known.members]
        return (alone or found or (unknown if len(self.known) == 1 else []) or [None])[0]


# Reading


class Reading:
    """Reads the packets of a capture."""

    def __init__(self, notes):
        self.notes, self.clock, self.connections = notes, Clock(notes), Connections(notes, REORDERED)
        self.lines, self.datagrams, self.frames = [], [], 0

    def take(self, packets, count):
        """Reads so many of some packets, or a few more, in the order of the file. How many it read."""
        found = self.clock.straighten(packets, count)
        for packet in found:
            self.frames += 1
            if packet.protocol == UDP:
                self.datagrams.append(packet)
            else:
                self.lines += self.connections.take(packet)
        return len(found)

    def end(self):
        """Reads what the end of the capture leaves of lines."""
        self.lines += self.connections.end()
        if not self.frames and CUT in self.notes.found:
            raise BadCapture(f"packets are cut before the end of their headers; {LONGER}")
        if not self.frames:
            raise BadCapture("it has no UDP or TCP over IPv4" + "".join(f"; {line}" for line in self.notes.lines()))

    def wire(self, udp=None, tcp=None):
        """What there is of the bridge whose addresses or ports are named. Where none is, the capture says which."""
        desks, wire = desks_in(self.lines, self.connections.listening), Wire(self.notes)
        choice = Choice(desks, Media(self.datagrams))
        wire.udp, wire.tcp = choice.pair(udp, tcp)
        if not wire.udp and not wire.tcp:
            raise BadCapture("no datagram and no operator's line of a bridge is in it")
        wire.others = sorted(one for one in choice.known if one != wire.tcp)
        return self.filled(wire, self.datagrams, desks.get(wire.tcp, ()))

    def filled(self, wire, datagrams, lines):
        """A bridge with what there is of it among some datagrams and lines."""
        for packet in sorted(datagrams, key=lambda packet: packet.moment):
            if packet.target == wire.udp:
                self.put(wire, wire.into, packet, packet.source)
            elif packet.source == wire.udp:
                self.put(wire, wire.out, packet, packet.target)
        wire.asked = [line for line in lines if line.target == wire.tcp]
        wire.answered = [line for line in lines if line.source == wire.tcp]
        moments = [one.moment for one in (*wire.into, *wire.out, *wire.asked, *wire.answered)]
        if not moments:
            cut = f": {wire.cut:,} packets are cut before the end of their headers; {LONGER}"
            raise BadCapture(f"no datagram and no operator's line of a bridge is in it{cut if wire.cut else ''}")
        wire.begin, wire.end = min(moments), max(moments)
        wire.zero = wire.begin
        wire.begun = {one for ends in self.connections.listening for one in ends - {wire.tcp} if wire.tcp in ends}
        wire.ends = {one: moment for (one, other), moment in self.connections.ends.items() if other == wire.tcp}
        return wire

    @staticmethod
    def put(wire, where, packet, peer):
        """Puts a datagram to the others. Of one that is cut, what its header says is enough, if that is there."""
        octets = packet.octets
        if not packet.missing:
            where.append(Datagram(packet.moment, peer, octets))
        elif len(octets) < HEADER or 192 <= octets[1] <= 223 or len(octets) < HEADER + 4 * (octets[0] & 15):
            wire.cut += 1
        else:
            # Padding is one octet: how much it is the last octet says, which isn't there.
            last = b"\x01" if octets[0] & 0x20 else b"\0"
            whole = octets + bytes(packet.missing - 1) + last
            where.append(Datagram(packet.moment, peer, whole, len(octets)))


def wire_of(stream, udp=None, tcp=None):
    """What a capture has of the bridge whose addresses or ports are named. Where none is, the capture says which."""
    reading = Reading(Notes())
    packets = list(Packets(reading.notes).of(frames_of(stream, reading.notes)))
    reading.take(packets, len(packets))
    reading.end()
    return reading.wire(udp, tcp)
