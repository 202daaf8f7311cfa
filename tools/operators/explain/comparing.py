"""The media of a bridge on the wire, and how they differ from what the model sends."""

import collections
import dataclasses

from operators.packets import is_rtcp, number, payload_of, seq_of, ssrc_of

# A capture may have packets of a stream out of order by so much, in nanoseconds. What comes later is sent again.
DISORDER = 20_000_000
# A packet that the model sends is looked for among so many of its stream on the wire.
AHEAD = 64


@dataclasses.dataclass(frozen=True)
class Sent:
    """A media packet on the wire: its moment, its receiver, its octets, for a mix its tick, and how many octets the
    capture kept of one that it cut."""

    moment: int
    to: str
    octets: bytes
    tick: int = None
    kept: int = None


@dataclasses.dataclass(frozen=True)
class Difference:
    """What differs at a moment in a stream, by its kind, and how: the event of which the packet came, by how much the
    wire's timestamp is ahead, and the sources that the model has in the packet and the wire hasn't."""

    moment: int
    stream: int
    kind: str
    text: str
    cause: object = None
    ahead: int = 0
    lacking: tuple = ()


class Streams:
    """The first sendings of each stream on the wire, in their order, and what was sent again."""

    def __init__(self, wire, places):
        self.firsts, self.again, self.control = collections.defaultdict(list), [], []
        # Whether the capture lacks octets of what comes.
        self.is_cut, greatest = any(one.kept is not None for one in wire.into), {}
        for datagram in wire.out:
            octets = datagram.octets
            if len(octets) < 12 or is_rtcp(octets):
                self.control.append(datagram)
                continue
            out, seq = ssrc_of(octets), seq_of(octets)
            ahead = (seq - greatest.get(out, seq - 1)) % 65536
            tick = places.get((out, seq, datagram.moment))
            sent = Sent(datagram.moment, datagram.peer, octets, tick, datagram.kept)
            if 0 < ahead < 32768:
                greatest[out] = seq
                self.firsts[out].append(sent)
            elif not self.put(self.firsts[out], sent):
                self.again.append(datagram)

    @staticmethod
    def put(packets, sent):
        """Puts a packet that the capture has out of order to its place in a stream, if its number isn't there. Whether
        it did."""
        seq, at = seq_of(sent.octets), len(packets)
        while at and 0 < (seq_of(packets[at - 1].octets) - seq) % 65536 < 32768:
            at -= 1
            if sent.moment - packets[at].moment > DISORDER:
                return False
        if at and seq_of(packets[at - 1].octets) == seq:
            return False
        packets.insert(at, sent)
        return True


def is_like(sent, octets, count):
    """Whether a packet on the wire has these octets, as far as so many of them say it."""
    return len(sent.octets) == len(octets) and sent.octets[:count] == octets[:count]


def header_differences(wire, model):
    """The fields in which two RTP packets differ, in words."""
    fields = [
        ("marker", wire[1] >> 7, model[1] >> 7), ("type", wire[1] & 127, model[1] & 127),
        ("number", seq_of(wire), seq_of(model)),
        ("timestamp", number(wire[4:8]), number(model[4:8])),
        ("sources", sources_of(wire), sources_of(model)),
    ]  # fmt: skip
    told = [f"{name} {one}, not {other}" for name, one, other in fields if one != other]
    one, other = payload_of(wire), payload_of(model)
    if one != other:
        told.append(f"{sum(a != b for a, b in zip(one, other)) + abs(len(one) - len(other))} octets of the payload")
    return told


def sources_of(octets):
    """The contributing sources of a packet."""
    return [number(octets[at : at + 4]) for at in range(12, 12 + 4 * (octets[0] & 15), 4)]


def is_but_numbers(wire, model):
    """Whether two packets are equal but for their sequence numbers and timestamps."""
    return wire[:2] == model[:2] and wire[8:] == model[8:]


class Cursor:
    """How far the model has come in each stream of the wire, and what differed on the way."""

    def __init__(self, streams):
        self.streams, self.at, self.found, self.equal = streams, collections.Counter(), [], 0

    def state(self):
        return dict(self.at), len(self.found), self.equal

    def go_back(self, state):
        at, found, self.equal = state
        self.at = collections.Counter(at)
        del self.found[found:]

    def next(self, out):
        """The next packet of a stream on the wire, or None."""
        packets = self.streams.firsts.get(out, ())
        return packets[self.at[out]] if self.at[out] < len(packets) else None

    def note(self, moment, out, kind, text, cause=None, ahead=0, lacking=()):
        self.found.append(Difference(moment, out, kind, text, cause, ahead, tuple(lacking)))

    def take(self, event, out, to, octets, tick=None):
        """Compares a packet that the model sends, as an event has it do, with the wire. The kind of their difference,
        or None, and the packet on the wire that it became."""
        ahead = self.places_ahead(out, octets, tick)
        for _ in range(ahead or 0):
            self.extra(out)
        due = self.next(out)
        if ahead is None or not due:
            return self.missing(event, out, octets, due), None
        self.at[out] += 1
        count = self.comparable(due, tick)
        if is_like(due, octets, count) and due.to == to:
            self.equal += 1
            return None, due
        wire, model = due.octets[:count], octets[:count]
        told = header_differences(wire, model) or [f"sent to {due.to}, not to {to}"]
        is_marker = told[0].startswith("marker") and len(told) == 1
        kind = "numbers" if is_but_numbers(wire, model) else "marker" if is_marker else "octets"
        self.note(
            due.moment,
            out,
            kind,
            f"number {seq_of(due.octets)}: {'; '.join(told)}",
            event,
            ahead_of(due.octets, octets),
            set(sources_of(octets)) - set(sources_of(due.octets)),
        )
        return kind, due

    def comparable(self, sent, tick):
        """How many octets of a packet on the wire can be compared: its header, where the capture lacks sound that is in
        a mix."""
        if tick is not None and self.streams.is_cut:
            return 12 + 4 * (sent.octets[0] & 15)
        return sent.kept if sent.kept is not None else len(sent.octets)

    def places_ahead(self, out, octets, tick):
        """How many packets of the wire stand before the one that a packet of the model became, or None if it isn't
        there: that of its tick, or one with its sources and payload."""
        packets, at = self.streams.firsts.get(out, ()), self.at[out]
        for n, sent in enumerate(packets[at : at + AHEAD]):
            last = self.comparable(sent, tick)
            if (
                sent.tick == tick
                if tick is not None and sent.tick is not None
                else sent.octets[12:last] == octets[12:last]
            ):
                return n
        return None

    def missing(self, event, out, octets, due):
        """Notes that the wire lacks a packet of the model: the bridge goes on with its number, or the capture lacks
        it."""
        seq = seq_of(octets)
        if due and (seq - seq_of(due.octets)) % 65536 < AHEAD:
            text = f"number {seq}: the bridge didn't send what the model sends"
            self.note(event.place, out, "unsent", text, event, lacking=sources_of(octets))
            return "unsent"
        self.note(event.place, out, "uncaptured", f"number {seq} isn't in the capture", event)
        return "uncaptured"

    def extra(self, out):
        """Notes that the wire has a packet that the model doesn't send."""
        due = self.next(out)
        self.at[out] += 1
        named = ", ".join(map(str, sources_of(due.octets)))
        self.note(due.moment, out, "extra", f"number {seq_of(due.octets)}, of {named}: the model sends no such packet")

    def extras_before(self, moment, tick):
        """Notes all packets that were on the wire before a moment, and all mixes up to a tick, that the model doesn't
        send. The streams that have such packets."""
        behind = []
        for out in self.streams.firsts:
            while True:
                due = self.next(out)
                if not due or (due.tick > tick if due.tick is not None else due.moment > moment):
                    break
                self.extra(out)
                behind.append(out)
        return behind


    def pass_by(self, moment, tick):
        """Passes all packets by that were on the wire before a moment, and all mixes up to a tick."""
        for out, packets in self.streams.firsts.items():
            while self.at[out] < len(packets):
                due = packets[self.at[out]]
                if due.tick > tick if due.tick is not None else due.moment > moment:
                    break
                self.at[out] += 1


def ahead_of(wire, octets):
    """By how much a packet on the wire has a greater timestamp."""
    return (number(wire[4:8]) - number(octets[4:8]) + 2**31) % 2**32 - 2**31
