"""What passes a bridge: its desk, its sources, what becomes of their datagrams, its streams and what reports say."""

import collections

from operators.captures.lines import Connections
from operators.captures.links import UDP
from operators.explain.desks import calls_for, rows_of
from operators.explain.operators import MOST_WAITING, Answers, Call, Told
from operators.explain.quick import QuickGates
from operators.explain.senders import Senders, is_rtp, outcome_of, source_key
from operators.explain.wire import is_port_of
from operators.models.bridge import Bridge
from operators.models.codec import Dropped, read_rtcp
from operators.models.desk import Log
from operators.packets import number


# So many senders that are no source are kept, as many as the bridge keeps. After so long without a packet, in
# nanoseconds, one makes way for another.
UNKNOWN, SILENT = 64, 2_000_000_000
# So many sources, streams and reports are kept, and so many connections.
MOST, CONNECTIONS = 5120, 64


def keep(found, key, value, most=MOST):
    """Keeps a value in a table as the last one. Where there are too many, the one that is kept longest goes."""
    found.pop(key, None)
    found[key] = value
    if len(found) > most:
        del found[next(iter(found))]


class Judge(QuickGates, Bridge):
    """The model of the receive side, for as long as one likes."""


class Said:
    """What a report block says of a stream: the share that is lost, how many packets in all, and the jitter in its
    units."""

    def __init__(self, block):
        self.fraction, self.lost = block[4] / 256, int.from_bytes(block[5:8], "big", signed=True)
        self.jitter = number(block[12:16])


def blocks_in(octets):
    """The report blocks of a compound, by the SSRCs that they are about."""
    try:
        packets = read_rtcp(octets)
    except Dropped:
        return {}
    found = {}
    for pt, count, body in packets:
        first = {200: 24, 201: 4}.get(pt)
        if first:
            found |= {
                number(body[at : at + 4]): Said(body[at : at + 24]) for at in range(first, first + 24 * count, 24)
            }
    return found


class Seen:
    """What has passed a bridge since the beginning."""

    def __init__(self, notes, udp, tcp):
        self.notes, self.udp, self.tcp = notes, udp, tcp
        self.judge, self.senders, self.is_known = Judge(), Senders(), False
        # Streams by receiver and SSRC: packets and the moment of the last one. Reports of the bridge and of receivers.
        self.streams, self.by_bridge, self.by_receivers = {}, {}, {}
        self.connections, self.answers, self.told = Connections(notes), {}, Told()
        # The keys of senders that are no source, and how many datagrams of others are left out.
        self.strangers, self.left_out = set(), 0
        self.begin = self.now = None

    @property
    def desk(self):
        return self.judge.desk

    def take(self, packet):
        """Counts a packet."""
        self.begin, self.now = self.begin or packet.moment, packet.moment
        if packet.protocol != UDP:
            for line in self.connections.take(packet):
                self.take_line(line)
        elif is_port_of(packet.target, self.udp):
            self.comes(packet)
        elif is_port_of(packet.source, self.udp):
            self.goes(packet)

    def comes(self, packet):
        """A datagram for the bridge."""
        outcome = outcome_of(self.judge.rx(packet.moment, packet.source, packet.octets)) if self.is_known else None
        if self.has_place(packet):
            self.senders.take(packet.moment, packet.source, packet.octets, outcome)
        else:
            self.left_out += 1
        if not is_rtp(packet.octets) and not (self.is_known and self.member_at(packet.source) is None):
            for ssrc, said in blocks_in(packet.octets).items():
                keep(self.by_receivers, (packet.source, ssrc), said)

    def has_place(self, packet):
        """Whether a datagram is counted for its sender: that of a source is, and those of so many others."""
        if not is_rtp(packet.octets):
            places = {address for address, _, _ in self.senders.others}
            return packet.source in places or len(places) < UNKNOWN or self.member_at(packet.source) is not None
        sources, key = self.senders.sources, source_key(packet.source, packet.octets)
        if key in sources:
            return True
        if self.is_source(*key[:2]):
            return len(sources) < MOST
        if len(self.strangers) >= UNKNOWN:
            silent = min(self.strangers, key=lambda one: sources[one].last)
            if packet.moment - sources[silent].last < SILENT:
                return False
            self.strangers.remove(silent)
            del sources[silent]
        self.strangers.add(key)
        return True

    def goes(self, packet):
        """A datagram of the bridge."""
        if is_rtp(packet.octets):
            key = packet.target, number(packet.octets[8:12])
            count, _ = self.streams.get(key, (0, 0))
            keep(self.streams, key, (count + 1, packet.moment))
        else:
            for ssrc, said in blocks_in(packet.octets).items():
                keep(self.by_bridge, (packet.target, ssrc), said)

    # The desk

    def take_line(self, line):
        """A line to or from the bridge's desk."""
        if is_port_of(line.target, self.tcp):
            answers = self.answers.get(line.source) or Answers([], self.told)
            keep(self.answers, line.source, answers, CONNECTIONS)
            answers.waiting.append(Call(line.moment, line.source, line.text))
            if len(answers.waiting) > MOST_WAITING:
                answers.waiting.popleft()
        elif is_port_of(line.source, self.tcp) and line.target in self.answers:
            answers = self.answers[line.target]
            asked = answers.waiting[0] if answers.waiting else None
            answers.take(line)
            shown, calls, self.told.versions[:] = [*self.told.shown], {**self.told.calls}, []
            self.told.shown.clear()
            self.told.calls.clear()
            self.told.listed.clear()
            self.told.names.clear()
            self.told.lost.clear()
            self.told.made = 0
            rows = rows_of(shown[-1]) if shown else None
            if rows is not None:
                self.is_desk(rows, shown[-1].version)
            for number, (moment, seat, text) in calls.items():
                if number > self.judge.log.version:
                    self.is_called(Call(moment, "", text, seat, f"ok {number}", moment, number))
            if shown or calls:
                return
            if asked and asked.number:
                self.is_called(asked)

    def is_desk(self, rows, version):
        """The desk has these rows."""
        log = Log()
        log.desk.bridge = self.judge.ssrc
        for call in calls_for(log.desk, rows, {}):
            log.call(call.split(" "))
        # Which calls made it isn't known: one that takes such a call back makes the desk unknown.
        log.done, log.undone = [], []
        log.version, self.judge.log, self.is_known = version, log, True
        self.look_again()

    def is_called(self, call):
        """The bridge accepted a call. If a call before it wasn't seen, the desk is unknown until a `show`."""
        log = self.judge.log
        if call.number == 1:
            self.judge.log = log = Log()
            self.is_known = True
        if self.is_known and log.version + 1 == call.number:
            self.is_known = call.is_call() and log.call(call.text.split(" ")) == call.answer
        elif log.version < call.number:
            self.is_known = False
        self.look_again()

    def look_again(self):
        """Looks who is no source by the present desk."""
        self.strangers = {one for one in self.senders.sources if not self.is_source(*one[:2])}

    def member_at(self, address):
        row = self.desk.one("members", address=address) if self.is_known else None
        return row["member"] if row else None

    def unknown(self):
        """Each source whose packets are dropped as unknown, and the line that would add it."""
        for source in self.senders.sources.values():
            if source.outcomes["dropped Unknown"] and not self.is_source(source.address, source.ssrc):
                yield source, self.advice(source)

    def is_source(self, address, ssrc):
        """Whether the desk has a source at an address."""
        row = self.desk.source(ssrc)
        return row is not None and row["member"] == self.member_at(address)

    def advice(self, source):
        """What would let a source in."""
        member, row = self.member_at(source.address), self.desk.source(source.ssrc)
        if row:
            right = self.desk.one("members", member=row["member"])["address"]
            return f"SSRC {source.ssrc} is a source of member {row['member']}, who has the address {right}"
        kind = "audio" if source.rate != 90000 or source.pt in (8, 9) else "video"
        if member is None:
            return f"no member has this address: add-member, then `add-source {source.ssrc} MEMBER {kind}`"
        return f"`add-source {source.ssrc} {member} {kind}`"


class Intervals:
    """What came of each source between two looks."""

    def __init__(self):
        self.before = collections.defaultdict(lambda: (0, 0, 0, 0))

    def since(self, key, source):
        """Packets, speaking packets, power and samples of a source since the last look."""
        now = source.packets, source.speaking, source.power, source.samples
        found = tuple(a - b for a, b in zip(now, self.before[key]))
        self.before[key] = now
        return found

    def forget(self, keys):
        """Forgets what is looked at no longer."""
        for key in [key for key in self.before if key not in keys]:
            del self.before[key]
