"""Lines in TCP connections: segments put in order, and what is missing of them."""

import dataclasses

FIN, SYN, RST, ACK = 1, 2, 4, 16
# A hole that so many octets lie behind was never captured. So it is, where later segments have come for so many
# nanoseconds.
MOST_BEHIND, LONGEST = 1 << 18, 3 * 10**9
# So many segments wait for what is before them at the beginning.
MOST_HELD = 256
CUT = "operators' lines are cut short, by `-s` of tcpdump: calls or answers are lost"
# The longest line of a bridge is one of `history`, with a group of 4,096 octets. A longer one is no bridge's.
MOST_OF_LINE = 8192
# So many directions of connections are followed at once. A bridge has 32 connections at most.
MOST_DIRECTIONS, MOST_ENDS = 256, 1 << 16


@dataclasses.dataclass(frozen=True)
class Line:
    """A line of a connection: when its end came, who sent it to whom, and its text. Behind a hole it isn't whole."""

    moment: int
    source: str
    target: str
    text: str
    is_whole: bool = True


class Direction:
    """What one end of a connection sends."""

    def __init__(self, source, target, notes, patience=0):
        self.source, self.target, self.notes = source, target, notes
        # What has come where it isn't known yet where it begins, since when, and for how long it waits for what is
        # before it.
        self.begins, self.patience = None, patience
        self.next, self.behind, self.text = None, {}, b""
        # A line isn't whole that stands behind a hole. A connection that was there before is taken to begin with a
        # whole line.
        self.is_whole, self.waits_since = True, None

    def take(self, packet):
        """The lines that a segment ends."""
        seq, octets = packet.seq, packet.octets
        if packet.flags & SYN:
            if self.next is not None:
                self.behind = {}
            self.next, self.is_whole, self.text = (seq + 1) % 2**32, True, b""
            yield from self.follow(packet.moment)
            return
        if not octets and not packet.missing:
            return
        if self.next is None:
            self.begins = self.begins or packet.moment
            self.behind[seq] = octets, packet.missing, packet.moment
            if packet.moment >= self.begins + self.patience or len(self.behind) == MOST_HELD:
                yield from self.start(packet.moment)
            return
        ahead = (seq - self.next + 2**31) % 2**32 - 2**31
        if ahead > 0:
            self.notes.add(f"TCP segments of {self.source} are out of order, and are put in order", packet.moment)
            self.waits_since = self.waits_since or packet.moment
            self.behind[seq] = octets, packet.missing, packet.moment
            waiting = sum(len(one[0]) for one in self.behind.values())
            if waiting < MOST_BEHIND and packet.moment < self.waits_since + LONGEST:
                return
            yield from self.skip(packet.moment)
        elif -ahead < len(octets) + packet.missing:
            yield from self.join(packet.moment, octets[-ahead:])
            self.cut(packet.moment, min(packet.missing, len(octets) + packet.missing + ahead))
        yield from self.follow(packet.moment)

    def start(self, moment):
        """The lines of what came first of a connection that was there before."""
        self.notes.add(f"the connection {self.source} to {self.target} was there before the capture", self.begins)
        some = next(iter(self.behind))
        self.next = min(self.behind, key=lambda seq: (seq - some + 2**31) % 2**32)
        yield from self.follow(moment, False)
        self.waits_since = moment if self.behind else None

    def follow(self, moment, is_filled=True):
        """The lines of what waited behind a hole that is filled, or was never captured."""
        while True:
            due = [seq for seq in self.behind if (seq - self.next + 2**31) % 2**32 <= 2**31]
            if not due:
                break
            octets, missing, came = self.behind.pop(due[0])
            # Where the hole before it was filled, it counts from then on; else it came when it came.
            moment = max(moment, came) if is_filled else came
            here = (self.next - due[0]) % 2**32
            yield from self.join(moment, octets[here:])
            self.cut(moment, max(0, min(missing, len(octets) + missing - here)))
        if not self.behind:
            self.waits_since = None

    def skip(self, moment):
        """Goes on behind a hole that isn't filled. The rest of the line is lost."""
        first = min(self.behind, key=lambda seq: (seq - self.next) % 2**32)
        lost = (first - self.next) % 2**32
        self.notes.add(
            f"{lost} octets of TCP from {self.source} to {self.target} are missing: calls or answers are lost", moment
        )
        self.next, self.text, self.is_whole = first, b"", False
        yield from self.follow(moment, False)

    def cut(self, moment, missing):
        """Goes on behind octets that were not captured. The rest of the line is lost."""
        if missing:
            self.notes.add(CUT, moment)
            self.next, self.text, self.is_whole = (self.next + missing) % 2**32, b"", False

    def join(self, moment, octets):
        """The lines that more octets end."""
        self.next = (self.next + len(octets)) % 2**32
        *whole, self.text = (self.text + octets).split(b"\n")
        for line in whole:
            yield Line(moment, self.source, self.target, line.decode("latin-1").removesuffix("\r"), self.is_whole)
            self.is_whole = True
        if len(self.text) > MOST_OF_LINE:
            self.notes.add(f"{self.source} sends lines of over {MOST_OF_LINE:,} octets, which are left out", moment)
            self.text, self.is_whole = b"", False

    def end(self, moment):
        """The lines that the end of the capture leaves behind holes."""
        if self.next is None and self.behind:
            yield from self.start(moment)
        while self.behind:
            yield from self.skip(moment)


class Connections:
    """The lines of all connections."""

    def __init__(self, notes, patience=0):
        # What comes first of a connection waits for so long for what is before it, in nanoseconds.
        self.patience = patience
        # By their ends: what each sends, and when it said that it ends. By both ends: which of them listens.
        self.notes, self.directions, self.ends, self.listening, self.last = notes, {}, {}, {}, 0

    def take(self, packet):
        """The lines that a segment ends."""
        key = packet.source, packet.target
        # The direction that was heard of last stands last.
        self.directions[key] = self.directions.pop(key, None) or Direction(*key, self.notes, self.patience)
        if len(self.directions) > MOST_DIRECTIONS:
            del self.directions[next(iter(self.directions))]
        for table in self.ends, self.listening:
            if len(table) > MOST_ENDS:
                del table[next(iter(table))]
        self.last = packet.moment
        if packet.flags & (FIN | RST):
            self.ends.setdefault(key, packet.moment)
        elif packet.flags & SYN:
            self.ends.pop(key, None)
            # The first SYN is that of the one who connects.
            self.listening.setdefault(frozenset(key), packet.source if packet.flags & ACK else packet.target)
        yield from self.directions[key].take(packet)

    def end(self):
        for direction in self.directions.values():
            yield from direction.end(self.last)
