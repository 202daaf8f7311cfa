"""Explains a long capture piece by piece. Of each there is in memory what it takes, and its desk goes on to the next.

A piece begins with what came in the seconds before it: so what waits in buffers is known by then. Of these seconds
nothing is told. The desk at their beginning is the one that the piece before came to, with the calls that made it, so
that they can be undone. Where that isn't known, it takes a `show`, `groups`, `history` or `calls`, as at the beginning
of a capture.
"""

import itertools

from operators.captures.files import frames_of
from operators.captures.links import Packets
from operators.captures.notes import BadCapture, Notes
from operators.explain.desks import has_reverts
from operators.explain.explaining import BEFORE, explain_wire
from operators.explain.operators import Shown
from operators.explain.wire import Reading, Wire
from operators.models.desk import Log

# A capture that is longer, in nanoseconds, or has more datagrams, is explained by pieces, each of so many seconds.
LONG, MANY, USUAL = 300_000_000_000, 150_000, 120
# So long before a piece and behind it, in nanoseconds, what comes is looked at, too.
EARLIER, LATER = 2_000_000_000, 500_000_000
# So many packets are read at once. What stands behind them tells whether a clock was set.
AT_ONCE, AHEAD = 4096, 4096
# A desk of more calls than this, or with a revert, goes on without them: an undo or a revert of one of them isn't known
# then.
CALLS = 500


class Source:
    """The packets of a capture, as far as they have been read."""

    def __init__(self, stream, at_once=AT_ONCE):
        self.reading, self.at_once = Reading(Notes()), at_once
        self.packets = Packets(self.reading.notes).of(frames_of(stream, self.reading.notes))
        self.ahead, self.has_ended = [], False

    def moments(self):
        return [one.moment for one in (*self.reading.datagrams, *self.reading.lines)]

    def read_on(self):
        """Reads some packets more."""
        self.ahead += itertools.islice(self.packets, self.at_once + AHEAD - len(self.ahead))
        self.has_ended = len(self.ahead) <= self.at_once
        del self.ahead[: self.reading.take(self.ahead, self.at_once)]
        if self.has_ended:
            self.reading.end()

    def read_until(self, moment):
        """Reads on to a moment, or until there are too many datagrams and lines. The moment to which it has read."""
        while not self.has_ended:
            moments = self.moments()
            if len(moments) >= MANY or max(moments, default=0) >= moment:
                return max(moments, default=0)
            self.read_on()
        return moment

    def whole(self):
        """Reads all that is left. What was read."""
        while not self.has_ended:
            self.read_on()
        return self.reading

    def next_from(self, moment):
        """The moment of what comes first from a moment on, or None."""
        while True:
            due = [one for one in self.moments() if one >= moment]
            if due or self.has_ended:
                return min(due, default=None)
            self.read_on()

    def forget(self, end):
        """Forgets what the piece behind a moment doesn't look at, and what was noted of the one before it."""
        reading, first = self.reading, end - EARLIER
        reading.datagrams = [one for one in reading.datagrams if one.moment >= first]
        reading.lines = [one for one in reading.lines if one.moment >= first]
        later = {text: noted for text, noted in reading.notes.found.items() if (noted[1] or 0) >= end}
        reading.notes.found.clear()
        reading.notes.found.update(later)


class Desk:
    """The desk that a piece came to, and the calls of another source that come later. Of the piece itself nothing is
    kept."""

    def __init__(self, explained, later=()):
        run, self.later, self.lines = explained.run, later, None
        if run:
            self.lost, self.unknown, self.floor = run.lost, run.unknown, run.floor
            self.first, self.bridge = run.shown.version if run.shown else 0, run.bridge.desk.bridge
            lines = [done for done in run.done if done.line.startswith("desk ")]
            self.lines = [(*told_by(done.event, run), *done.line.split(" ", 2)[1:]) for done in lines]

    def is_known(self, moment):
        """Whether the desk was known at a moment."""
        is_lost = self.lines is None or self.lost and moment >= self.lost
        return not is_lost and not any(a < moment < b for a, b in self.unknown)

    def at(self, moment):
        """The desk at a moment, or None where it isn't known, and the calls that come later."""
        later = tuple(call for call in self.later if call[1] >= moment)
        if not self.is_known(moment):
            return None, later
        log, version = Log(), self.first
        log.desk.bridge = self.bridge
        for number, place, seat, text in self.lines:
            if place >= moment:
                break
            if log.call(text.split(" "), int(seat)).startswith("ok "):
                version = number if number is not None else version and version + 1
        rows, (calls, undone) = tuple(log.desk.shown(0)[:-1]), map(said_in, (log.done, log.undone))
        shown = Shown(moment, moment, rows, version, calls, undone, min(self.floor, len(calls)), BEFORE)
        if version is None or len(calls) + len(undone) > CALLS or has_reverts(shown):
            shown = Shown(moment, moment, rows, version, by=BEFORE)
        return shown, later


def said_in(stack):
    """The calls of a stack of a log, each with its operator."""
    return tuple((seat, " ".join(words)) for (_, seat, words), _ in stack)


def told_by(event, run):
    """The number of the desk behind what made a line of the script, None where it is the next one; and its moment."""
    if isinstance(event, Shown):
        return event.version, event.until if event is not run.shown else 0
    return event.what.number or None, event.what.at


class Pieces:
    """Explains a capture by pieces."""

    def __init__(self, source, seconds, udp=None, tcp=None, given=None):
        self.source, self.length, self.named, self.given = source, int(seconds * 10**9), (udp, tcp), given
        # The bridge and others that there are, once a piece has them; when the capture begins; the seats and the names
        # of operators.
        self.bridge, self.zero, self.seats, self.names = (None, None, ()), None, {}, {}

    def all(self):
        """Each piece that has something of the bridge, explained, with its moments."""
        source = self.source
        begin = self.zero = source.next_from(0)
        while begin is not None:
            end = begin + self.length
            read = source.read_until(end + self.length // 4 + LATER)
            last = max(source.moments())
            if source.has_ended and last < end + self.length // 4:
                # What is left is no piece of its own.
                end = last + 1
            else:
                # Where much comes, a piece is shorter.
                end = max(begin + LATER, min(end, read - LATER))
            it = self.piece(begin, end)
            if it:
                yield it, (begin, end - 1)
            source.forget(end)
            begin = source.next_from(end)

    def piece(self, begin, end):
        """What there is of the bridge in a piece, explained, or None."""
        wire = self.wire_between(begin - EARLIER, end + LATER)
        if not wire:
            return None
        wire.zero, wire.seats, wire.names = self.zero, self.seats, self.names
        later = self.given.at(wire.begin)[1] if self.given else ()
        it = explain_wire(wire, self.given)
        staying = [call for call in it.calls if call.client not in wire.ends]
        self.seats = {call.client: call.seat for call in staying}
        self.names = {call.client: call.name for call in staying}
        self.given = Desk(it, later)
        return it

    def wire_between(self, begin, end):
        """What there is of the bridge between two moments, or None. The first piece says which one it is."""
        reading, part = self.source.reading, Reading(self.source.reading.notes)
        part.connections = reading.connections
        part.datagrams = [one for one in reading.datagrams if begin <= one.moment < end]
        part.lines = [one for one in reading.lines if begin <= one.moment < end]
        udp, tcp, _ = self.bridge
        try:
            if udp and tcp:
                wire = Wire(reading.notes)
                wire.udp, wire.tcp, wire.others = self.bridge
                return part.filled(wire, part.datagrams, part.lines)
            if not part.datagrams and not part.lines:
                return None
            wire = part.wire(udp or self.named[0], tcp or self.named[1])
        except BadCapture as why:
            if udp or tcp or str(why).startswith("no "):
                # Nothing of this bridge, or of any one.
                return None
            raise
        self.bridge = wire.udp, wire.tcp, wire.others
        return wire
