"""What happened to a bridge, in the order in which it seems to have taken it: datagrams, calls, ticks and reports."""

import bisect
import collections
import dataclasses
import re
import statistics

from operators.explain.ticks import GAP, moment_of_ntp, position
from operators.packets import number

RX, CALL, SHOWN, TICK, REPORT, PAUSE = range(6)
# A time without a packet that is longer is one of which nothing is known. The limits are tried until no more than so
# many ticks come on a packet, beside the first ones.
SILENCES, MOST_TICKS, FIRST_TICKS = (60_000_000_000, 10_000_000_000, 2_000_000_000, 400_000_000), 50, 3000
# The compounds of one report leave within so many nanoseconds, and so soon behind its moment.
TOGETHER, SENT = 500_000_000, 200_000
# How soon a datagram wakes the bridge, in nanoseconds.
LEAST_WOKEN, MOST_WOKEN = 200_000, 4_000_000
# A tick that brings no mix may be so late, in nanoseconds.
LATE = 400_000_000


@dataclasses.dataclass
class Event:
    """What happened: its kind, the place in time at which it seems to have been taken, its moment in a script, and what
    it is: a datagram, a call, what `show` told, a tick's number, or the end of a time without packets. Of ticks
    and calls, when it was taken at the latest. A tick of a round in which another one follows has no wait."""

    kind: int
    place: int
    moment: int
    what: object
    latest: int = 0
    waits: bool = True

    def key(self):
        return self.place, ORDER[self.kind], self.turn(), self.moment

    def turn(self):
        """The order of calls and of what `show` told, by the desk's versions."""
        if self.kind == CALL:
            return 2 * self.what.number
        return 2 * (self.what.version or 0) + 1 if self.kind == SHOWN else 0


# What stands first where two events have one place. Calls and desks have the order of their versions.
ORDER = {PAUSE: 0, RX: 1, CALL: 2, SHOWN: 2, TICK: 3, REPORT: 4}


def pauses_of(wire):
    """The times in which nothing was captured, so long that nothing is known of them: pairs of moments."""
    moments = sorted(one.moment for one in (*wire.into, *wire.out, *wire.asked, *wire.answered))
    found = []
    for limit in SILENCES:
        found = [(one, other) for one, other in zip(moments, moments[1:]) if other - one > limit]
        ticks = (wire.end - wire.begin - sum(other - one for one, other in found)) // GAP
        if ticks <= MOST_TICKS * len(moments) + FIRST_TICKS:
            break
    return found


def is_report(octets):
    """Whether a compound of the bridge is part of a report: others begin with a receiver report without a block."""
    return len(octets) >= 8 and (octets[1] == 200 or octets[1] == 201 and octets[0] & 31 > 0)


def report_moments(wire, control):
    """The moment of each report: that of its sender reports, or else before its first compound."""
    groups = []
    for datagram in control:
        if is_report(datagram.octets):
            if not groups or datagram.moment > groups[-1][0].moment + TOGETHER:
                groups.append([])
            groups[-1].append(datagram)
    for group in groups:
        moments = [
            moment_of_ntp(datagram.octets[8:16])
            for datagram in group if datagram.octets[1] == 200 and len(datagram.octets) >= 28
        ]
        moment = max(set(moments), key=moments.count) if moments else -1
        yield group[0].moment, moment if moment >= 0 else max(0, group[0].moment - SENT)


def latency_of(wire, control):
    """How long after a datagram the bridge asks its sender for something, as a rule. What comes until then it takes in
    the same round, before a tick."""
    arrivals = collections.defaultdict(list)
    for datagram in wire.into:
        arrivals[datagram.peer].append(datagram.moment)
    delays = []
    for asked in control:
        at = bisect.bisect_right(arrivals[asked.peer], asked.moment)
        if at and not is_report(asked.octets):
            delays.append(asked.moment - arrivals[asked.peer][at - 1])
    return min(MOST_WOKEN, max(LEAST_WOKEN, statistics.median(delays))) if delays else LEAST_WOKEN


def spans_without(pauses, begin, end):
    """The times between pauses."""
    for one, other in pauses:
        if one > begin:
            yield begin, min(end, one)
        begin = max(begin, other - GAP)
    if begin <= end:
        yield begin, end


def tick_events(wire, grid, begin, latency):
    """The ticks from a moment to the end of the capture, but for times in which nothing was captured."""
    arrivals, events = [datagram.moment for datagram in wire.into], []
    spans = spans_without(wire.pauses, begin, wire.end)
    bounds = [(-(-(one - grid.base) // GAP), (other - grid.base) // GAP) for one, other in spans]
    for tick in (n for first, last in bounds for n in range(first, last + 1)):
        at = bisect.bisect_left(arrivals, grid.moment(tick))
        place, latest = position(grid, tick, arrivals[at] if at < len(arrivals) else None, latency)
        place = max(place, events[-1].place if events else 0)
        events.append(Event(TICK, place, grid.moment(tick), tick, max(place, latest)))
    # A tick was given before the mixes of those behind it left.
    for tick, following in zip(events[-2::-1], events[:0:-1]):
        if tick.what not in grid.mixes:
            tick.latest = max(tick.latest, min(following.latest, tick.moment + LATE))
    set_waits(events)
    return events


def set_waits(ticks):
    """Lets time pass once in a round of ticks."""
    for tick, following in zip(ticks, ticks[1:]):
        tick.waits = following.place - tick.place >= GAP // 20


def events_of(wire, calls, shown, grid, control, known):
    """All that happened from a moment on, in order. `known` is that moment, and the version of the desk then: calls up
    to it are in its rows."""
    begin, after = known
    events = [Event(RX, d.moment, d.moment, d) for d in wire.into if d.moment >= begin]
    events += [Event(PAUSE, b - GAP, b - GAP, (a, b)) for a, b in wire.pauses if a > begin]
    events += [
        Event(CALL, call.at, call.at, call, call.until or call.at)
        for call in calls if call.is_call() and (call.number > after if call.number else call.at >= begin)
    ]
    events += [Event(SHOWN, one.until, one.until, one) for one in shown if one.until >= begin]
    ticks = tick_events(wire, grid, begin, int(latency_of(wire, control)))
    events += ticks
    places = [event.place for event in ticks]
    for sent, moment in report_moments(wire, control):
        if sent >= begin:
            # It is the end of a round: what came before it left was taken.
            at = bisect.bisect_right([event.moment for event in ticks], moment)
            place = max(moment, places[at - 1] if at else 0)
            events.append(Event(REPORT, min(place, sent), moment, None))
    return sorted(events, key=Event.key)


def who_speaks(control):
    """The SSRC and the CNAME under which the bridge speaks, and whether a compound said so."""
    ssrc, name = None, None
    for datagram in control:
        octets = datagram.octets
        if len(octets) < 8 or octets[1] not in (200, 201):
            continue
        at = 4 + 4 * number(octets[2:4])
        if octets[1] == 201:
            ssrc = number(octets[4:8])
        if octets[at + 1 : at + 2] == b"\xca" and len(octets) > at + 10 and octets[at + 8] == 1:
            name = octets[at + 10 : at + 10 + octets[at + 9]].decode("latin-1")
    # A script has room for octets from 33 to 126 alone.
    return 1 if ssrc is None else ssrc, re.sub(r"[^!-~]", "_", name or "bridge")
