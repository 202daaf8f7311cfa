"""Explains a capture: what it has of a bridge, the script of it, and what differs from the wire."""

import dataclasses

from operators.explain.amending import UNTRIED, Search
from operators.explain.comparing import Streams
from operators.explain.desks import rows_of, streams_of
from operators.explain.events import events_of, pauses_of, who_speaks
from operators.explain.operators import calls_of
from operators.explain.running import Run, running_sources, ticks_late
from operators.explain.ticks import GAP, grid_of
from operators.explain.wire import wire_of

# What would be sent so shortly before the end may come behind it, in nanoseconds.
TAIL = 40_000_000
# What tells the desk of a piece of a long capture.
BEFORE = "what came before"
# By so many ticks a bridge may have been late from the beginning.
LATE, MOST_LATE = 2, 250


@dataclasses.dataclass
class Explained:
    """A capture, the calls of its operators, and the run of the model over it, or None where the desk is unknown. From
    the moment `begin` on the desk is known. `search` looked for the order of what happened, but of a script, which says
    it."""

    wire: object
    calls: list
    streams: object
    grid: object
    run: object
    begin: int
    search: object = None

    def is_known(self, moment):
        """Whether the desk was known at a moment."""
        run = self.run
        if not run or moment < self.begin or run.lost and moment >= run.lost:
            return False
        return not any(a < moment < b for a, b in run.unknown)


def beginning(wire, calls, told, given):
    """The desk with which a capture begins: None for an empty one. The moment from which on it is known, or None if it
    isn't."""
    if given:
        return given, wire.begin
    versions = [version for _, version in told.versions] + [call.number - 1 for call in calls if call.number]
    if versions and min(versions) == 0:
        return None, wire.begin
    for shown in (one for one in told.shown if rows_of(one) is not None):
        # An earlier answer may tell that there was this version already.
        return shown, min([shown.until, *(moment for moment, version in told.versions if version == shown.version)])
    return None, None


def explained(stream, udp=None, tcp=None, given=None):
    """Explains what a stream of octets holds. `given` is a file's desk."""
    return explain_wire(wire_of(stream, udp, tcp), given)


def explain_wire(wire, given=None):
    """Explains what there is of a bridge."""
    given, later = given.at(wire.begin) if given else (None, ())
    calls, told = calls_of(wire, later)
    wire.pauses = pauses_of(wire)
    for begin, end in wire.pauses:
        long = f"{(end - begin) / 1e9:,.1f} s"
        text = f"nothing is captured for {long}, or the clock was set: what was before is forgotten"
        wire.notes.add(text, begin)
    base, begin = beginning(wire, calls, told, given)
    texts = [call.text for call in calls]
    for one in [*told.shown, *([base] if base else [])]:
        texts += [*one.rows, *(text for _, text in (*one.calls, *one.undone, *one.log))]
    grid, places = grid_of(wire, streams_of(texts))
    streams = Streams(wire, places)
    if begin is None:
        return Explained(wire, calls, streams, grid, None, wire.begin)
    run = Run(wire, streams, who_speaks(streams.control), base)
    run.numbers = sorted(call.number for call in calls if call.number)
    run.tail = wire.end - TAIL - grid.lateness()
    if base:
        if base.by != BEFORE:
            text = f"the capture begins in mid-call: the desk is that of {base.by}"
            wire.notes.add(f"{text}, and what waited in buffers is unknown", begin)
        run.settled = max(run.settled, begin + run.settled - base.until)
        run.running.update(running_sources(wire, begin))
        for packets in streams.firsts.values():
            packets[:] = [sent for sent in packets if sent.moment >= begin]
    # Calls up to this version are in the desk's rows already.
    known = begin, base.version or 0 if base else 0
    later = [one for one in told.shown if one is not base]
    if not base:
        late = ticks_late(
            Run(wire, streams, who_speaks(streams.control)), events_of(wire, calls, later, grid, streams.control, known)
        )
        if LATE <= late <= MOST_LATE:
            grid.base -= late * GAP
            run.tail = grid.moment(max(grid.mixes)) + 1
            wire.notes.add(
                f"the bridge was late from the beginning, by {late * GAP // 10**6} ms or more: its machine is busy",
                begin,
            )
    search = Search(run, events_of(wire, calls, later, grid, streams.control, known))
    search.go()
    for text, moment in [*run.odd, *((UNTRIED, moment) for moment in search.untried)]:
        wire.notes.add(text, moment)
    return Explained(wire, calls, streams, grid, run, begin, search)
