"""Runs the model of the bridge over what happened, in the order that explains the wire best."""

import bisect
import collections
import dataclasses
import re

from operators.explain.comparing import Cursor
from operators.explain.desks import calls_for, has_reverts, rows_of, with_firsts, without_firsts
from operators.explain.events import CALL, PAUSE, REPORT, RX, SHOWN, TICK
from operators.explain.quick import QuickBridge
from operators.packets import number, seq_of

# A wait comes so long behind its tick, in nanoseconds.
WAITED = 100_000
# What waited in buffers before a capture that begins in mid-call counts for so long, in nanoseconds.
SETTLED = 700_000_000
# A source whose first packet comes so soon after the beginning of a capture in mid-call was heard before, in
# nanoseconds.
SOON = 200_000_000
# What becomes of a datagram, where the desk isn't known.
UNKNOWN = "rx unknown"


@dataclasses.dataclass(frozen=True)
class Done:
    """A line of the script: what it is of, what the model answered, the desk's version and how far ahead its sound
    came."""

    line: str
    said: tuple
    event: object
    version: int
    far: int = None


def running_sources(wire, begin):
    """The sources that seem to have been heard before a moment, as they are named by their packets."""
    at = bisect.bisect_left(wire.into, begin, key=lambda one: one.moment)
    end = bisect.bisect_left(wire.into, begin + SOON, key=lambda one: one.moment)
    near = {named(d): 1 for d in wire.into[at:end] if len(d.octets) >= 12 and not 192 <= d.octets[1] <= 223}
    # A source without two numbers in a row stays on probation.
    last, found = {}, {}
    for datagram in wire.into[at:]:
        key = named(datagram)
        if key in near and key not in found:
            if key in last and (seq_of(datagram.octets) - last[key]) % 65536 == 1:
                found[key] = 1
                if len(found) == len(near):
                    break
            last[key] = seq_of(datagram.octets)
    return found


def named(datagram):
    """A source as its packets name it."""
    return datagram.peer, datagram.octets[8:12]


class Run:
    """The model and the script, as far as they have come."""

    def __init__(self, wire, streams, speaker, shown=None):
        self.wire, self.bridge, self.cursor, self.done = wire, QuickBridge(), Cursor(streams), []
        # What the model sends from here on may come behind the end of the capture.
        self.tail = wire.end
        # Of a capture that begins in mid-call: by how much numbers of calls differ, the first numbers of streams, how
        # many undos lead back to the beginning, and the calls up to which number made the desk.
        self.shown, self.shift, self.firsts, self.floor, self.made = shown, 0, {}, 0, 0
        # From here on what waited in buffers before such a capture no longer counts. Whether streams began before.
        self.settled, self.in_middle = shown.until + SETTLED if shown else 0, shown is not None
        # The numbers of the calls that the capture has. Since when the desk isn't known, because some are missing; and
        # the earlier times in which it wasn't. Whether the script answers as the bridge did from its beginning on.
        self.numbers, self.lost, self.unknown, self.is_script = [], None, [], True
        # The sources that seem to have been heard before a capture that begins in mid-call, and what is odd about the
        # desk.
        self.running, self.odd = collections.Counter(), []
        ssrc, cname = speaker
        self.say(f"bridge {ssrc} {cname} renew", None)
        if shown:
            self.make(shown)

    def say(self, line, event):
        """Gives a line to the model. Its answers."""
        said = self.bridge.answer(line)
        self.done.append(Done(line, tuple(said), event, self.bridge.version, self.bridge.far))
        return said

    # The desk

    def make(self, shown):
        """Makes the desk that was told."""
        if shown.log:
            self.make_all(shown)
            return
        if (shown.calls or shown.undone) and not has_reverts(shown):
            self.make_again(shown)
            return
        for call in calls_for(self.bridge.desk, rows_of(shown) or (), self.firsts):
            if self.say(f"desk 0 {call}", shown)[0].startswith("no "):
                # What isn't the desk of a bridge is made as far as it can be.
                for part in call.removeprefix("group ").split(" / "):
                    self.say(f"desk 0 {part}", shown)
        self.shift = None if shown.version is None else shown.version - self.bridge.version
        self.floor, self.made = len(self.bridge.log.done), self.bridge.version

    def make_all(self, shown):
        """Makes the desk by all calls that there were, so that undo and redo know them."""
        for seat, text in shown.log:
            self.say(f"desk {seat} {text}", shown)
        self.shift, self.made = shown.version - self.bridge.version, self.bridge.version

    def make_again(self, shown):
        """Makes the desk by the calls of its history, so that undo and redo know them."""
        for seat, text in (*shown.calls, *reversed(shown.undone)):
            self.say(f"desk {seat} {text}", shown)
        for _ in shown.undone:
            self.say(f"desk 0 undo {self.bridge.version}", shown)
        self.shift, self.floor = shown.version - self.bridge.version, shown.floor
        self.made = self.bridge.version

    def see(self, shown):
        """Compares the model's desk with the one that was told. Where they differ, the model gets the bridge's."""
        told, mine = rows_of(shown), self.bridge.version + (self.shift or 0)
        at = bisect.bisect_right(self.numbers, shown.version)
        if told is None or not self.lost and (shown.version < mine or at and self.numbers[at - 1] > mine):
            # It is of an earlier version, or of one that calls lead to which are taken later.
            return
        rows = self.bridge.desk.shown(0)[:-1]
        differ = sorted(set(without_firsts(told)) ^ set(without_firsts(rows)))
        if differ and not self.lost:
            text = f"the desk isn't what the calls made it: it is taken from {shown.by} ({', '.join(differ[:3])})"
            self.odd.append((text, shown.until))
        if differ:
            self.make(dataclasses.replace(shown, rows=told, calls=(), undone=(), log=()))
        self.shift = shown.version - self.bridge.version
        if self.lost:
            self.forget(self.lost, shown.until)

    def lose(self, text, moment):
        """The desk isn't known from a moment on, until it is told."""
        until = "until a `show`, `groups`, `history` or `calls`"
        self.odd.append((f"{text}: the desk isn't known from then on, {until}", moment))
        self.lost = moment

    def forget(self, since, moment):
        """Forgets what isn't known since a time: the states of sources and streams."""
        bridge = self.bridge
        for kept in bridge.kept, bridge.playouts, bridge.mixes, bridge.streams, bridge.came, bridge.went, self.firsts:
            kept.clear()
        self.unknown, self.lost = [*self.unknown, (since, moment)], None
        self.in_middle, self.settled, self.is_script = True, moment + SETTLED, False
        self.running = collections.Counter(running_sources(self.wire, moment))

    def call(self, event):
        """Carries a call out."""
        call = event.what
        words = call.text.split(" ")
        if call.number and self.shift is None:
            self.shift = call.number - 1 - self.bridge.version
        due = self.bridge.version + 1 + (self.shift or 0)
        if call.number > due and not self.lost:
            self.lose(f"the capture lacks {lacking(due, call.number - 1)}", call.moment)
        if self.lost or 0 < call.number < due:
            return
        if call.is_lost():
            self.lose(f"the capture lacks {lacking(call.number, call.number)}", call.moment)
            return
        if words[0] in ("undo", "redo"):
            if words[0] == "undo" and self.floor and len(self.bridge.log.done) <= self.floor and call.number:
                self.lose(f"`{call.text}` takes back a call from before the capture", call.moment)
                return
            words[1] = str(max(0, int(words[1]) - (self.shift or 0)))
        if words[0] == "revert":
            number = int(words[1]) - (self.shift or 0)
            if call.number and number <= self.made:
                self.lose(f"`{call.text}` takes back a call from before the capture", call.moment)
                return
            words[1] = str(number if number > self.made else 0)
        said = self.say(f"desk {min(call.seat, 15)} {' '.join(words)}", event)[0].split(" ")
        if call.number and said != ["ok", str(call.number - self.shift)]:
            self.lose(f"the bridge accepts `{call.text}`, which the model refuses ({' '.join(said)})", call.moment)

    # Media

    def carry_out(self, event):
        """Does what happened, and compares what the model sends with the wire."""
        if event.kind == PAUSE:
            lost = self.lost
            self.forget(*event.what)
            self.lost = lost
        elif self.lost and event.kind not in (CALL, SHOWN):
            if event.kind == RX:
                self.done.append(Done("# rx", (UNKNOWN,), event, self.bridge.version))
        elif event.kind == RX:
            self.prime(event)
            self.compare(event, self.say(f"rx {event.moment} {event.what.peer} {event.what.octets.hex()}", event))
        elif event.kind == CALL:
            self.call(event)
        elif event.kind == SHOWN:
            self.see(event.what)
        elif event.kind == REPORT:
            self.say(f"report {event.moment}", event)
        else:
            self.compare(event, self.say(f"tick {event.moment}", event), event.what)
            self.wait(event)

    def prime(self, event):
        """In mid-call, puts a packet without payload before the first of a source, which is past probation."""
        octets, key = event.what.octets, named(event.what)
        if self.running[key]:
            self.running[key] = 0
            before = bytes([0x80, octets[1] & 127]) + ((seq_of(octets) - 1) % 65536).to_bytes(2, "big") + octets[4:12]
            self.say(f"rx {event.moment} {event.what.peer} {before.hex()}", None)

    def wait(self, event):
        """Lets time pass for each video source of the desk."""
        if not event.waits:
            return
        desk = self.bridge.desk
        addresses = {m["member"]: m["address"] for m in desk.members}
        moment = max(event.moment, event.place) + WAITED
        for source in sorted((s for s in desk.sources if s["media"] == "video"), key=lambda s: s["ssrc"]):
            self.compare(event, self.say(f"wait {moment} {addresses[source['member']]} {source['ssrc']}", event))

    def compare(self, event, said, tick=None):
        """Compares packets that the model sends with the wire. Where the bridge's numbers are others, the model takes
        them over."""
        for line in said:
            words = line.split(" ")
            if words[0] != "tx":
                continue
            out, octets = int(words[4]), bytes.fromhex(words[6])
            if event.place > self.tail and not self.cursor.next(out):
                continue
            if self.in_middle and out not in self.firsts:
                self.begin(event, out, octets, tick)
            kind, sent = self.cursor.take(event, out, words[3], octets, tick)
            if kind in ("numbers", "octets", "unsent"):
                self.take_over(out, sent)

    def begin(self, event, out, octets, tick):
        """In mid-call, finds the first number of a stream that the model begins."""
        first = self.cursor.at[out]
        packets = self.cursor.streams.firsts.get(out, ())
        for at in range(first, len(packets)):
            sent = packets[at]
            if sent.moment > event.place + SETTLED:
                # What the model sends for the event leaves before that.
                return
            last = self.cursor.comparable(sent, tick)
            if sent.tick == tick if tick is not None else sent.octets[16:last] == octets[16:last]:
                raise Begun(out, at, (seq_of(sent.octets), number(sent.octets[4:8])))

    def take_over(self, out, sent=None):
        """Goes on with the number that the wire has next, and with the timestamp of the last packet, if it is known."""
        stream, due = self.bridge.mixes.get(out) or self.bridge.streams.get(out), self.cursor.next(out)
        if stream:
            stream.ts = number(sent.octets[4:8]) if sent else stream.ts
            stream.next = seq_of(due.octets) if due else stream.next

    # Going through events

    def state(self):
        fields = (
            self.shift, self.floor, self.lost, self.unknown, self.in_middle, self.settled, self.is_script, self.made,
        )  # fmt: skip
        return (
            self.bridge.state(), self.cursor.state(), len(self.done), +self.running, len(self.odd), dict(self.firsts),
            fields,
        )  # fmt: skip

    def go_back(self, state):
        bridge, cursor, done, running, odd, firsts, fields = state
        self.firsts = dict(firsts)
        self.shift, self.floor, self.lost, self.unknown, self.in_middle, self.settled, *fields = fields
        self.is_script, self.made = fields
        self.bridge.go_back(bridge)
        self.cursor.go_back(cursor)
        self.running = +running
        del self.done[done:], self.odd[odd:]

    def behind(self, state):
        """What has been written down since a state: lines, differences, and what is odd."""
        _, (_, found, _), done, _, odd, *_ = state
        return self.done[done:], self.cursor.found[found:], self.odd[odd:]

    def put_behind(self, state, behind):
        """Puts back what had been written down since a state, so that later states can be gone back to."""
        _, (_, found, _), done, _, odd, *_ = state
        self.done[done:], self.cursor.found[found:], self.odd[odd:] = behind

    def go(self, events):
        """Goes through some events, of which the last may be a tick. In mid-call, streams that begin are given their
        first numbers."""
        first, at, before = 0, 0, self.state()
        while at < len(events):
            try:
                self.carry_out(events[at])
                at += 1
                if self.unknown is not before[-1][3]:
                    # What was forgotten isn't gone back to.
                    first, before = at, self.state()
            except Begun as begun:
                self.go_back(before)
                out, place, self.firsts[out] = begun.args
                self.cursor.at[out], at = place, first
                self.set_first(out)
                before = self.state()
        if events and events[-1].kind == TICK and self.lost:
            self.cursor.pass_by(events[-1].place, events[-1].what)
        elif events and events[-1].kind == TICK:
            for out in self.cursor.extras_before(events[-1].place, events[-1].what):
                self.take_over(out)

    def set_first(self, out):
        """Puts the first numbers of a stream into its row, in each desk that undo and redo lead to."""
        log = self.bridge.log
        for desk in (log.desk, *(desk for _, desk in (*log.done, *log.undone))):
            for row in (
                *(s for s in desk.slots if s["out"] == out), *(m for m in desk.members if m["out_audio"] == out)
            ):
                row["seq"], row["ts"] = self.firsts[out]

    def script(self):
        """The lines of the script. Streams of a capture that begins in mid-call have their first numbers."""
        for done in self.done:
            if self.shown and done.line.startswith("desk ") and done.event is self.shown:
                group = re.match("desk [0-9]+ (group )?", done.line)[0]
                yield group + " / ".join(
                    with_firsts(part, self.firsts) for part in done.line.removeprefix(group).split(" / ")
                )
            elif done.line.startswith("rx ") and done.line.endswith(" "):
                # A datagram without octets has no line in a script.
                yield f"# {done.line.rstrip()}"
            else:
                yield done.line


def lacking(first, last):
    """Calls by their numbers, in words."""
    return f"call {first}" if first == last else f"calls {first} to {last}"


def ticks_late(run, events):
    """By how many ticks the first mix of the model is before that on the wire: a bridge that is always late hides when
    it ticks."""
    for event in events:
        if event.kind == RX:
            run.say(f"rx {event.moment} {event.what.peer} {event.what.octets.hex()}", event)
        elif event.kind == CALL:
            run.call(event)
        elif event.kind == PAUSE or run.lost:
            return 0
        elif event.kind == TICK:
            for line in run.say(f"tick {event.moment}", event):
                packets = run.cursor.streams.firsts.get(int(line.split(" ")[4]))
                return packets[0].tick - event.what if packets and packets[0].tick is not None else 0
    return 0


class Begun(Exception):
    """The first numbers of a stream were found, at a place on the wire: what led there is done again with them."""
