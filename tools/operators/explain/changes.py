"""What each call changed for members: whom they hear, and what their slots show."""

import collections
import dataclasses

from operators.explain.operators import Call, Shown
from operators.models.mix import MixBridge


@dataclasses.dataclass(frozen=True)
class Change:
    """From a moment on a stream has a source or no longer has it, by a call, or by the desk with which a capture
    begins."""

    moment: int
    member: int
    out: int
    ssrc: int
    is_there: bool
    call: object


@dataclasses.dataclass(frozen=True)
class Marked:
    """A source that was muted, or whose gain for a member was 0, from a call on, until another one or the end."""

    what: str
    since: int
    call: object
    until: int = None
    ended: object = None


def shown_by(bridge):
    """Each stream of a desk with its member and the sources that it may have."""
    desk, found = bridge.desk, {}
    for member in desk.members:
        found[member["out_audio"]] = member["member"], {
            ssrc for ssrc, _, gain in bridge.sources_for(member) if gain > 0
        }
    for slot in desk.slots:
        choice = bridge.choice(slot)
        found[slot["out"]] = slot["member"], {choice} - {None}
    return found


def marks_of(desk):
    """What is silent by the desk, in words."""
    found = [f"{mute['source']} is muted" for mute in desk.mutes]
    return found + [f"the gain of {gain['source']} for {gain['member']} is 0" for gain in desk.gains if gain["q8"] == 0]


class Desks:
    """What the desk was in the course of a run."""

    def __init__(self, run, begin):
        self.changes, self.marked, self.done = [], [], {}
        # Every row that was there at some time.
        self.members, self.sources, self.outs, self.first_at, self.rates = {}, {}, {}, {}, {}
        self.bridge, open_marks, before = MixBridge(), {}, {}
        desks = [done for done in run.done if done.line.startswith("desk ")]
        for done, following in zip(desks, [*desks[1:], None]):
            said = self.bridge.answer(done.line)[0]
            call = done.event.what if done.event and hasattr(done.event, "kind") else None
            # What made the desk again is no call, and stands where it was told.
            told = done.event if isinstance(done.event, Shown) else None
            if told and following and following.event is told:
                # Nor is what the desk was meanwhile: it may be made by all calls that there were.
                continue
            moment = call.at if isinstance(call, Call) else told.until if told and told is not run.shown else begin
            call = call if isinstance(call, Call) else None
            if told or said.startswith("ok"):
                self.keep(moment, call is not None)
                now = shown_by(self.bridge)
                self.compare(moment, call, before, now)
                self.mark(moment, call, open_marks)
                before = now
        self.marked += [Marked(what, *begun) for what, begun in open_marks.items()]
        # An address may have been of several members, one after another: it is the last one's.
        self.at_address = {member["address"]: number for number, member in self.members.items()}

    def keep(self, moment, by_call):
        """Remembers the rows of the desk, and when a call added a source."""
        desk = self.bridge.desk
        self.rates |= {room["room"]: room["rate"] for room in desk.rooms}
        self.members |= {member["member"]: member for member in desk.members}
        self.sources |= {source["ssrc"]: source for source in desk.sources}
        self.outs |= {member["out_audio"]: ("mix", member["member"]) for member in desk.members}
        self.outs |= {slot["out"]: (f"slot {slot['index']}", slot["member"]) for slot in desk.slots}
        for source in desk.sources:
            self.first_at.setdefault(source["ssrc"], moment if by_call else None)

    def compare(self, moment, call, before, now):
        """Notes what a call changed."""
        for out in {**before, **now}:
            member = (now.get(out) or before.get(out))[0]
            was, has = before.get(out, (0, set()))[1], now.get(out, (0, set()))[1]
            self.changes += [Change(moment, member, out, ssrc, ssrc in has, call) for ssrc in sorted(was ^ has)]

    def mark(self, moment, call, open_marks):
        """Notes what a call muted, and what it ended."""
        marks = marks_of(self.bridge.desk)
        for what in marks:
            open_marks.setdefault(what, (moment, call))
        for what in [what for what in open_marks if what not in marks]:
            self.marked.append(Marked(what, *open_marks.pop(what), moment, call))

    def changes_by(self, call):
        return [change for change in self.changes if change.call is call]

    def member_at(self, address):
        return self.at_address.get(address)


def by_call(call):
    """A call in words."""
    if call is None:
        return "the desk with which the capture begins"
    name = f"call {call.number}" if call.number else "a call"
    return f"{name} of {call.who()}"


def grouped(changes):
    """Changes of one kind together: (member, stream, whether it has them, sources)."""
    found = collections.defaultdict(list)
    for change in changes:
        found[change.member, change.out, change.is_there].append(change.ssrc)
    return [(*key, ssrcs) for key, ssrcs in found.items()]
