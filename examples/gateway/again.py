"""Calls that come again: those of an agent before this one, and those whose page makes a new one by itself.

Where a bridge, an agent or rtpengine ends, its members stay at the desk for a while, and what operators made of them
stays with them: mutes, gains, pins, the floor, and who sees whom. A page that comes again shows by a key that the
member is its own. The new call gets the member's number and its room. Its SSRCs are others.
"""

import hmac
import time
import typing

from call import labelled
from rtpengine import UnknownCall

# How many calls rtpengine is asked for.
MOST = 10_000
NO_MEMBER = "You are no member of this call any more. Press Join to come back."


class Absent(typing.NamedTuple):
    """A member whose call has gone: since when, its mix, camera and room, and what operators made of it. Whether its
    rows went with their bridge: else it is at the desk, if no operator removes it. And whether it has muted itself."""

    since: float
    mix: int | None
    camera: int | None
    room: int
    ties: list
    is_of_before: bool
    is_own_mute: bool


def key_of(secret, member, mix):
    """What only a page knows whose call was this member with this mix, and whoever has the secret."""
    return hmac.new(secret, f"member {member} {mix}".encode(), "sha256").hexdigest()


def ties_of(rows, member):
    """What a member has at the desk beside its own rows: commands, each with what it names. Sources and slots are named
    by their members, since their SSRCs are drawn anew."""
    source = lambda ssrc: ("source", *rows.sources[ssrc])
    found = [("mute", [source(ssrc)]) for ssrc in rows.mutes]
    found += [("set-gain", [("member", one), source(ssrc), ("", q8)]) for (one, ssrc), q8 in rows.gains.items()]
    found += [("subscribe", [("slot", *rows.slots[slot]), source(ssrc)]) for slot, ssrc in rows.subs.items()]
    found += [("pin", [("", room), source(ssrc)]) for room, ssrc in rows.pins.items()]
    found += [("give-floor", [("", room), ("member", one)]) for room, one in rows.floors.items()]
    return [tie for tie in found if any(kind and whose == member for kind, whose, *_ in tie[1])]


def tied(ties, call, member, rows):
    """The commands that make ties again, as far as both ends are there: a call that is this member, and a desk."""
    ssrcs = {("source", *whose): ssrc for ssrc, whose in rows.sources.items()}
    ssrcs |= {("slot", *whose): ssrc for ssrc, whose in rows.slots.items()}
    ssrcs = {what: ssrc for what, ssrc in ssrcs.items() if what[1] != member}
    ssrcs |= {("source", member, kind): ssrc for kind, ssrc in (("audio", call.voice), ("video", call.camera)) if ssrc}
    ssrcs |= {("slot", member, index): ssrc for index, ssrc in enumerate(call.slots)}
    ssrcs |= {("member", one): one for one in (member, *rows.members)}
    number = lambda what: ssrcs[what] if what[0] else what[1]
    are_there = lambda named: all(not what[0] or what in ssrcs for what in named)
    return [" ".join([word, *(str(number(what)) for what in named)]) for word, named in ties if are_there(named)]


def calls_of(engine, rows, gateway):
    """The calls of an agent before this one that are members still. rtpengine forgets the others."""
    found, taken = [], {}
    for id in engine.ask("list", limit=MOST).get("calls", []):
        try:
            tags = engine.ask("query", call_id=id)["tags"]
        except UnknownCall:
            continue
        call = labelled(tags, gateway)
        if call is None:
            continue
        call.id, call.address = id, address_of(tags)
        call.member = rows.addresses.get(call.address)
        if call.member is None or taken.setdefault(call.member, id) != id:
            engine.ask("delete", call_id=id, delete_delay=0)
            continue
        call.room, call.mix = rows.members[call.member], rows.mixes[call.member]
        own = {kind: ssrc for ssrc, (member, kind) in rows.sources.items() if member == call.member}
        call.voice, call.camera, call.shares = own.get("audio"), own.get("video"), "screen" in own
        slots = sorted((index, ssrc) for ssrc, (member, index) in rows.slots.items() if member == call.member)
        call.slots = [ssrc for _, ssrc in slots]
        found.append(call)
    return found


def address_of(tags):
    """Where rtpengine takes what the bridge sends, which is the member's address."""
    for media in tags.get("bridge", {}).get("medias", []):
        for stream in media["streams"]:
            return "{}:{}".format(stream.get("local address", "127.0.0.1"), stream["local port"])
    return None


def opened_by(history, numbers):
    """The rooms that groups of a gateway have added, by a desk's history: each with its first member's number."""
    found = {}
    for line in history:
        first, _, rest = line.partition(" / ")
        words, more = first.split(" ")[2:], rest.split(" ")
        if words[:2] == ["group", "add-room"] and more[0] == "add-member" and int(more[1]) in numbers:
            found[int(words[2])] = int(more[1])
    return found


def screens_in(history, numbers):
    """The screens of a gateway, by a desk's history: a source with video is one that hasn't come with its member."""
    found = set()
    for line in history:
        parts = [part.split(" ") for part in line.split(" ", 2)[2].removeprefix("group ").split(" / ")]
        new = {part[1] for part in parts if part[0] == "add-member"}
        videos = [part for part in parts if part[0] == "add-source" and part[3] == "video"]
        found |= {int(ssrc) for _, ssrc, member, _ in videos if int(member) in numbers and member not in new}
    return found


class Absents(dict):
    """The members whose calls have gone, by their numbers. Each stays for so many seconds."""

    def __init__(self, away):
        self.away = away
        super().__init__()

    @staticmethod
    def as_at(member, rows, call=None):
        """A member as a desk has it. Where it isn't there any more, as its call was."""
        mix, camera, room = (call.mix, call.camera, call.room) if call else (None, None, None)
        camera = next((ssrc for ssrc, whose in rows.sources.items() if whose == (member, "video")), camera)
        mix, room = rows.mixes.get(member, mix), rows.members.get(member, room)
        is_own_mute = bool(call and call.is_own_mute)
        return Absent(time.monotonic(), mix, camera, room, ties_of(rows, member), False, is_own_mute)

    def add(self, member, rows, call=None):
        """Takes a member in, once."""
        if member not in self:
            self[member] = self.as_at(member, rows, call)

    def begins_anew(self, before):
        """The bridge is another one. What they had is as its desk was before."""
        for member, one in self.items():
            ties = one.ties if one.is_of_before else ties_of(before, member)
            self[member] = one._replace(ties=ties, is_of_before=True)

    def see(self, rows):
        """Sees who is at the desk. Those whom operators have removed are absent no more."""
        for member, one in list(self.items()):
            if member in rows.members:
                self[member] = one._replace(is_of_before=False)
            elif not one.is_of_before:
                del self[member]

    def over(self):
        """Those whose time is over. They are absent no more."""
        late = {member: one for member, one in self.items() if time.monotonic() - one.since > self.away}
        for member in late:
            del self[member]
        return late
