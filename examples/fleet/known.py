"""What all agents know by etcd: the bridges, the rooms, and the rows of each room.

    /confbridge/fleet/agents/HOST:PORT   an agent that runs, under its lease
    /confbridge/fleet/leader             the agent that settles rooms, under its lease
    /confbridge/fleet/bridges/NAME       a bridge that runs, whatever becomes of its agent
    /confbridge/fleet/draining/NAME      a bridge that gets no new room
    /confbridge/fleet/rooms/ROOM         where a room is, and where it goes
    /confbridge/desks/ROOM               the groups and calls that make the room's rows again
    /confbridge/desks/ROOM/NUMBER        a change to them, the first one first

A room is `on` a bridge, and goes `to` one. Only a bridge's own agent says that a room is on it, once its desk has it.
Who may write to etcd may put anything there: what isn't of these forms is passed over, and no bridge is given a line
that makes anything but rows of the room.
"""

import collections
import re

from etcd import ANY, Etcd
from kept import Unmade, groups_of, lines_in, with_changes
from past import restored
from refused import Refused

FLEET, DESKS = "/confbridge/fleet/", "/confbridge/desks/"
# A new room. `ready`: its rows are kept as they are, and it may go. `tried`: the bridges that refused it, `why`: in
# what words, and `after`: the moment (in seconds since 1970) before which it isn't tried again. `version`: the desk's,
# when the room was last seen to change. `source`: who has opened it, and `placed`: when a bridge was chosen for it
# first; an operator's room has neither.
NEW = {
    "on": None, "to": None, "ready": False, "members": 0, "version": 0, "tried": [], "why": "", "after": 0,
    "source": "", "placed": 0,
}  # fmt: skip
# By so many members a bridge may be fuller than another one, and still get a room that is asked for there.
NEAR = 16
BRIDGE = re.compile("[A-Za-z0-9_.-]{1,64}")
HOST = re.compile("[A-Za-z0-9.-]{1,200}:[0-9]{1,5}")
# The forms of keys.
NAMES = {"agents": HOST, "rooms": re.compile("[1-9][0-9]{0,9}|0")}
# How many rooms are read at once: etcd takes 128 questions, and a room is two.
MOST_READ = 60


def is_text(one):
    return isinstance(one, str) and len(one) <= 200


def is_number(one):
    return type(one) is int and 0 <= one < 2**53


def is_name(one):
    return isinstance(one, str) and BRIDGE.fullmatch(one) is not None


def is_name_or_none(one):
    return one is None or is_name(one)


def is_flag(one):
    return isinstance(one, bool)


def is_url(one):
    return isinstance(one, str) and one.startswith("http://") and HOST.fullmatch(one[7:]) is not None


FORMS = {
    "agents": {"url": is_url},
    "leader": {"url": is_url},
    "bridges": {
        "udp": is_text, "sip": is_text, "page": is_text, "rooms": is_number, "members": is_number, "agent": is_url,
    },
    "draining": {"move": is_flag},
    "rooms": {
        "on": is_name_or_none, "to": is_name_or_none, "ready": is_flag, "members": is_number, "version": is_number,
        "tried": lambda one: isinstance(one, list) and all(map(is_name, one)), "why": lambda one: isinstance(one, str),
        "after": is_number, "source": is_text, "placed": is_number,
    },
}  # fmt: skip


def has_form(kind, name, value):
    """Whether a value has the fields of its kind, and no others, and its key is a name or a room's number."""
    fits = not name if kind == "leader" else NAMES.get(kind, BRIDGE).fullmatch(name)
    fields = FORMS[kind]
    same = isinstance(value, dict) and value.keys() == fields.keys()
    return bool(fits) and same and all(is_good(value[key]) for key, is_good in fields.items())


class Known:
    """The agents, bridges and rooms at one moment. `spoiled` has the keys that hold something else."""

    def __init__(self, values=()):
        self.bridges, self.draining, self.rooms, self.spoiled = {}, {}, {}, set()
        # Agents that have a lease, by their URLs; and the leader's URL.
        self.agents, self.leader = {}, None
        # The revision of each key that has a value, whatever that is.
        self.revisions = {}
        # The rooms of each bridge, with those that go there, and their members; and how many rooms a source has opened.
        self.of, self.members, self.sources = collections.defaultdict(set), collections.Counter(), collections.Counter()
        # Rooms that get a bridge in this moment, which etcd hasn't said yet: the bridge, the members and the source. And
        # how many of them each bridge gets.
        self.held, self.held_at = {}, collections.Counter()
        for key, (value, revision) in dict(values).items():
            self.put(key, value, revision)

    def put(self, key, value, revision):
        """A key has another value: None where it is gone."""
        kind, _, name = key.partition("/")
        is_good = value is not None and kind in FORMS and has_form(kind, name, value)
        if value is None:
            self.revisions.pop(key, None)
        else:
            self.revisions[key] = revision
        if value is None or is_good:
            self.spoiled.discard(key)
        else:
            self.spoiled.add(key)
        if kind == "rooms" and NAMES["rooms"].fullmatch(name):
            self.put_room(int(name), value if is_good else None, revision)
        elif kind == "agents":
            self.agents.pop(f"http://{name}", None)
            self.agents |= {value["url"]: revision} if is_good and value["url"] == f"http://{name}" else {}
        elif key == "leader":
            self.leader = value["url"] if is_good else None
        elif kind in ("bridges", "draining"):
            table = getattr(self, kind)
            table.pop(name, None)
            table |= {name: value} if is_good else {}

    def put_room(self, room, record, revision):
        before, _ = self.rooms.pop(room, (None, 0))
        for one, sign in (before, -1), (record, 1):
            if one is None:
                continue
            for bridge in {one["on"], one["to"]} - {None}:
                self.members[bridge] += sign * one["members"]
                (self.of[bridge].add if sign > 0 else self.of[bridge].discard)(room)
            self.counts(one["source"], sign)
        if record is not None:
            self.rooms[room] = record, revision
        self.let_go(room)

    def hold(self, room, bridge, members, source=""):
        """Counts a room at a bridge that it gets in this moment, and a new one at its source."""
        self.let_go(room)
        self.held[room] = bridge, members, source
        self.held_at[bridge] += 1
        self.members[bridge] += members
        self.counts(source, 1)

    def let_go(self, room):
        """The room that was held is known by etcd now, or hasn't got the bridge."""
        if room in self.held:
            bridge, members, source = self.held.pop(room)
            self.held_at[bridge] -= 1
            self.members[bridge] -= members
            self.counts(source, -1)

    def counts(self, source, more):
        self.sources[source] += more
        if not self.sources[source]:
            del self.sources[source]

    def revision(self, room):
        """That of a room's key: 0 where it has none."""
        return self.revisions.get(f"rooms/{room}", 0)

    def rooms_of(self, bridge):
        """The rooms that are on a bridge or go to it."""
        return sorted(self.of.get(bridge, ()))

    def has_agent(self, bridge):
        """Whether the agent of a bridge runs."""
        return bridge in self.bridges and self.bridges[bridge]["agent"] in self.agents

    def load(self, bridge):
        """How many members and rooms a bridge has, those on their way included."""
        return self.members[bridge], len(self.of.get(bridge, ())) + self.held_at[bridge]

    def chosen(self, members=0, without=(), at=None):
        """The bridge with the fewest members, and then rooms, that takes a further room with so many members. The one
        whose `udp` is `at` is it where it takes the room, and has few members more."""
        given = [name for name in self.bridges if name not in self.draining and name not in without]
        loads = {name: self.load(name) for name in given if self.has_agent(name)}
        most = {name: (self.bridges[name]["members"], self.bridges[name]["rooms"]) for name in loads}
        fit = [name for name, (m, r) in loads.items() if m + max(members, 1) <= most[name][0] and r < most[name][1]]
        if not fit:
            raise Refused(f"12 Full: none of {len(loads)} bridges has a place for a further room. Try again later.")
        least = min(fit, key=lambda name: (*loads[name], name))
        near = (name for name in fit if loads[name][0] <= loads[least][0] + NEAR)
        return next((name for name in near if self.bridges[name]["udp"] == at), least)


class Store(Etcd):
    def known(self):
        """All that etcd has in this moment. An agent asks once, and watches from there on."""
        return Known(self.read(FLEET))

    def room(self, room):
        """A room and its revision: None where it has no record."""
        record, revision = self.value(f"{FLEET}rooms/{room}")
        return (record if has_form("rooms", str(room), record) else None), revision

    def put_room(self, room, record, revision, *others):
        """Changes a room, if it has this revision, and other keys with it. The revision of that, or 0."""
        return self.swap([(f"{FLEET}rooms/{room}", record, revision), *others])

    def restored(self, rooms):
        """What makes rooms again, by room: None where what is kept would do anything else."""
        found, rooms = {}, list(rooms)
        for first in range(0, len(rooms), MOST_READ):
            some = rooms[first : first + MOST_READ]
            kept = self.folders([f"{DESKS}{room}" for room in some])
            found |= {room: restored_of(room, *one) for room, one in zip(some, kept)}
        return found

    def groups(self, rooms):
        """The groups that make the rows of rooms, without a call: None where what is kept does anything else."""
        return {room: one and groups_of(one.rows) for room, one in self.restored(rooms).items()}


def gone(room):
    """The changes by which the rows of a room are forgotten."""
    return [(f"{DESKS}{room}", None, ANY), (f"{DESKS}{room}/", None, ANY)]


def restored_of(room, kept, changes):
    try:
        whole = with_changes([f"group add-room {room}"] if kept is None else kept, changes)
        return restored(room, lines_in(whole))
    except Unmade:
        return None
