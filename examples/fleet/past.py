"""What operators did last in the rooms of a bridge, which travels with the rows.

A room has a base: the commands that make its rows as they were before the oldest of these calls, with all that others
than operators have changed since. The calls on that base make the rows of the desk: it is seen each time that they do,
and what doesn't fit becomes a part of the base.
"""

import collections
import itertools
import re

from fleet_rooms import LEAST
from kept import CALL, Unmade, commands_of, further, groups_of, parts_of, room_made
from made import MAKER, TAKING, WITHIN, Cannot, after, is_within, key_of, named_by, order_of

# How many calls of a room are kept, and how many octets they have. A room with more rows keeps none.
MOST_CALLS, MOST_CALL_OCTETS, MOST_ROWS = 64, 8192, 8192
# How many calls of a desk's history are looked at, and those after which others are in force.
LOOKED_AT, MOVING = 256, ("undo ", "redo ", "revert ")
# A member's number is its room's times this, and more: no two rooms of a fleet have a member of one number.
MEMBERS = 1000

# How a call is kept: its number at the desk where it was made, and its words. How a command adds a member.
KEPT, ADDS = re.compile(f"{CALL}(0|[1-9][0-9]{{0,9}}) (.*)"), re.compile("add-member ([0-9]{1,10}) ")

Past = collections.namedtuple("Past", "base calls")
# The same of a room that is to be made, and the commands that make its rows without the calls.
Restored = collections.namedtuple("Restored", "base calls rows")


def lines_of(past):
    """What etcd has of a room, each line once."""
    return [*past.base, *(f"{CALL}{number} {call}" for number, call in past.calls)]


def restored(room, lines):
    """What makes a room again, by the lines that etcd has of it. Raises Unmade where one of them does anything but make
    rows of the room, or is no call on these rows."""
    base = [one for one in lines if not one.startswith(CALL)]
    found = [KEPT.fullmatch(one) for one in lines if one.startswith(CALL)]
    room_made(room, groups_of(base))
    if not all(one and is_within(one[2]) for one in found):
        raise Unmade
    calls = [(int(one[1]), one[2]) for one in found]
    if len(calls) > MOST_CALLS or sum(len(call) for _, call in calls) > MOST_CALL_OCTETS:
        raise Unmade
    try:
        rows, good = after(base, calls) if calls else (base, calls)
    except Cannot:
        raise Unmade from None
    if good != calls:
        raise Unmade
    return Restored(base, calls, rows)


# The base and the calls of a room


def settled(base, calls, want):
    """The past of a room with these rows, by an older base and calls.

    Calls that can't be carried out any more are given up, and so are those that make other rows than these, or are too
    long now. What they did is a part of the base then.
    """
    calls = [one for one in calls if is_within(one[1])] if len(want) <= MOST_ROWS else []
    while calls:
        own = {key_of(one) for _, call in calls for one in parts_of(call) if one.split(" ")[0] not in TAKING}
        try:
            later = changed(base, after(base, calls)[0], want, own)
            have, good = after(later, calls)
            if have == want:
                return trimmed(later, good)
            refused = [one for one in calls if one not in good]
            given_up = misfits(calls, have, want) or refused or calls[: len(calls) // 2 + 1]
        except Cannot:
            # Of what calls remove from the base others have made something else.
            given_up = [one for one in calls if "remove-" in one[1]] or calls
        calls = [one for one in calls if one not in given_up]
    return Past(want, [])


def misfits(calls, have, want):
    """The calls that others have changed something after. Each is the last one on a row that isn't as it left it."""
    rows, have = ({key_of(one): one for one in each} for each in (want, have))
    last = {}
    for one in calls:
        for part in parts_of(one[1]):
            word, number = part.split(" ")[:2]
            last |= {(TAKING[word], number): (one, None)} if word in TAKING else {key_of(part): (one, part)}
    found = [one for key, (one, part) in last.items() if rows.get(key) != have.get(key) and rows.get(key) != part]
    # Where the rows are the same, members stand in another order.
    return found if rows != have else [one for one in calls if "add-member" in one[1]]


def changed(base, have, want, own):
    """A base, once others have made the rows of `want` of those of `have`. Rows that are the calls' own aren't put."""
    rows, have, want = ({key_of(one): one for one in each} for each in (base, have, want))
    for key in have.keys() - want.keys():
        rows.pop(key, None)
    rows |= {key: one for key, one in want.items() if have.get(key) != one and key not in own}
    members, before = [key for key in want if key in rows and key[0] == MAKER["member"]], None
    for key in rows:
        # Members stand as they do now. One that has gone stands where it did.
        if key[0] == MAKER["member"]:
            if key not in want:
                members.insert(members.index(before) + 1 if before else 0, key)
            before = key
    place = {key: at for at, key in enumerate(members)}
    return [rows[key] for key in sorted(rows, key=lambda key: (order_of(key), place.get(key, 0)))]


def trimmed(base, calls):
    """The past with so many calls as are kept."""
    over = max(0, len(calls) - MOST_CALLS)
    while sum(len(call) for _, call in calls[over:]) > MOST_CALL_OCTETS:
        over += 1
    return Past(after(base, calls[:over])[0] if over else base, calls[over:])


# The calls of a desk


class History:
    """The calls in force of a desk by an answer to `history`, up to a version: operators and words by their numbers.
    Calls before `first` may be in force as well."""

    def __init__(self, lines, version):
        found = [line.split(" ", 2) for line in itertools.takewhile(lambda one: one != "undone", lines[:-1])]
        self.first = int(found[0][0]) if len(found) >= LOOKED_AT else 0
        calls = {int(number): (int(operator), call) for number, operator, call in found}
        self.calls = {number: one for number, one in calls.items() if number <= version}
        self.reverted = {int(call[7:]) for _, call in self.calls.values() if call.startswith("revert ")}

    def has(self, number, call):
        """Whether a call that was kept is in force still."""
        if number < self.first:
            return number not in self.reverted
        return number in self.calls and further(self.calls[number][1]) == call


def names_in(rooms):
    """The room of each member, source and slot."""
    places = {"member": 2, "source": 1, "slot": 1}
    found = {("room", str(room)): room for room in rooms}
    for room, rows in rooms.items():
        for words in (row.split(" ", 3) for row in rows):
            if words[0] in places:
                found[words[0], words[places[words[0]]]] = room
    return found


def room_of(call, names):
    """The room that a call is about, None where it is about several, or makes or removes one. What it adds is known by
    its name from then on."""
    if not is_within(call):
        return None
    found = set()
    for part in parts_of(call):
        room, *more = {names.get(one) for one in named_by(part)}
        word, number = part.split(" ")[:2]
        for kind in [kind for kind, maker in MAKER.items() if maker == word]:
            names.setdefault((kind, number), room)
        found |= {room, *more}
    return found.pop() if len(found) == 1 else None


def rooms_of(call, names):
    """The rooms that a call of any kind is about: None among them where that isn't known. What it adds is known by its
    name from then on."""
    found = set()
    for part in parts_of(call):
        word, *given = part.split(" ")
        if word in ("add-room", "remove-room"):
            rooms = {int(given[0])}
        elif word == "move-member":
            rooms = {names.get(("member", given[0])), names.get(("room", given[1]))}
        else:
            rooms = {names.get(one) for one in named_by(part)} if WITHIN.fullmatch(part) else {None}
        # Of what adds a room, a member, a source or a slot that is one room.
        names |= {(kind, given[0]): min(rooms) for kind, maker in MAKER.items() if maker == word}
        found |= rooms
    return found


def added_by(call):
    """The numbers of the members that a call adds."""
    return [int(one[1]) for one in map(ADDS.match, parts_of(call)) if one]


class Pasts:
    """The pasts of a bridge's rooms, where operators have done something. The seat is the agent's."""

    def __init__(self, seat):
        self.seat, self.of, self.gateway = seat, {}, None

    def follow(self, before, rooms, calls, history):
        """Takes calls in: numbers, operators and words in their order. The rows were those of `before`, and are those
        of `rooms` now. Where some calls aren't known, or others are in force, there is a history."""
        touched = {room: past.calls for room, past in self.of.items() if room in rooms}
        if history:
            calls = [(number, *one) for number, one in history.calls.items()]
            touched = {room: [one for one in some if history.has(*one)] for room, some in touched.items()}
        for room, number, call in self.by_operators(calls, before, rooms):
            if room not in self.of and room in before and room in rooms:
                self.of[room] = Past(commands_of(before[room]), [])
            if room in self.of and room in rooms and all(number != one for one, _ in touched.get(room, ())):
                touched[room] = sorted([*touched.get(room, ()), (number, further(call))])
        kept, self.of = self.of, {}
        for room, some in touched.items():
            same = some == kept[room].calls and rooms[room] == before.get(room)
            past = kept[room] if same else settled(kept[room].base, some, commands_of(rooms[room]))
            self.of |= {room: past} if past.calls else {}

    def by_operators(self, calls, before, rooms):
        """The calls of operators that are about one room, each with that."""
        others = [one for one in calls if one[0] not in self.seat.own]
        if not others:
            return []
        names, found = names_in(rooms) | names_in(before), []
        for number, operator, call in others:
            # Members with these numbers are signalling's or a gateway's, which has one seat.
            room, added = room_of(call, names), added_by(call)
            if any(one >= LEAST for one in added):
                self.gateway = operator
            is_join = any(one >= LEAST or one // MEMBERS == room for one in added)
            if room is not None and operator != self.gateway and not is_join:
                found.append((room, number, call))
        return found
