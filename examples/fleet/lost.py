"""Which calls of operators may be lost with a room that is on another bridge now."""

import collections

from kept import commands_of, parts_of
from made import MAKER, TAKING, key_of, named_by
from past import rooms_of

# What a call leaves of a row, where that isn't known.
UNKNOWN = ""
# A row that is otherwise elsewhere: what it is there, None where it isn't, and the rows without which it can't be.
Differs = collections.namedtuple("Differs", "there above")


def lost_of(calls, sure, differ, names, gone):
    """Those of some calls that persons have made, and that may be lost.

    Of some rooms that are elsewhere `sure` says up to which call etcd has them, and of all others `differ` has the rows
    that are otherwise there. `names` are those of the desk. `gone` says of rooms elsewhere that the desk hasn't got
    since when there are such rooms, in seconds since 1970.
    """
    meant = meanings(calls)
    late = late_ones(calls, meant, sure, names) if sure else []
    found = {one.number: one for one in [*late, *undone_by(calls, meant, differ), *removing(calls, meant, gone)]}
    return [call for _, call in sorted(found.items()) if call.is_persons()]


def meanings(calls):
    """The words of the command or group that each of some calls carries out, takes back or does again, by its number.
    None where that isn't among these calls, which a desk has taken one after another."""
    found, done, undone = {}, [], []
    for call in calls:
        word, _, number = call.words.partition(" ")
        if word in ("undo", "redo"):
            stack, other = (done, undone) if word == "undo" else (undone, done)
            about = stack.pop() if stack else None
            other.append(about)
        else:
            about = found.get(int(number)) if word == "revert" else call.words
            done.append(about)
        found[call.number] = about
    return found


def late_ones(calls, meant, sure, names):
    """The calls in rooms that came after those that etcd has."""
    found, least = [], min(sure.values())
    for call in calls:
        rooms = rooms_of(meant[call.number], names) if meant[call.number] else {None}
        if any(call.number > sure.get(room, least) for room in rooms if room in sure or room is None):
            found.append(call)
    return found


def undone_by(calls, meant, differ):
    """The calls that have left rows otherwise than they are elsewhere: of each row those after the last one that has left
    it as it is there."""
    since, under = {row: [] for row in differ}, collections.defaultdict(list)
    for row, one in differ.items():
        for key in {row, *one.above}:
            under[key].append(row)
    for call in calls:
        about = meant[call.number]
        for key, left in changes_by(about) if about else [(row, UNKNOWN) for row in differ]:
            # With a row go those that can't be without it.
            for row in [one for one in under.get(key, ()) if one == key or left in (None, UNKNOWN)]:
                is_there = about == call.words and left == differ[row].there
                since[row] = [] if is_there else [*since[row], call]
    return [call for some in since.values() for call in some]


def removing(calls, meant, gone):
    """Of rooms elsewhere that the desk hasn't got the last calls that have made or removed them there."""
    last = {}
    for call in calls:
        rows = [row for row, _ in changes_by(meant[call.number] or "mute 0") if row[0] == "add-room"]
        last |= {int(number): call for _, number in rows}
    return [last[room] for room in last.keys() & gone.keys() if last[room].moment >= 1000 * gone[room]]


def changes_by(call):
    """The rows that a command or a group makes or takes, in its order: each by what no other one has, and what it is
    then, None where it is taken."""
    for part in parts_of(call):
        word, *given = part.split(" ")
        if word in TAKING or word == "remove-room":
            yield (TAKING.get(word, "add-room"), given[0]), None
        elif word == "move-member":
            yield ("add-member", given[0]), UNKNOWN
        else:
            yield key_of(part), without_firsts(part)


def differing(rows, commands):
    """The rows of a room that others' commands don't make as they are, and those that these make alone."""
    have, want = ({key_of(one): one for one in each} for each in (commands_of(rows), commands))
    found = {}
    for key in have.keys() | want.keys():
        here, there = (without_firsts(each[key]) if key in each else None for each in (have, want))
        if here != there:
            found[key] = Differs(there, above(key, have) | above(key, want))
    return found


def above(key, rows):
    """The rows without which one can't be, by the commands that make them."""
    named = {(MAKER[kind], number) for kind, number in named_by(rows[key])} - {key} if key in rows else set()
    return named.union(*(above(one, rows) for one in named))


def without_firsts(command):
    """A command without the first numbers of a stream, which begins anew on each bridge."""
    words = command.split(" ")
    return words[:-2] if words[0] in ("add-member", "add-slot") else words
