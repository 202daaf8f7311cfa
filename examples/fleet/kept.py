"""The rows of a room as groups that make them again: so a fleet keeps them.

What `tools/bridge restore` reads of a file, and an agent of etcd, is checked before a bridge gets a line of it; so are
the groups of a whole desk that a bridge tells `tools/bridge keep`.
"""

import re

# A group has at most so many commands, and its line so many octets.
MOST_COMMANDS, MOST_OCTETS = 64, 4096
# How a line begins that is an operator's call, behind which are its number and its words.
CALL = "call "
# A stream begins anew at its FIRST_SEQ. It is moved on by so much, or a receiver might take new packets for old ones.
FURTHER = 1000

# The command that makes a row of each kind, and the first word of the row that the command has too.
MAKING = {
    "room": ("add-room", 1), "member": ("add-member", 2), "source": ("add-source", 1), "slot": ("add-slot", 1),
    "sub": ("subscribe", 1), "mute": ("mute", 1), "gain": ("set-gain", 1), "pin": ("pin", 1),
    "floor": ("give-floor", 1),
}  # fmt: skip
# The kind of row through which a row is in a room, and the word that names it.
THROUGH = {
    "source": ("member", 2), "slot": ("member", 2), "sub": ("slot", 1), "mute": ("source", 1), "gain": ("member", 1),
}  # fmt: skip
# The words behind a making command; and those of a row before them, behind its kind.
NUMBER, SEQ, ADDRESS = "(?:0|[1-9][0-9]{0,9})", "(?:0|[1-9][0-9]{0,4})", r"(?:[0-9]{1,3}[.]){3}[0-9]{1,3}:[0-9]{1,5}"
WORDS = {
    "add-room": f"{NUMBER}(?: {NUMBER})?",
    "add-member": f"{NUMBER} {NUMBER} {ADDRESS} (?:pcmu|l16) {NUMBER} {SEQ} {NUMBER}",
    "add-source": f"{NUMBER} {NUMBER} (?:audio|video)",
    "add-slot": f"{NUMBER} {NUMBER} {NUMBER} {SEQ} {NUMBER}",
    "subscribe": f"{NUMBER} {NUMBER}",
    "mute": NUMBER,
    "set-gain": f"{NUMBER} {NUMBER} {NUMBER}",
    "pin": f"{NUMBER} {NUMBER}",
    "give-floor": f"{NUMBER} {NUMBER}",
}
MAKES = re.compile("|".join(f"{command} {words}" for command, words in WORDS.items()))
ROW = re.compile("|".join(
    f"{kind} {f'{NUMBER} ' * (first - 1)}{WORDS[command]}" for kind, (command, first) in MAKING.items()
))  # fmt: skip


class Unmade(Exception):
    """A line that makes no rows, and so isn't given to a bridge."""


def parts_of(call):
    """The commands of a call."""
    return call.removeprefix("group ").split(" / ")


def further(call):
    """A call whose streams begin further on, as those of kept rows do."""
    parts = parts_of(call)
    for at, part in enumerate(parts):
        words = part.split(" ")
        if words[0] in ("add-member", "add-slot"):
            words[-2] = str((int(words[-2]) + FURTHER) % 2**16)
            parts[at] = " ".join(words)
    return ("group " if call.startswith("group ") else "") + " / ".join(parts)


def makings(group):
    """The commands of a group, each as its words. Raises Unmade where a command of it does anything but make a row."""
    if not isinstance(group, str) or len(group) > MOST_OCTETS or not group.startswith("group "):
        raise Unmade
    commands = parts_of(group)
    if len(commands) > MOST_COMMANDS or not all(map(MAKES.fullmatch, commands)):
        raise Unmade
    return [command.split(" ") for command in commands]


# What each making command makes, and what it names, as kinds of row and the places of their words.
MADE = {"add-room": "room", "add-member": "member", "add-source": "source", "add-slot": "slot"}
NAMED = {
    "add-room": [("room", 1)], "add-member": [("room", 2)], "add-source": [("member", 2)], "add-slot": [("member", 2)],
    "subscribe": [("slot", 1), ("source", 2)], "mute": [("source", 1)], "set-gain": [("member", 1), ("source", 2)],
    "pin": [("room", 1), ("source", 2)], "give-floor": [("room", 1), ("member", 2)],
}  # fmt: skip


def room_made(room, groups):
    """The groups that make a room, if they do. Raises Unmade where one touches anything but the room and its rows."""
    if not isinstance(groups, list) or not groups:
        raise Unmade
    known = {("room", str(room))}
    for command, *words in [one for group in groups for one in makings(group)]:
        if not known.issuperset((kind, words[place - 1]) for kind, place in NAMED[command]):
            raise Unmade
        if command in MADE:
            known.add((MADE[command], words[0]))
    return groups


def commands_of(rows):
    """The commands that make the rows of a `show`. Its order is one in which each names only what is there.

    Raises Unmade where one is no row.
    """
    found = []
    for row in rows:
        if not ROW.fullmatch(row):
            raise Unmade(row)
        words = row.split(" ")
        if words[0] in ("member", "slot"):
            words[-2] = str((int(words[-2]) + FURTHER) % 2**16)
        command, first = MAKING[words[0]]
        found.append(" ".join([command, *words[first:]]))
    return found


def groups_of(commands):
    """As few groups as these commands take, in their order."""
    groups, count = [], MOST_COMMANDS
    for command in commands:
        if count == MOST_COMMANDS or len(groups[-1]) + len(" / ") + len(command) > MOST_OCTETS:
            groups.append("group " + command)
            count = 1
        else:
            groups[-1] += " / " + command
            count += 1
    return groups


def change_of(before, after):
    """What makes one list of commands another one: those that go, and those that come with their places. None where
    what stays stands in another order."""
    had, has = set(before), set(after)
    if [one for one in before if one in has] != [one for one in after if one in had]:
        return None
    come = [[place, one] for place, one in enumerate(after) if one not in had]
    return {"gone": [one for one in before if one not in has], "come": come}


def whole_of(lines):
    """What makes a room, as etcd has it: the commands among these lines as groups, and then operators' calls."""
    calls = [one for one in lines if one.startswith(CALL)]
    return groups_of([one for one in lines if not one.startswith(CALL)]) + calls


def lines_in(whole):
    """The lines of such a whole. Raises Unmade where something is no list of them."""
    if not isinstance(whole, list):
        raise Unmade
    is_call = lambda one: isinstance(one, str) and one.startswith(CALL)
    return [line for one in whole for line in ([one] if is_call(one) else map(" ".join, makings(one)))]


def with_changes(whole, changes):
    """What makes a room, after some changes. Raises Unmade where something is no change, or no such whole."""
    if not changes:
        return whole
    lines = lines_in(whole)
    for change in changes:
        if not is_change(change):
            raise Unmade
        gone = set(change["gone"])
        lines = [one for one in lines if one not in gone]
        for place, one in change["come"]:
            lines.insert(place, one)
    return whole_of(lines)


def is_change(one):
    """Whether it has the form of a change. What its commands do is seen where they are whole groups again."""
    if not isinstance(one, dict) or one.keys() != {"gone", "come"} or not all(isinstance(it, list) for it in one.values()):
        return False
    is_come = lambda it: isinstance(it, list) and list(map(type, it)) == [int, str] and it[0] >= 0
    return all(isinstance(it, str) for it in one["gone"]) and all(map(is_come, one["come"]))


def by_room(rows):
    """The rows of each room, in their order, by its number."""
    rooms, room_of = {}, {}
    for row in rows:
        words = row.split(" ")
        if words[0] == "member":
            room = room_of["member", words[2]] = words[3]
        elif words[0] in THROUGH:
            kind, at = THROUGH[words[0]]
            room = room_of[words[0], words[1]] = room_of[kind, words[at]]
        else:
            room = words[1]
        rooms.setdefault(int(room), []).append(row)
    return rooms
