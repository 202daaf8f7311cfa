"""A desk by the rows that `show` told: the calls that make it, and the first numbers of its streams."""

import re

from operators.explain.operators import is_good
from operators.models.desk import MOST_PARTS, Desk, Refused, desk_again

# The commands that put the rows of a kind, in the order in which rows may name each other, and the first word of a row
# that counts.
PUTTING = [
    ("room", "add-room", 1), ("member", "add-member", 2), ("source", "add-source", 1), ("slot", "add-slot", 1),
    ("sub", "subscribe", 1),
    ("mute", "mute", 1), ("gain", "set-gain", 1), ("pin", "pin", 1), ("floor", "give-floor", 1),
]  # fmt: skip


def commands_for(rows):
    """The commands that make a desk with these rows. A row that no bridge tells makes none."""
    words = [row.split(" ") for row in rows]
    found = [" ".join([command, *one[first:]]) for kind, command, first in PUTTING for one in words if one[0] == kind]
    return [command for command in found if is_good(command)]


def with_firsts(command, firsts):
    """A command that adds a member or a slot, with the first number and timestamp that its stream is known to have."""
    words = command.split(" ")
    out = words[5] if words[0] == "add-member" else words[1] if words[0] == "add-slot" else None
    if out and int(out) in firsts:
        words[-2:] = map(str, firsts[int(out)])
    return " ".join(words)


def calls_for(desk, rows, firsts):
    """The calls that make one desk out of another. Sources and streams go on."""
    commands = (
        [f"remove-room {room['room']}" for room in desk.rooms]
        + [with_firsts(one, firsts) for one in commands_for(rows)]
    )
    return ["group " + " / ".join(commands[at : at + MOST_PARTS]) for at in range(0, len(commands), MOST_PARTS)]


def has_reverts(shown):
    """Whether a desk was told by a history with reverts: which calls these took back isn't told."""
    return any(text.startswith("revert ") for _, text in (*shown.calls, *shown.undone))


def rows_of(shown):
    """The rows of a desk that was told, also where a history told the calls that made it. None where they make none."""
    if not shown.calls:
        return shown.rows
    # Without what a revert took back, a later command may ask for what is so.
    words = [(0, seat, text.split(" ")) for seat, text in shown.calls if not text.startswith("revert ")]
    try:
        return tuple(desk_again(Desk(), words).shown(0)[:-1])
    except Refused:
        return None


def without_firsts(rows):
    """Rows without the first numbers of streams."""
    return [" ".join(row.split(" ")[:-2]) if row.split(" ")[0] in ("member", "slot") else row for row in rows]


def streams_of(texts):
    """The SSRCs of the mixes that some calls and rows name."""
    found = set()
    for text in texts:
        words = text.split(" ")
        outs = [words[at + 5] for at, word in enumerate(words[:-5]) if word == "add-member"]
        outs += words[6:7] if words[0] == "member" and len(words) == 9 else []
        found |= {int(out) for out in outs if re.fullmatch("[0-9]{1,10}", out)}
    return found
