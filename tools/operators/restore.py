"""Gives an empty bridge the groups of a file that `tools/bridge keep` printed.

    tools/bridge restore 127.0.0.1:7000 desk.txt

It reads the whole file before it gives a line of it: each has to be a group that makes rows and does nothing else. It
looks first whether the desk is empty. Where a group is refused, it says which one, which command of it, and why, and
one further group removes the rooms that those before it added: nothing stays. The status is 1 where the bridge refuses
a group or isn't empty, 2 where it is gone or busy, and 3 where the file isn't whole.
"""

import contextlib
import pathlib
import re
import sys

from operators.keep import Seat, Trouble, last_line
from operators.keep import options as takes_address
from operators.models.desk import parts_of

# `keep` has said where that is.
from kept import Unmade, makings  # noqa: E402

NEEDS = "a bridge that runs"
# The name of its connection.
NAME = "agent-restore"


def options(parser):
    takes_address(parser)
    parser.add_argument("file", metavar="FILE", type=pathlib.Path, help="what `tools/bridge keep` printed")


def groups_in(path):
    """The groups of a file with the numbers of their lines, where all of it is there."""
    try:
        lines = path.read_bytes().splitlines()
    except OSError as why:
        raise Trouble(f"{path} can't be read: {why.strerror}", 3) from None
    found = [(number, line) for number, line in enumerate(lines, 1) if line and not line.startswith(b"#")]
    groups = [(number, line.decode("ascii", "replace")) for number, line in found]
    for number, group in groups:
        try:
            makings(group)
        except Unmade:
            raise Trouble(f"line {number} of {path} is no group of rows: nothing was given", 3) from None
    end = last_line(len(groups), sum(len(parts_of(group.split(" "))) for _, group in groups))
    if not lines or lines[-1].decode("ascii", "replace") != end:
        raise Trouble(f"{path} is cut, or lines of it are missing: its last line isn't `{end}`. Nothing was given", 3)
    return groups


def emptied(seat, given):
    """Removes the rooms that some groups have added. What is said of it."""
    rooms = [part[1] for group in given for part in parts_of(group.split(" ")) if part[0] == "add-room"]
    if not rooms:
        return "Nothing stays"
    said = seat.answered("group " + " / ".join(f"remove-room {room}" for room in rooms))
    if said.startswith("ok "):
        return "Nothing stays: the rooms that were added are removed again"
    return f"What was added stays, since the bridge refuses to remove it: {said}"


def refusal_of(number, line, group, said):
    """What a refusal says of a group of a file."""
    words = said.split()
    if words[3:4] == ["PartRefused"]:
        part = int(words[4])
        command = " ".join(parts_of(group.split(" "))[part])
        return f"group {number} (line {line}), command {part} from 0, `{command}`: {' '.join(words[5:])}"
    return f"group {number} (line {line}): {said}"


def give(seat, groups):
    rows, _ = seat.rows()
    if rows:
        raise Trouble(f"the bridge at {seat.address} isn't empty: it has {len(rows)} rows. Nothing was given", 1)
    # The page's Undo leaves what a program of such a name did.
    seat.answered(f"as {NAME}")
    for at, (line, group) in enumerate(groups):
        try:
            said = seat.answered(group)
        except Trouble as why:
            raise Trouble(f"{why}. {at} of {len(groups)} groups were accepted before", why.status) from None
        if not said.startswith("ok "):
            refusal = refusal_of(at + 1, line, group, said)
            raise Trouble(f"{refusal}. {emptied(seat, [one for _, one in groups[:at]])}", 1)


def run(args):
    try:
        groups = groups_in(args.file)
        with contextlib.closing(Seat(args.address)) as seat:
            give(seat, groups)
    except Trouble as why:
        print(f"tools/bridge restore: {re.sub('[.]$', '', str(why))}", file=sys.stderr)
        return why.status
    print(f"tools/bridge restore: {len(groups)} groups were accepted", file=sys.stderr)
    return 0
