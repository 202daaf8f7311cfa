"""Prints the desk of a running bridge as groups that make all its rows again.

    tools/bridge keep 127.0.0.1:7000 > desk.txt

A desk ends with its bridge. `tools/bridge restore` gives these groups to an empty bridge, and its `show` then says
the same but for FIRST_SEQ: streams begin anew, and 1,000 is added to that number of each (modulo 65,536), so that
receivers don't take new packets for old ones. Each group is all or nothing, and one undo takes it back. The first and
the last line say how many there are. It takes a seat for a moment. The status is 2 where the bridge is gone or busy,
and nothing is printed then.

The groups are those that the bridge tells by its line `groups`. A bridge that is too old to know that line is refused
with status 2: the `keep` that came with it keeps its desk, in a file of the same form.
"""

import contextlib
import socket
import sys

from operators.serving import Operator
from operators.shared import ROOT

sys.path.insert(0, str(ROOT / "examples/fleet"))

from kept import FURTHER, Unmade, further, makings  # noqa: E402
from printable import printable  # noqa: E402

NEEDS = "a bridge that runs"

# How many seconds a bridge may take for an answer. How many octets a line of it has at most, and how many rows a desk:
# more are no bridge's.
PATIENCE, MOST_OCTETS, MOST_ROWS = 30, 4096, 200_000
# What an older bridge says to a line that it doesn't know.
UNKNOWN = "fault 1 3 UnknownWord"


class Trouble(Exception):
    """What a person is told, as a terminal may show it, and the exit status."""

    def __init__(self, text, status):
        super().__init__(printable(text))
        self.status = status


def options(parser):
    parser.add_argument("address", metavar="ADDRESS", help="the bridge's `tcp`, as an address or a port of 127.0.0.1")


class Seat(Operator):
    """An operator's connection to the bridge at an address. Where no answer comes it raises Trouble."""

    def __init__(self, address):
        self.address = address if ":" in address else f"127.0.0.1:{address}"
        host, _, port = self.address.rpartition(":")
        if not port.isdigit() or int(port) > 65535:
            raise Trouble(f"{address} is no address", 4)
        try:
            connection = socket.create_connection((host, int(port)), PATIENCE)
        except OSError as why:
            raise Trouble(f"there is no bridge at {self.address}: {why.strerror or why}", 2) from None
        self.connection = connection
        # Whatever octets come are a text.
        self.lines = connection.makefile("rw", newline="\n", encoding="ascii", errors="backslashreplace")

    def line(self):
        """The next line: empty where the connection has ended."""
        return self.lines.readline(MOST_OCTETS + 1).strip("\n")

    def answered(self, line):
        """The first line that answers a line."""
        try:
            self.tell(line)
            said = self.line()
        except TimeoutError:
            raise Trouble(f"the bridge at {self.address} doesn't answer within {PATIENCE} s", 2) from None
        except OSError:
            said = ""
        if said == "busy":
            raise Trouble(f"the bridge at {self.address} is busy: all seats at its desk are taken", 2)
        if not said:
            raise Trouble(f"the bridge at {self.address} is gone: it closed the connection", 2)
        return said

    def told(self, line, what):
        """The lines that answer a line, and the version behind them. None where the bridge doesn't know it."""
        lines, said = [], self.answered(line)
        while not said.startswith("end "):
            if said == UNKNOWN and not lines:
                return None
            lines.append(said)
            try:
                said = self.line()
            except OSError:
                said = ""
            if not said or len(lines) > MOST_ROWS:
                raise Trouble(f"the bridge at {self.address} is gone: its {what} end in the middle", 2)
        version = said.removeprefix("end ")
        if not version.isdigit():
            raise Trouble(f"{self.address} is no bridge: it says {said[:80]!r}", 2)
        return lines, int(version)

    def rows(self):
        """The rows of the desk, and its version."""
        told = self.told("show", "rows")
        if not told:
            raise Trouble(f"{self.address} is no bridge: it doesn't know `show`", 2)
        return told

    def version(self):
        """The version of the desk."""
        lines, version = self.told("history 0", "calls") or (["no history"], 0)
        if lines:
            raise Trouble(f"{self.address} is no bridge: asked for `history 0`, it says `{lines[0][:80]}`", 2)
        return version

    def groups(self):
        """The groups that make the rows of the desk again, streams further on, and its version."""
        # A line that a bridge doesn't know, as the first of a connection, would close that.
        self.version()
        told = self.told("groups", "groups")
        if not told:
            raise Trouble(f"the bridge at {self.address} {OLDER}", 2)
        return [further(group) for group in groups_told(told[0], self.address)], told[1]

    def close(self):
        with contextlib.suppress(OSError):
            self.tell("quit")
        for one in self.lines, self.connection:
            with contextlib.suppress(OSError):
                one.close()


def last_line(groups, commands):
    """The line that ends a file of groups: without it the file was cut."""
    return f"# end: {groups} groups of {commands} commands"


def groups_told(lines, address):
    """The lines, where each is a group that makes rows and does nothing else."""
    for line in lines:
        try:
            makings(line)
        except Unmade:
            raise Trouble(f"{address} is no bridge: `{line[:80]}` is no group of rows", 2) from None
    return lines


MOVED = f"FIRST_SEQ of each stream is {FURTHER} further on, as streams begin anew"
OLDER = "is an older one, which doesn't know the line `groups`: the `keep` that came with it keeps its desk"


def count_in(groups):
    """How many commands groups have."""
    return sum(len(makings(group)) for group in groups)


def text_of(groups, version):
    """What makes the rows of a bridge again, as a file has it."""
    lines = [f"# the desk of version {version}: {MOVED}", *groups, last_line(len(groups), count_in(groups))]
    return "".join(f"{line}\n" for line in lines)


def run(args):
    try:
        with contextlib.closing(Seat(args.address)) as seat:
            groups, version = seat.groups()
    except Trouble as why:
        print(f"tools/bridge keep: {why}", file=sys.stderr)
        return why.status
    print(text_of(groups, version), end="")
    print(f"tools/bridge keep: {count_in(groups)} rows in {len(groups)} groups; {MOVED}", file=sys.stderr)
    return 0
