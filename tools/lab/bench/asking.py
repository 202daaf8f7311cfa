"""Counts what asking for `stats` costs media, in instructions.

A bridge runs under callgrind, with a room whose members all send PCMU, and one of them video that all others see. It
runs so twice for the same time: an operator asks many times a second, or never. The instructions are those of all
threads but the operator's, which prints: the front writes rows for it, and lanes wait while their streams are copied.
The difference is that of the answers. It is told for one answer, and for so many a second as a share of media.
"""

import pathlib
import re
import tempfile
import time

from checks.bridges import accepted, held, room_lines
from lab.bench.room import Members
from operators.packets import rtp
from operators.serving import settings, udp_socket
from operators.shared import add_program, fail, release_program

NEEDS = "the program, valgrind, two minutes"

# A bridge under callgrind takes some 50 times as long.
PATIENCE = 120
# How often an operator asks, by whom the goal is stated.
STATED = 10
VIDEO = 100


def add_call(parser):
    """Adds the options of a call."""
    parser.add_argument("--members", type=int, default=16, help="how many members the room has (%(default)s)")
    parser.add_argument("--lanes", type=int, default=1, help="how many lanes the bridge has (%(default)s)")
    parser.add_argument("--seconds", type=int, default=20, help="how long the call lasts (%(default)s)")


def options(parser):
    add_call(parser)
    parser.add_argument("--rate", type=int, default=200, help="how often a second `stats` is asked (%(default)s)")
    add_program(parser)


class Room(Members):
    """The members, of whom the first one sends a frame of one packet, too."""

    def send(self, at):
        super().send(at)
        self.sockets[0].sendto(rtp(at, 1800 * at, VIDEO, bytes(1_000), marker=1), self.to)


def desk(sockets):
    """The calls that make the room, in which all others see the first one."""
    yield from room_lines(sockets)
    yield f"add-source {VIDEO} 0 video"
    for number in range(1, len(sockets)):
        yield f"add-slot {7_000 + number} {number} 0 0 0"
        yield f"subscribe {7_000 + number} {VIDEO}"


def ask(operator, seconds, rate):
    """Asks so often a second, or waits. How often it asked."""
    begun, asked = time.monotonic(), 0
    while time.monotonic() - begun < seconds:
        if asked < (time.monotonic() - begun) * rate:
            if operator.shown("stats")[-1:] != ["end"]:
                fail("`stats` has no answer")
            asked += 1
        else:
            time.sleep(0.001)
    return asked


def counted(folder):
    """What callgrind counted of each thread, in their order: its instructions, and the names of its functions."""
    threads = {}
    for path in pathlib.Path(folder).glob("counted-*"):
        text = path.read_text()
        said = re.search(r"^totals: (\d+)", text, re.MULTILINE)
        names = re.findall(r"^c?fn=\(\d+\) (\S+)", text, re.MULTILINE)
        threads[int(path.name.rpartition("-")[2])] = int(said[1]) if said else 0, names
    if len(threads) < 4:
        fail(f"callgrind told of {len(threads)} threads")
    return [threads[thread] for thread in sorted(threads)]


def measured(program, args, rate, more=""):
    """What each thread took, the operator's as the last one, and how often `stats` was asked. More settings may be
    given."""
    sockets = [udp_socket() for _ in range(args.members)]
    with tempfile.TemporaryDirectory() as folder:
        tool = ["valgrind", "--tool=callgrind", "--separate-threads=yes", f"--callgrind-out-file={folder}/counted"]
        path = settings(folder, lanes=args.lanes)
        path.write_text(path.read_text() + more)
        with held(program, path, [*tool, "--quiet"], PATIENCE) as (_, udp, operator):
            accepted(operator, *desk(sockets))
            members = Room(udp, sockets, lambda number: 0x90)
            asked = ask(operator, args.seconds, rate)
            members.end()
        return counted(folder), asked


def media(threads):
    """The instructions of all threads but the operator's."""
    return sum(instructions for instructions, _ in threads[:-1])


def run(args):
    program = release_program(args.binary)
    threads, _ = measured(program, args, 0)
    alone = media(threads)
    threads, asked = measured(program, args, args.rate)
    beside = media(threads)
    answer, second = (beside - alone) / asked, alone / args.seconds
    share = STATED * answer / second
    print(f"media: {second:,.0f} instructions a second; {asked} answers: {answer:,.0f} each")
    print(f"{STATED} answers a second: {share:.2%} of that")
    return 0
