"""Plays schedules on a bridge over scripted datagrams, moments, sockets and lines, beside a bridge of one thread.

Loop, lanes and operators' connections are the program's own, and the lanes are on threads. What a schedule does follows
from its seed. Whatever the bridge does otherwise than the bridge of one thread is a difference. The script that leads
to one is made smaller, as long as it leads to one, and printed: the program of crates/x_simulation plays it again. The
status is 0 where nothing differs.

With --refused the program is played on a few schedules while one request for memory is refused, each of so many that
are chosen by the seed. It has to end by itself, with all seats given back.

With --plants each bug of tools/checks/plants.py is planted, one at a time, in a copy of the crates. The program is
built from it without proofs, and has to notice: by a difference, or by not ending in time. The status is 0 where each
is noticed.
"""

import concurrent.futures
import functools
import os
import pathlib
import random
import re
import shutil
import subprocess
import tempfile
import time

from checks.plants import PLANTS
from checks.refusing import ANY, Heap, library
from checks.schedules import script
from operators.shared import CRATES, ROOT, add_program, crates_below, release_program

NEEDS = "the program of crates/x_simulation; --refused `cc`; --plants `rt`, two minutes a bug on an idle machine"

NAME = "x_simulation"
# How many schedules are played on one bridge, and how many rounds each has.
AT_ONCE, ROUNDS = 20, 20
# After so many seconds a script hangs, and a script is made no smaller.
SECONDS, SHRINKING = 300, 120
# A request for memory that is refused is one of so many.
REQUESTS = 30_000
# The script that a program with a bug plays, and for how many seconds. In its first schedule lanes drop items.
PLANTED, PLANTED_SECONDS = (36, 8, 2, ROUNDS), 250

GOOD = re.compile(r"played: \d+ lines, (\d+) rounds, (\d+) packets, (\d+) drops")
DIFFERS = re.compile(r"line (\d+) differs: \w+(\(\d+\))?; the seats are (back|missing)")


def options(parser):
    add_program(parser, NAME)
    parser.add_argument("--runs", type=int, default=10_000, help="how many schedules (%(default)s)")
    parser.add_argument("--seed", type=int, default=1, help="the seed of the first one (%(default)s)")
    parser.add_argument("--jobs", type=int, default=os.cpu_count(), help="how many programs run at once (%(default)s)")
    parser.add_argument("--refused", type=int, metavar="N", help="refuse so many requests for memory, one at a time")
    parser.add_argument("--plants", nargs="*", metavar="BUG", help="plant each bug, or those that are named")


def said_of(program, lines, environment=None):
    """What the program says of a script, or that it hangs."""
    text = "".join(f"{line}\n" for line in lines)
    try:
        run = subprocess.run(
            [program], input=text, capture_output=True, text=True, timeout=SECONDS, check=False, env=environment
        )
    except subprocess.TimeoutExpired:
        return "hangs"
    return run.stdout.strip() or f"status {run.returncode}: {run.stderr[-300:]}"


# Schedules


def scripts(args):
    """The arguments of each script: its seed, how many schedules it has, its lanes and their rounds."""
    for at in range(0, args.runs, AT_ONCE):
        yield args.seed + at, min(AT_ONCE, args.runs - at), 1 + at // AT_ONCE % 4, ROUNDS


def said_of_one(program, one):
    """What the program says of the script of these arguments."""
    return said_of(program, script(*one))


def shrunk(program, lines, said):
    """The smallest script found that leads to a difference, and what is said of it. The first line stays."""
    found, end = DIFFERS.match(said), time.monotonic() + SHRINKING
    (first, *rest), size = lines[: int(found[1])] if found else lines, len(lines)
    while size > 0 and time.monotonic() < end:
        size, at = min(size // 2, len(rest)), 0
        while at < len(rest) and size and time.monotonic() < end:
            less = rest[:at] + rest[at + size :]
            again = said_of(program, [first, *less])
            if GOOD.fullmatch(again):
                at += size
            else:
                rest, said = less, again
    return [first, *rest], said


def played(args):
    """Plays schedules. The status."""
    program = release_program(args.binary, NAME)
    given = list(scripts(args))
    with concurrent.futures.ProcessPoolExecutor(args.jobs) as pool:
        says = list(pool.map(functools.partial(said_of_one, program), given))
    counts = [GOOD.fullmatch(said) for said in says]
    wrong = [(one, said) for one, said, count in zip(given, says, counts) if not count]
    for one, said in wrong[:3]:
        lines, less = shrunk(program, script(*one), said)
        print(f"schedules from seed {one[0]}: {said}\na script of {len(lines)} lines, {less}:", *lines, sep="\n")
    rounds, packets, drops = (sum(int(count[at]) for count in counts if count) for at in (1, 2, 3))
    what = f"{args.runs} schedules from seed {args.seed}: {rounds} rounds, {packets} packets, {drops} drops"
    print(f"{what}; {len(wrong)} of {len(given)} bridges differ")
    return 1 if wrong else 0


# Memory


def refused(args):
    """Plays schedules while a request for memory is refused. The status."""
    program, chance = release_program(args.binary, NAME), random.Random(args.seed)
    ends = 0
    with tempfile.TemporaryDirectory() as folder:
        heap = Heap(folder, library(folder))
        for at in range(args.refused):
            nth = 1 + int(REQUESTS ** chance.random())
            heap.refuse(ANY, nth)
            said = said_of(program, script(args.seed + at, 2, 1 + at % 4, ROUNDS), heap.environment)
            _, is_refused = heap.release()
            found = DIFFERS.fullmatch(said)
            # The program may be refused the memory for its script.
            is_well = found and found[3] == "back" or re.match(r"status \d", said)
            if not GOOD.fullmatch(said) and not (is_refused and is_well):
                print(f"seed {args.seed + at}: request {nth} is refused: {said}")
                return 1
            ends += not GOOD.fullmatch(said)
    print(f"{args.refused} requests refused: {ends} ended the run, with all seats back; the others had another way")
    return 0


# Bugs


def plant(name, top):
    """Makes a copy of the crates that the simulation stands on, with a bug in it."""
    needed, leave = crates_below(NAME), shutil.ignore_patterns("out", "must-fail", "edits")
    for crate in needed:
        shutil.copytree(CRATES / crate, top / "crates" / crate, ignore=leave)
    shutil.copy(ROOT / "HANDLES", top)
    lines = (ROOT / "crates.txt").read_text().splitlines()
    (top / "crates.txt").write_text("".join(f"{it}\n" for it in lines if it.partition(":")[0].strip() in needed))
    file, old, new = PLANTS[name]
    path = top / "crates" / file
    text = path.read_text()
    if text.count(old) == 1:
        path.write_text(text.replace(old, new))
        return True
    return False


def noticed(name, text):
    """Whether the simulation notices a bug, and how."""
    with tempfile.TemporaryDirectory(prefix="plants-") as folder:
        top = pathlib.Path(folder)
        if not plant(name, top):
            return False, "BAD BUG: its old text doesn't stand once in its file"
        command = ["rt", "try", "--seconds", str(PLANTED_SECONDS), "--steps", "1000"]
        run = subprocess.run(
            command, cwd=top / "crates" / NAME, input=text, capture_output=True, text=True, check=False
        )
    said = run.stdout + run.stderr
    if "error[" in said:
        return False, f"BAD BUG: {said[-300:].strip()}"
    found = DIFFERS.search(said)
    if found or not GOOD.search(said):
        return True, found[0] if found else f"it stops or hangs: {said[-200:].strip()}"
    return False, "NOT NOTICED"


def planted(names):
    """Plants each bug. The status."""
    missed = 0
    text = "".join(f"{line}\n" for line in script(*PLANTED))
    for name in names or PLANTS:
        is_noticed, how = noticed(name, text)
        missed += not is_noticed
        print(f"{name}: {how}", flush=True)
    print(f"{len(names or PLANTS)} bugs, {missed} not noticed")
    return 1 if missed else 0


def run(args):
    if args.plants is not None:
        return planted(args.plants)
    return refused(args) if args.refused else played(args)
