"""Runs the gate, and prints where its time goes.

It runs COMMAND (`rt ci` if none is given) at the top of the repository, looks at its processes until it ends, and then
prints a table: for each crate its lines of code, the functions that were proved, the processor seconds of its first
proof, its tests and its must-fail edits, the seconds of first proof a line, and the most memory that one of its
processes held. A program's proof includes what both compilers take. The last rows are what belongs to no crate (the
tool itself, runs of programs) and the sum. Below stand the time by the clock, how many provers ran at once, and the
most memory that all held together.

Seconds are what the kernel counts for a process, read every quarter of a second, so each process may have taken that
much more. The command prints to standard error, and its status is the status.
"""

import collections
import os
import pathlib
import re
import resource
import subprocess
import sys
import threading
import time

from operators.shared import CRATES, ROOT, crates

NEEDS = "`rt`, the time of a gate run"

TICKS = os.sysconf("SC_CLK_TCK")
PAGE_MB = os.sysconf("SC_PAGE_SIZE") / 1e6
EVERY = 0.25
PROVED = re.compile(r"fn (\w+)::.*: proved$")


def options(parser):
    parser.add_argument("command", nargs="*", metavar="COMMAND", help="what to run, after `--` (`rt ci` if not given)")


class Seen:
    """What was seen of a run: by crate and kind of work its seconds and memory, and by look how many provers ran."""

    def __init__(self):
        self.seconds = collections.Counter()
        self.functions = collections.Counter()
        self.memory = collections.Counter()
        self.most_memory = 0
        self.at_once = collections.Counter()


def text_of(path):
    """The text of a file, empty if it is gone."""
    try:
        return pathlib.Path(path).read_bytes().decode(errors="replace")
    except OSError:
        return ""


def processes():
    """Each process by its number: its parent, the seconds it has taken so far, and the MB that it holds."""
    found = {}
    for name in os.listdir("/proc"):
        stat = text_of(f"/proc/{name}/stat") if name.isdigit() else ""
        if stat:
            fields = stat.rpartition(")")[2].split()
            seconds = (int(fields[11]) + int(fields[12])) / TICKS
            found[int(name)] = int(fields[1]), seconds, int(fields[21]) * PAGE_MB
    return found


def work_of(number):
    """The crate that a process works on and what it does there, if its arguments say so."""
    words = text_of(f"/proc/{number}/cmdline").split("\0")
    if "--crate-name" not in words[:-1]:
        return None
    crate = words[words.index("--crate-name") + 1]
    try:
        folder = os.readlink(f"/proc/{number}/cwd")
    except OSError:
        folder = ""
    if "/rt-edit-" in folder:
        return crate, "edits"
    return crate, "tests" if "--test" in words else "proof"


def pass_on(lines, seen):
    """Prints what the command prints, and counts the functions that are proved."""
    for line in lines:
        sys.stderr.write(line)
        sys.stderr.flush()
        match = PROVED.match(line.rstrip())
        if match:
            seen.functions[match[1]] += 1


def watch(command):
    """Runs the command. What was seen of it, and its status."""
    seen = Seen()
    started = subprocess.Popen(command, cwd=ROOT, stdout=subprocess.PIPE, text=True, errors="replace")
    printing = threading.Thread(target=pass_on, args=(started.stdout, seen))
    printing.start()
    works, seconds = {}, {}
    while started.poll() is None:
        found = processes()
        ours, provers, memory = {started.pid}, 0, 0
        for number in sorted(found):
            parent, taken, held = found[number]
            if parent in ours:
                ours.add(number)
                work = work_of(number) or works.get(number) or works.get(parent)
                works[number] = work
                # A prover that forks is one prover.
                provers += bool(work) and taken > seconds.get(number, 0) and works.get(parent) != work
                seconds[number] = max(seconds.get(number, 0), taken)
                memory += held
                if work:
                    seen.memory[work[0]] = max(seen.memory[work[0]], held)
        seen.most_memory = max(seen.most_memory, memory)
        seen.at_once[provers] += 1
        time.sleep(EVERY)
    printing.join()
    for number, taken in seconds.items():
        if works.get(number):
            seen.seconds[works[number]] += taken
    return seen, started.returncode


def lines_of(crate):
    return sum(len(text_of(path).splitlines()) for path in (CRATES / crate / "src").rglob("*.rt"))


def print_table(seen, whole):
    print("| Crate | Lines | Functions | First proof | Tests | Edits | Proof a line | MB |")
    print("|---|---|---|---|---|---|---|---|")
    columns = [0, 0, 0]
    for crate in crates():
        row = [seen.seconds[crate, kind] for kind in ("proof", "tests", "edits")]
        columns = [a + b for a, b in zip(columns, row)]
        lines = lines_of(crate)
        cells = " | ".join(f"{it:.0f}" if it else "" for it in row)
        rest = f"{row[0] / max(lines, 1):.2f} | {seen.memory[crate]:.0f}"
        print(f"| {crate} | {lines} | {seen.functions[crate] or ''} | {cells} | {rest} |")
    print(f"| other | | | {whole - sum(columns):.0f} | | | | |")
    cells = " | ".join(f"{it:.0f}" for it in columns)
    print(f"| sum | | {seen.functions.total()} | {cells} | {whole / 60:.0f} minutes in all | {seen.most_memory:.0f} |")


def print_shares(seen, clock):
    """Prints how long the run took, and for how much of it how many provers ran."""
    looks = seen.at_once.total() or 1
    mean = sum(count * times for count, times in seen.at_once.items()) / looks
    shares = ", ".join(f"{count}: {100 * times / looks:.0f} percent" for count, times in sorted(seen.at_once.items()))
    print(f"\n{clock / 60:.0f} minutes by the clock. Provers at once: {mean:.1f} ({shares}).")


def run(args):
    began = time.monotonic()
    seen, status = watch(args.command or ["rt", "ci"])
    used = resource.getrusage(resource.RUSAGE_CHILDREN)
    print_table(seen, used.ru_utime + used.ru_stime)
    print_shares(seen, time.monotonic() - began)
    return status
