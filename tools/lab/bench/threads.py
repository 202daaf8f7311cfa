"""Measures desks and lanes on threads, each beside a floor in the same run.

The program x_bench runs N times. It measures each figure and its floor in turn, some rounds each, and tells the
least times as a ratio. A row has the median ratio, in brackets the least and the most, and the median time. The floors
are
  a call at a shared desk       the same call at the desk of a core on one thread
  16 seats of a full desk       as many calls of one seat: how many times as many calls a second
  enter and leave               a lock and an unlock of a mutex that nobody else wants
    while an operator calls     the same while nobody calls
  an egress of a lane           the same items on one thread, by the core, in processor time of all threads
  four lanes                    one lane with the same items: how many times as many egresses a second
Four lanes want four cores: other programs that run meanwhile, and processor time that the host takes away, make the
last figure worse. The program starts as ./confbridge starts it, with large pages, unless GLIBC_TUNABLES is set, even to
nothing.
"""

import os
import re
import statistics
import subprocess

from operators.shared import add_program, fail, release_program

NEEDS = "the program of the crate x_bench, minutes; four cores"

LINE = re.compile(r"(?P<name>.*): (?P<ratio>[\d.]+) \((?P<time>[\d.]+) ns, floor (?P<floor>[\d.]+) ns\)")

# By the beginning of a figure's name: what it is to be.
GOALS = {
    "a call": "at most 3",
    "16 seats": "at least 0.5",
    "enter and leave while": "at most 1",
    "an egress": "at most 1.5",
    "four lanes": "at least 2.5",
}


def options(parser):
    add_program(parser, "x_bench")
    parser.add_argument("--runs", type=int, default=5, help="how many runs (%(default)s)")


def measured(program):
    """The figures of one run: name, time in nanoseconds and ratio of each."""
    tunables = {"GLIBC_TUNABLES": "glibc.malloc.hugetlb=1"}
    run = subprocess.run([program, "run"], env=tunables | os.environ, capture_output=True, text=True, check=False)
    if run.returncode:
        fail(f"the program ended with status {run.returncode}\n{run.stderr[-2000:]}")
    matches = [LINE.fullmatch(line) for line in run.stdout.splitlines()]
    if not all(matches):
        fail(f"these are no figures\n{run.stdout}")
    return [(match["name"], float(match["time"]), float(match["ratio"])) for match in matches]


def goal_of(name):
    return next((goal for start, goal in GOALS.items() if name.startswith(start)), "")


def span(nanoseconds):
    """A time with three digits."""
    unit, time = ("us", nanoseconds / 1000) if nanoseconds >= 1000 else ("ns", nanoseconds)
    return f"{time:.3g} {unit}"


def run(args):
    program = release_program(args.binary, "x_bench")
    found = {}
    for _ in range(args.runs):
        for name, time, ratio in measured(program):
            found.setdefault(name, []).append((time, ratio))
    print("| Work | Figure | Goal | Ratio to its floor |\n|---|---|---|---|")
    for name, pairs in found.items():
        times, ratios = zip(*pairs)
        ratio = f"{statistics.median(ratios):.2f} ({min(ratios):.2f} to {max(ratios):.2f})"
        print(f"| {name} | {span(statistics.median(times))} | {goal_of(name)} | {ratio} |")
    return 0
