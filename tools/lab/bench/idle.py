"""Measures what bridges without members cost on one machine: memory, and time of the processor.

So many bridges run side by side, each with one lane, or as many as are asked for, and the settings of a fleet's
bridge. Their memory is the sum of their proportional set sizes: what the system would get back if they ended. Their
time is that of all their threads, as a share of one core. A count for which the machine has no memory is skipped.
"""

import pathlib
import tempfile
import time

from checks.bridges import seconds_of
from operators.serving import settings, started
from operators.shared import add_program, release_program

NEEDS = "the program, two minutes; some 12 GB of memory for 100 bridges"

# What a bridge may take at its start, in kB, with something to spare.
MOST_KB = 120_000
# Seconds between the start of the last bridge and the measurement: lanes and buffers have come to rest then.
REST = 3


def options(parser):
    parser.add_argument("--bridges", type=int, nargs="+", default=[1, 10, 100], help="how many (1, 10 and 100)")
    parser.add_argument("--lanes", type=int, default=1, help="how many lanes each has (%(default)s)")
    parser.add_argument("--seconds", type=int, default=30, help="how long their time is taken (%(default)s)")
    add_program(parser)


def kilobytes(path, key):
    """A line such as `Pss: 12 kB` of a file of the system."""
    line = next(one for one in pathlib.Path(path).read_text().splitlines() if one.startswith(f"{key}:"))
    return int(line.split()[1])


def measure(program, count, lanes, seconds):
    with tempfile.TemporaryDirectory() as folder:
        path, bridges = settings(folder, operators=4, lanes=lanes), []
        try:
            for _ in range(count):
                bridges.append(started(program, path)[0])
            time.sleep(REST)
            before, begun = sum(map(seconds_of, bridges)), time.monotonic()
            time.sleep(seconds)
            share = (sum(map(seconds_of, bridges)) - before) / (time.monotonic() - begun)
            memory = sum(kilobytes(f"/proc/{one.pid}/smaps_rollup", "Pss") for one in bridges)
        finally:
            for one in bridges:
                one.kill()
                one.wait()
    print(f"{count} bridges: {memory / 1000:.0f} MB, {share:.2%} of one core", flush=True)


def run(args):
    program = release_program(args.binary)
    for count in args.bridges:
        free = kilobytes("/proc/meminfo", "MemAvailable")
        if free < count * MOST_KB:
            print(f"skipped: {count} bridges ({free / 1000:.0f} MB of memory are free)")
            continue
        measure(program, count, args.lanes, args.seconds)
