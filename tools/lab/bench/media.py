"""Times frames, NACKs, datagrams, sound and entries in the core, or counts their instructions.

A case is run N times as often as fills S seconds, and as many times twice as often. Its time is the least of the longer
runs less the least of the shorter ones, over the times between them, in processor time: making the desk and filling the
windows is in both. The cases take turns, so that a busy moment meets all of them. In the same run the yardstick is
timed: the copy of as many octets into fresh vectors. So is the floor of ticks, tick.c: a program in C that only adds
up, takes off, clamps, encodes and writes headers, for members who all speak and samples that are there.

With --instructions callgrind counts one run of each length, and a case is run often enough for 20 million of them.
"""

import pathlib
import subprocess
import tempfile

from operators.shared import add_measuring, add_program, compiled, instructions, processor_time, release_program

NEEDS = "the program of the crate x_bench, `cc`, minutes; valgrind to count instructions"

HERE = pathlib.Path(__file__).resolve().parent
RECEIVERS = 16
WINDOW = 512
# How many instructions a run takes at least, where they are counted.
ENOUGH = 20_000_000
# The row to which all others are compared.
YARDSTICK = "copy, 4 packets a frame"


def row(words, units=1):
    """A row of one case, which each time does so many packets, frames or numbers."""
    return {words: 1}, units


def tick(case, unheard, silent, members):
    """A tick alone: sound and ticks in a room of so many, less the same sound where nobody is in the room, plus the
    silent ticks that this takes off too much."""
    return {f"{case} {members} 1": 1, f"{unheard} {members} 1": -1, f"{silent} {members} 1": 1}, 1


def put(unheard, silent, members):
    """An audio packet put to its source: sound and ticks where nobody is in the room, less the ticks."""
    return {f"{unheard} {members} 1": 1, f"{silent} {members} 1": -1}, members


SPEECH, MUSIC = ("sound", "silence"), ("played", "paused")
# Each row: how often each of its cases counts, and over how many packets, frames or numbers.
ROWS = {
    "copy, 4 packets a frame": row("copy 16 4", 4 * RECEIVERS),
    "copy, 1 packet a frame": row("copy 16 1", RECEIVERS),
    "keep, 4 packets a frame": row("keep 16 4", 4 * RECEIVERS),
    "frame of 4 packets, 16 slots": row("frame 16 4", 4 * RECEIVERS),
    "frame of 4 packets, 4096 slots": row("frame 4096 4", 4 * RECEIVERS),
    "frame of 1 packet, 16 slots": row("frame 16 1", RECEIVERS),
    "frame of 1 packet, 4096 slots": row("frame 4096 1", RECEIVERS),
    "frame for nobody, 16 slots": row("nobody 16 1"),
    "frame for nobody, 4096 slots": row("nobody 4096 1"),
    "number of a NACK of 512, 16 slots": row("nack 16 1", WINDOW),
    "number of a NACK of 512, 4096 slots": row("nack 4096 1", WINDOW),
    "number looked up in the stream alone": row("find 16 1", WINDOW),
    **{
        f"{what}, {sources} sources, frames of {packets}": row(f"{case} {sources} {packets}")
        for what, case in (("datagram taken in", "datagram"), ("payload copied and kept for its frame", "await"))
        for sources in (2, 2045)
        for packets in (4, 16, 64)
    },
    "datagram from nobody's address": row("elsewhere 2 1"),
    "tick of 16 members": tick("tick", *SPEECH, 16),
    "tick of 64 members": tick("tick", *SPEECH, 64),
    "tick of 64 members at 44100 Hz": tick("music", *MUSIC, 64),
    "tick with nobody in the room, 64 sources": row("silence 64 1"),
    "tick with nobody in the room, 64 sources at 44100 Hz": row("paused 64 1"),
    "audio packet put to its source, 64 sources": put(*SPEECH, 64),
    "audio packet put to its source, 64 sources at 44100 Hz": put(*MUSIC, 64),
    "160 samples encoded": row("encode 1 1"),
    "160 octets decoded": row("decode 1 1"),
    "enter and leave of a desk of 4096 slots": row("enter 4096 1"),
}
# The floor of a row, by its members and the samples of a tick.
FLOORS = {
    "tick of 16 members": "C 16 160",
    "tick of 64 members": "C 64 160",
    "tick of 64 members at 44100 Hz": "C 64 882",
}


def options(parser):
    add_program(parser, "x_bench")
    add_measuring(parser, 7)
    how = parser.add_mutually_exclusive_group()
    how.add_argument("--seconds", type=float, default=0.5, help="how long a run takes at least (%(default)s)")
    how.add_argument("--instructions", action="store_true", help="count instructions by callgrind, one run each")


def command(programs, case, times):
    """The command that does a case so often."""
    name, *sizes = case.split()
    program, floor = programs
    return [floor, str(times), *sizes] if name == "C" else [program, name, str(times), *sizes]


def timed(words):
    """The processor time of one run, in nanoseconds."""
    return processor_time(words) * 1e9


def counted(words):
    """The instructions of one run."""
    return instructions(words, subprocess.DEVNULL)


def enough(measure, programs, case, least):
    """How often the case is done where it costs so much: a power of two."""
    base, times = measure(command(programs, case, 0)), 1
    while measure(command(programs, case, times)) - base < least:
        times *= 2
    return times


def costs(measure, programs, cases, runs, least):
    """The cost of each case."""
    counts = {case: enough(measure, programs, case, least) for case in cases}
    best = {}
    for _ in range(runs):
        for case in cases:
            for times in (counts[case], 2 * counts[case]):
                cost = measure(command(programs, case, times))
                best[case, times] = min(cost, best.get((case, times), cost))
    return {case: (best[case, 2 * count] - best[case, count]) / count for case, count in counts.items()}


def run(args):
    measure, unit, runs, least = (
        (counted, "instructions", 1, ENOUGH) if args.instructions else (timed, "ns", args.runs, args.seconds * 1e9)
    )
    rows = {name: made for name, made in ROWS.items() if args.only in name or name == YARDSTICK}
    floors = {name: case for name, case in FLOORS.items() if name in rows}
    cases = list(dict.fromkeys([case for made, _ in rows.values() for case in made] + list(floors.values())))
    with tempfile.TemporaryDirectory() as folder:
        programs = release_program(args.binary, "x_bench"), compiled(HERE / "tick.c", folder)
        each = costs(measure, programs, cases, runs, least)
    yardstick = None
    for name, (made, units) in rows.items():
        cost = sum(often * each[case] for case, often in made.items()) / units
        yardstick = yardstick or cost
        beside = f", {cost / each[floors[name]]:.2f} of C's {each[floors[name]]:,.0f}" if name in floors else ""
        print(f"{name}: {cost:,.1f} {unit}, {cost / yardstick:.2f} of the copy{beside}", flush=True)
    return 0
