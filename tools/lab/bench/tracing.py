"""Counts what a trace costs media, in instructions.

A bridge runs under callgrind, with the call of `bench asking`: once without a trace, and once with one that this tool
reads. Media are all threads but the operator's and the one that writes the trace. The difference is that of handing
items on. What the trace's own thread takes is told as well.
"""

from checks.traces import Reader
from lab.bench.asking import add_call, measured
from operators.shared import add_program, fail, release_program

NEEDS = "the program, valgrind, two minutes"

# What no other thread calls: it tells the thread that writes the trace.
OWN = "trace_scripts::speaking::"


def options(parser):
    add_call(parser)
    add_program(parser)


def is_tracer(thread):
    return any(name.startswith(OWN) for name in thread[1])


def run(args):
    program, reader = release_program(args.binary), Reader()
    alone, _ = measured(program, args, 0)
    traced, _ = measured(program, args, 0, f'trace = "127.0.0.1:{reader.port}"\n')
    tracer = [one for one in traced if is_tracer(one) and one is not traced[0]]
    if len(tracer) != 1:
        fail(f"{len(tracer)} threads write a trace")
    lines = reader.lines()
    if not lines or lines[-1] == "lost":
        fail("the trace is lost")
    before = sum(one[0] for one in alone[:-1])
    media = sum(one[0] for one in traced[:-1]) - tracer[0][0]
    print(
        f"media: {before / args.seconds:,.0f} instructions a second; with a trace of {len(lines):,} lines"
        f" {media / before - 1:+.2%}; its own thread takes {tracer[0][0] / before:.2f} times as many as media"
    )
    return 0
