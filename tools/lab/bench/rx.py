"""Times an accepted video packet.

A packet has 1,200 octets. A script makes a desk of one room, and its sources send in turn, by `rx` lines: a packet
each, or 16 in a row, as the packets of a frame come. The script is written to the program part by part. When the
program has answered a part and waits for the next one, its processor time is read, and divided by the packets of that
part. The least of all parts and runs counts. Packets from an address without a member are timed too, and their time is
taken off: such a line is parsed and answered, and nothing is taken in.

Frames have 250 packets, or 16, and the last one closes its frame. Or they go on, so that each packet stays in memory
that the system has to give first. Or they go on in memory that closed frames gave back: this is what a packet that
closes no frame takes in a bridge that runs.

With --instructions it counts the instructions of a script with 5,000 packets more than another, in place of time. Runs
agree then, but an octet that is cleared counts as one, and waiting for memory as nothing.

The program starts as ./confbridge starts it, with large pages, unless GLIBC_TUNABLES is set, even to nothing.
"""

import os
import pathlib
import subprocess
import tempfile
import time

from operators.shared import add_measuring, add_program, fail, instructions, release_program

NEEDS = "the program, minutes; valgrind to count instructions"

ENDLESS = 1 << 20
# A frame of so many packets, and as many of the next one, which goes on.
AGAIN = 56
CASES = ((2, 1, 250), (2, 1, 16), (2048, 1, AGAIN), (2048, 16, 16), (2048, 1, 16), (2048, 1, ENDLESS))
PAYLOAD = "5a" * 1200
PART = 2048


def name(sources, row, frame):
    """The name of a case."""
    frames = {
        ENDLESS: "frames that go on",
        AGAIN: "frames that go on in memory that was given back",
    }.get(frame, f"frames of {frame}")
    return f"{sources} sources, {row} in a row, {frames}"


def address(member):
    return f"10.0.{member >> 8}.{member & 255}"


def desk(sources):
    """The lines that make the desk."""
    members = (sources + 1) // 2
    yield "desk 0 add-room 1\n"
    for m in range(members):
        yield f"desk 0 add-member {m} 1 {address(m)}:5000 pcmu {100000 + m} 0 0\n"
    for s in range(sources):
        yield f"desk 0 add-source {200000 + s} {s % members} video\n"


def packets(sources, row, frame, first, behind, is_known):
    """The lines of each source's packets from one number to before another, so many of them in a row."""
    members = (sources + 1) // 2
    port = 5000 if is_known else 5001
    # The last source's frames go on where others close, so that the program keeps the memory that is given back.
    closing = sources - 1 if frame == AGAIN else sources
    for start in range(first, behind, row):
        for s in range(sources):
            for i in range(start, start + row):
                # What comes before the first marker is no frame, and isn't kept.
                marker = "e4" if i % frame == 1 and s < closing else "64"
                head = f"80{marker}{i & 65535:04x}{(i + frame - 2) // frame * 3000:08x}"
                yield f"rx {i} {address(s % members)}:{port} {head}{200000 + s:08x}{PAYLOAD}\n"


def options(parser):
    add_program(parser)
    add_measuring(parser, 3)
    parser.add_argument("--instructions", action="store_true", help="count instructions by callgrind, one run each")


def waits(process):
    """The processor time that a process has taken when it waits for more, in microseconds."""
    before = None
    while True:
        if process.poll() is not None:
            fail(f"the program ended with status {process.returncode}")
        state = pathlib.Path(f"/proc/{process.pid}/stat").read_text().rpartition(")")[2].split()[0]
        now = int(pathlib.Path(f"/proc/{process.pid}/schedstat").read_text().split()[0])
        if state == "S" and now == before:
            return now / 1e3
        before = now
        time.sleep(0.002)


def parts(sources, row, frame):
    """The numbers of the packets with which the first part begins and the last one ends, and how many a part has of
    each source.

    A gate gives up at 256 packets, so few of a frame that goes on are timed. A part of short frames has whole ones."""
    if frame == ENDLESS:
        return 8, 120, max(1, row)
    if frame == AGAIN:
        return AGAIN + 2, 2 * AGAIN - 6, max(1, row)
    whole = max(frame, PART // sources)
    step = max(whole, row)
    return whole, whole + 12 * step, step


def timed(program, case, is_known):
    """The least time of a packet over the parts of one run, in microseconds."""
    sources, row, frame = case
    begin, end, step = parts(*case)
    where = {"GLIBC_TUNABLES": "glibc.malloc.hugetlb=1", **os.environ}
    least = float("inf")
    with subprocess.Popen([program, "replay"], stdin=subprocess.PIPE, stdout=subprocess.DEVNULL, env=where) as run:

        def spent(lines):
            run.stdin.write("".join(lines).encode())
            run.stdin.flush()
            return waits(run)

        before = spent([*desk(sources), *packets(sources, row, frame, 0, begin, is_known)])
        for first in range(begin, end, step):
            after = spent(packets(sources, row, frame, first, first + step, is_known))
            least = min(least, (after - before) / (step * sources))
            before = after
        run.stdin.close()
        if run.wait():
            fail(f"the program ended with status {run.returncode}")
    return least


def counted(program, case, is_known):
    """The instructions of a packet."""
    sources, row, frame = case
    fewer = max(frame + 2 if frame == AGAIN else 0, 2 * row)
    more = fewer + max(5000 // sources, row)
    found = []
    for end in (fewer, more):
        with tempfile.TemporaryFile("w+", encoding="ascii") as script:
            script.writelines(desk(sources))
            script.writelines(packets(sources, row, frame, 0, end, is_known))
            script.seek(0)
            found.append(instructions([program, "replay"], script))
    return (found[1] - found[0]) / ((more - fewer) * sources)


def run(args):
    program = release_program(args.binary)
    measure, unit, runs = (counted, "instructions", 1) if args.instructions else (timed, "us", args.runs)
    for case in CASES:
        if args.only not in name(*case):
            continue
        found = [(measure(program, case, True), measure(program, case, False)) for _ in range(runs)]
        known, unknown = (min(costs) for costs in zip(*found))
        print(
            f"{name(*case)}: {known - unknown:.2f} {unit} a packet over the parsing of its line "
            f"({known:.2f} {unit} an accepted one, {unknown:.2f} one from elsewhere)",
            flush=True,
        )
    return 0
