"""Measures what an operator's call takes in a bridge on sockets, beside the same call in a script on one thread.

One operator of `serve` makes many calls of one row, and as many calls that are refused. `replay` reads the same calls
as a script. What an accepted call takes more than a refused one is what the change itself takes: reading, judging and
answering are in both. The ratio is that of `serve` to `replay`. It is measured at a desk of two members, and at a full
one: a room with 1,024 members, 2,048 sources, 4,096 slots and subscriptions, and 65,536 gains.

The cost is the processor time of the program, of which the least of N runs counts; or, with --instructions, what
callgrind counts in one run. Of `serve` it is the cost of the thread that has the operator's connection. What all others
take in the same time is told beside it: above all the front, which each accepted call wakes.
"""

import pathlib
import re
import socket
import subprocess
import tempfile
import threading
import time

from checks.filling import add_member, full_desk, in_groups
from operators.serving import settings, started
from operators.shared import add_measuring, add_program, fail, release_program

NEEDS = "the program, a minute; valgrind to count instructions"

# So many seconds a program may take to begin under callgrind.
PATIENCE = 60


def options(parser):
    add_program(parser)
    add_measuring(parser, 5)
    parser.add_argument(
        "--calls", type=int, default=2000, help="how many calls a run makes, an even number from 1000 on (%(default)s)"
    )
    parser.add_argument("--instructions", action="store_true", help="count instructions by callgrind, in one run")


# What is called


def small_desk():
    """Two members with a source and two gains each."""
    yield "add-room 1"
    yield from (add_member(m) for m in range(2))
    yield from (f"add-source {200000 + s} {s} audio" for s in range(2))
    yield from (f"set-gain {m} {200000 + s} 100" for m in range(2) for s in range(2))


# A desk: its name, its lines, its members, its sources and how many of them are audio.
DESKS = [("2 members", small_desk, 2, 2, 2), ("a full desk", lambda: full_desk(64), 1024, 2048, 64)]


def kinds(members, sources, audio):
    """Kinds of calls: a name, the line of each call that is accepted, by its number, and of each that is refused."""
    yield (
        "mute, unmute in turn",
        lambda i: f"{'unmute' if i % 2 else 'mute'} {200000 + i // 2 % (sources - 1)}",
        lambda i: f"mute {200000 + sources - 1}",
    )
    yield (
        "set-gain over another",
        lambda i: f"set-gain {i % members} 200000 {1 + i // members % 2}",
        lambda i: f"set-gain {i % members} {200000 + audio - 1} 100",
    )


# What is measured


class Meter:
    """A program that is given lines, by `begin`, `give` and `told` of a subclass, and what they cost it."""

    def __init__(self, program, counts):
        self.folder, self.counts, self.dumps = tempfile.TemporaryDirectory(), counts, 0
        out, log = f"{self.folder.name}/out", f"{self.folder.name}/log"
        words = [
            "--tool=callgrind",
            "--instr-atstart=no",
            "--separate-threads=yes",
            f"--callgrind-out-file={out}",
            f"--log-file={log}",
        ]
        self.run = self.begin(program, ["valgrind", *words] if counts else [])

    def control(self, *words):
        """Has callgrind do this. One that has just begun isn't found, which callgrind_control tells in words alone."""
        tool, until = ["callgrind_control", *words, str(self.run.pid)], time.monotonic() + PATIENCE
        while "OK." not in (said := subprocess.run(tool, check=True, capture_output=True, text=True).stdout):
            if self.run.poll() is not None or time.monotonic() > until:
                fail(f"`{' '.join(tool)}` did nothing: {said.strip()}")
            time.sleep(0.1)

    def answers(self, lines):
        """The answers to lines, one each."""
        giving = threading.Thread(target=self.give, args=("".join(f"{line}\n" for line in lines).encode(),))
        giving.start()
        answers = [self.told().decode() for _ in lines]
        giving.join()
        return answers

    def spent(self):
        """What each thread has cost so far: processor time in nanoseconds, or instructions since it was asked last."""
        if not self.counts:
            tasks = pathlib.Path(f"/proc/{self.run.pid}/task").iterdir()
            return {task.name: int((task / "schedstat").read_text().split()[0]) for task in tasks}
        self.control("-d")
        self.dumps += 1
        found = {}
        for path in pathlib.Path(self.folder.name).glob(f"out.{self.dumps}*"):
            total = re.search(r"^(?:totals|summary): (\d+)", path.read_text(), re.M)
            found[path.suffix] = int(total[1]) if total else 0
        return found or fail(f"callgrind wrote no dump of number {self.dumps}")

    def cost(self, lines, word):
        """What a line costs the thread that it costs most, and all others. Each answer has to begin with this word."""
        if self.counts:
            self.control("-i", "on")
        before = self.spent()
        for line, answer in zip(lines, self.answers(lines)):
            if not answer.startswith(word + " "):
                fail(f"`{line}` is answered `{answer.strip()}`")
        after = self.spent()
        if self.counts:
            self.control("-i", "off")
            before = {}
        costs = sorted(cost - before.get(thread, 0) for thread, cost in after.items())
        return costs[-1] / len(lines), sum(costs[:-1]) / len(lines)


class Replay(Meter):
    """A script on one thread."""

    def begin(self, program, under):
        return subprocess.Popen(
            [*under, program, "replay"], stdin=subprocess.PIPE, stdout=subprocess.PIPE, stderr=subprocess.DEVNULL
        )

    def give(self, text):
        self.run.stdin.write(re.sub(rb"^", b"desk 0 ", text[:-1], flags=re.M) + b"\n")
        self.run.stdin.flush()

    def told(self):
        return self.run.stdout.readline()

    def end(self):
        self.run.communicate()


class Serve(Meter):
    """A bridge on sockets, with one operator."""

    def begin(self, program, under):
        run, _, port = started(program, settings(self.folder.name), under)
        self.connection = socket.create_connection(("127.0.0.1", port))
        self.stream = self.connection.makefile("rb")
        return run

    def give(self, text):
        self.connection.sendall(text)

    def told(self):
        return self.stream.readline()

    def end(self):
        self.give(b"stop\n")
        if self.run.wait(60):
            fail(f"the bridge ended with status {self.run.returncode}")


def measured(meter, kind, args, runs):
    """What a call of a kind costs: accepted, and refused, each by the thread that carries it out and by all others."""
    _, accepted, refused = kind
    best = [(float("inf"), 0.0)] * 2
    for run in range(runs):
        numbers = range(run * args.calls, (run + 1) * args.calls)
        for at, (make, word) in enumerate([(accepted, "ok"), (refused, "no")]):
            best[at] = min(best[at], meter.cost([make(i) for i in numbers], word))
    return best


def told_row(name, kind, costs):
    """Prints a row of the table."""
    (script, _), (script_refused, _) = costs[0]
    (own, others), (own_refused, _) = costs[1]
    change, floor = own - own_refused, script - script_refused
    cells = [
        f"{kind}, {name}",
        f"{script:,.0f}",
        f"{script_refused:,.0f}",
        f"{own:,.0f}",
        f"{own_refused:,.0f}",
        f"{others:,.0f}",
    ]
    print(f"| {' | '.join(cells)} | {change / floor:.2f} |", flush=True)


def run(args):
    if args.calls < 1000 or args.calls % 2:
        fail("--calls is an even number from 1000 on: of fewer, the front's own rounds cost more than the calls")
    program, unit = release_program(args.binary), "instructions" if args.instructions else "ns"
    print(
        f"| Call, {unit} | replay | refused | serve | refused | others | Ratio of what the change takes "
        "|\n|---|---|---|---|---|---|---|"
    )
    for name, lines, members, sources, audio in DESKS:
        asked = [kind for kind in kinds(members, sources, audio) if args.only in f"{kind[0]}, {name}"]
        meters = [kind(program, args.instructions) for kind in (Replay, Serve)] if asked else []
        for meter in meters:
            first = in_groups(list(lines())) + [f"mute {200000 + sources - 1}"]
            if not all(answer.startswith("ok ") for answer in meter.answers(first)):
                fail(f"{name}: a call that fills the desk is refused")
        for kind in asked:
            costs = [measured(meter, kind, args, 1 if args.instructions else args.runs) for meter in meters]
            told_row(name, kind[0], costs)
        for meter in meters:
            meter.end()
    return 0
