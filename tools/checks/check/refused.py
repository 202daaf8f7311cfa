"""Refuses each request for memory in turn, on a bridge that runs.

A library in C stands before `malloc` and its kin. It counts the requests of one thread of the bridge, and refuses one
of them.

Calls: two operators share a desk. For each line of a list, request 1, 2, .. of one operator's thread is refused, until
the line makes no more. The line is then refused by `13 OutOfMemory`, with the number of the last accepted call, and
`show` shows the rows from before. Or that connection alone is closed. Its call may have been accepted: `show` shows the
rows from before or from after it. In the end the line is answered, and the rows are those of a plain desk in Python. A
connection is tried in the same way, by requests of the front.

Media: for each step of a list a bridge is started anew, and request 1, 2, .. of its front or of a lane is refused. The
bridge ends with status 2 and `confbridge: out of memory`. Until then it sends packets of the step and no others. In the
end all of them come.

Starts: request 1, 2, .. of all threads of a starting bridge is refused. It ends with status 2, or with 3 where a thread
can't be started.
Ends: request 1, 2, .. of the front is refused behind `stop`. The bridge ends with status 2.

Fault, alone: while an operator is connected, request 1, 2, .. of a lane for a frame is refused, until one ends the
bridge.

Memory that an attempt took and kept is asked for no more. The requests for that line are then refused from the first
one on again.
"""

import collections
import copy
import re
import subprocess
import tempfile
import time
from concurrent.futures import ThreadPoolExecutor

from checks.bridges import check, operator_at, until
from checks.refusing import ANY, PATIENCE, Heap, is_asleep, is_started, library, own_threads, threads
from checks.steps import STEPS, Call
from operators.models.desk import Log
from operators.serving import LISTENS, said_at_the_end, settings, started
from operators.shared import add_program, fail, release_program

NEEDS = "the program, `cc`, two minutes"

# The step whose frame begins a stream in the last lane.
FRAME = next(iter(STEPS))

OUT_OF_MEMORY, NO_THREAD = "confbridge: out of memory\n", "confbridge: no thread could be started\n"
# The line before says what failed, and why.
CAUSE = re.compile(
    r"confbridge: (.*[.]toml|start|front|end|poll|lane [0-9]+): (out of memory.*|no thread could be started)\n"
)


def options(parser):
    parser.add_argument("--lanes", type=int, default=2, help="how many lanes a bridge has (%(default)s)")
    parser.add_argument(
        "--jobs", type=int, default=4, help="how many bridges run side by side, but for calls (%(default)s)"
    )
    names = [*PARTS, *ALONE]
    parser.add_argument(
        "--only",
        choices=names,
        metavar="PART",
        help=f"{', '.join(names)}: this one alone; the first four if none is given",
    )
    add_program(parser)


class Bridges:
    """How bridges are started."""

    def __init__(self, args, folder):
        self.program, self.lanes, self.jobs, self.folder = release_program(args.binary), args.lanes, args.jobs, folder
        self.library, self.path = library(folder), settings(folder, lanes=args.lanes)

    def heap(self):
        return Heap(self.folder, self.library)

    def last(self, tried):
        """Tries 1, 2, .., some side by side, until one gives None. What those before it gave."""
        found = []
        with ThreadPoolExecutor(self.jobs) as pool:
            while True:
                for got in pool.map(tried, range(len(found) + 1, len(found) + 1 + self.jobs)):
                    if got is None:
                        return found
                    found.append(got)


def stopped(bridge, operator):
    """Stops a bridge. The calls of its operators that it says were accepted."""
    operator.tell("stop")
    calls, _ = said_at_the_end(bridge.stderr.read())
    check(bridge.wait(PATIENCE) == 0, f"after `stop` the bridge ends with status {bridge.returncode}")
    return calls


def status_of(bridge, wanted, what):
    """The status of a bridge that ends by itself: one of those that are wanted, each with what it then says."""
    try:
        status, said = bridge.wait(PATIENCE), LISTENS.sub("", bridge.stderr.read())
    except subprocess.TimeoutExpired:
        fail(f"{what} is refused, and the bridge doesn't end")
    *before, last = said.splitlines(keepends=True) or [""]
    check(wanted.get(status) == last, f"{what} is refused: the bridge ends with status {status} and says {said!r}")
    says_why = any(CAUSE.fullmatch(line) for line in before)
    check(says_why, f"{what} is refused: the bridge doesn't say why it ends: {said!r}")
    return status


# Calls


# Each request for a line behind `! ` is refused in turn. An `undo` and a `redo` get the number of the last accepted
# call, and a `revert` that of the first call with its words.
LINES = """
! add-room 1
add-room 2
! add-member 10 1 127.0.0.1:6000 pcmu 9001 0 0
add-member 11 1 127.0.0.1:6002 pcmu 9002 0 0
! add-source 101 10 video
add-source 102 11 video
add-source 201 10 audio
add-source 202 11 audio
! add-slot 501 11 0 65535 1000
add-slot 502 10 0 0 0
! subscribe 501 101
subscribe 502 102
! set-gain 11 201 128
set-gain 10 202 64
! mute 201
! pin 1 101
! give-floor 1 10
! move-member 10 2
undo
! remove-member 10
! undo
! redo
undo
! remove-room 1
! undo
! group unmute 201 / set-gain 11 201 256 / unpin 1
! undo
! revert mute 201
! add-room 3 44100
! add-member 12 3 127.0.0.1:6004 l16 9003 0 0
! show
""".strip().splitlines()


def told(operator, line):
    """What a line is answered; nothing where the connection is closed."""
    try:
        return "\n".join(operator.shown()) if line == "show" else operator.ask(line)
    except (BrokenPipeError, ConnectionResetError):
        return ""


def rows_of(log):
    return log.desk.shown(log.version)


def after(log, line):
    """A plain desk after a line, and what it answers."""
    later = copy.copy(log)
    later.done, later.undone = list(log.done), list(log.undone)
    return later, "\n".join(rows_of(log)) if line == "show" else later.call(line.split())


class Desk:
    """A desk that two operators share, and a plain desk that makes the same calls."""

    def __init__(self, bridge, port, heap, front):
        self.bridge, self.port, self.heap, self.front = bridge, port, heap, front
        self.log = Log()
        self.watcher, _ = self.seated()

    def connected(self):
        return operator_at(self.port, PATIENCE)

    def seated(self):
        """An operator, and the thread of the bridge that answers it."""
        before = threads(self.bridge)
        operator = self.connected()
        # A connection has a thread from its first good line on.
        operator.ask("history 0")
        until(lambda: threads(self.bridge) - before, "an operator gets no thread")
        (thread,) = threads(self.bridge) - before
        until(lambda: is_asleep(self.bridge, thread), "an operator's thread doesn't wait for a line")
        return operator, thread

    def left(self, operator, answer):
        """An operator leaves, if the bridge hasn't closed the connection. Then the seat is free."""
        if answer:
            operator.tell("quit")
            check(not operator.lines.read(), "`quit` is answered")
        operator.lines.close()

    def whole(self, line):
        """A line, with the number of the call that it takes back or does again."""
        word, _, words = line.partition(" ")
        if word == "revert":
            return f"revert {next(number for (number, _, made), _ in self.log.done if ' '.join(made) == words)}"
        return f"{line} {self.log.version}" if line in ("undo", "redo") else line

    def call(self, line):
        """The watcher makes a call, which is accepted."""
        line = self.whole(line)
        self.log, wanted = after(self.log, line)
        answer = self.watcher.ask(line)
        check(answer == wanted, f"`{line}` is answered `{answer}`, not `{wanted}`")

    def take_back(self, line):
        if line != "show":
            self.call("redo" if line.startswith("undo") else "undo")

    def attempt(self, line, nth):
        """An operator sends a line, and a request for it is refused. What comes of it, and how many octets each request
        asked for."""
        operator, thread = self.seated()
        self.heap.refuse(thread, nth)
        answer = told(operator, line)
        sizes, is_refused = self.heap.release()
        self.left(operator, answer)
        return self.judged(line, answer, is_refused, f"`{line}`, request {nth} of {sizes}"), sizes

    def judged(self, line, answer, is_refused, what):
        """What comes of a line, by its answer and the rows behind it."""
        later, wanted = after(self.log, line)
        rows, old, new = self.watcher.shown(), rows_of(self.log), rows_of(later)
        if not is_refused:
            check(answer == wanted, f"{what}: no request is refused, and the answer is `{answer}`, not `{wanted}`")
            check(rows == new, f"{what}: no request is refused, and `show` shows {rows}, not {new}")
            self.log = later
            return "accepted"
        if answer == wanted and rows == new:
            # A growth by half asks for less where it is refused.
            self.log = later
            self.take_back(line)
            return "carried out all the same"
        if answer:
            wanted = f"no {self.log.version} 13 OutOfMemory"
            check(answer == wanted, f"{what}: it is refused, and the answer is `{answer}`, not `{wanted}`")
            check(rows == old, f"{what}: it is refused, and `show` shows {rows}, not {old}")
            return "refused"
        if rows == old:
            return "closed"
        check(rows == new, f"{what}: it is refused, and `show` shows {rows}, neither {old} nor {new}")
        self.log = later
        self.take_back(line)
        return "closed behind the call"

    def refuse_each(self, line):
        """Refuses each request for a line in turn. How often each outcome came, and how many requests there are."""
        counts, nth, known = collections.Counter(), 1, []
        while counts.total() < 1000:
            whole = self.whole(line)
            outcome, sizes = self.attempt(whole, nth)
            counts[outcome] += 1
            if outcome == "accepted":
                if sizes == known:
                    return counts, len(sizes)
                self.take_back(whole)
            is_next = outcome != "accepted" and sizes[: nth - 1] == known
            nth, known = (nth + 1, sizes[:nth]) if is_next else (1, [])
        return fail(f"`{line}` makes other requests each time: {sizes}")

    def refuse_connections(self):
        """Refuses each request of the front for a connection in turn. How many there are."""
        nth = 1
        while True:
            self.heap.refuse(self.front, nth)
            operator = self.connected()
            answer = told(operator, "show")
            _, is_refused = self.heap.release()
            wanted = "" if is_refused else "\n".join(rows_of(self.log))
            check(
                answer == wanted,
                f"a connection, request {nth} of the front: refused: {is_refused}, and `show` is answered `{answer}`",
            )
            self.left(operator, answer)
            if not is_refused:
                return nth - 1
            nth += 1


def counted(counts):
    closed, behind = counts["closed"], counts["closed behind the call"]
    closing = f"{closed + behind} closed the connection, {behind} of these behind an accepted call"
    return (
        f"{counts['refused']} refused by 13, {counts['carried out all the same']} carried out all the same, {closing}"
    )


def check_calls(bridges):
    """Refuses each request for a connection and for the lines of the list, at one desk. How many were refused."""
    heap, total = bridges.heap(), collections.Counter()
    bridge, _, port = started(bridges.program, bridges.path, environment=heap.environment)
    try:
        desk = Desk(bridge, port, heap, own_threads(bridge, bridges.lanes)["front"])
        connections = desk.refuse_connections()
        print(f"a connection: {connections} requests of the front, each of which closed it", flush=True)
        for line in LINES:
            if line.startswith("! "):
                counts, requests = desk.refuse_each(line[2:])
                total += counts
                print(f"{line[2:]}: {requests} requests; {counted(counts)}", flush=True)
            else:
                desk.call(line)
        calls = stopped(bridge, desk.watcher)
        check(
            sum(calls.values()) == desk.log.version,
            f"the bridge says that it accepted {calls} calls, and not {desk.log.version} in all",
        )
    finally:
        bridge.kill()
    print(f"all lines: {counted(total)}", flush=True)
    return connections + total.total() - total["accepted"]


# Media


def do_step(call, heap, step, thread, nth, what):
    """Does a step while a request of a thread is refused. What came of the request: "ended" the bridge, "done" without
    it, or None."""
    packets, may, least = step(call)
    call.got = {it: [] for it in call.got}
    heap.refuse(thread, nth)
    for member, octets in packets:
        call.send(member, octets)
    come = []

    def is_over():
        call.take()
        if all(len(call.got[it]) >= least for it in may) and is_asleep(call.bridge, thread):
            come.append(time.monotonic())
        # It makes the requests that were refused before, if the packets that came weren't on their way already.
        return (
            call.bridge.poll() is not None or come and (heap.requests() >= nth - 1 or time.monotonic() > come[0] + 0.5)
        )

    until(is_over, f"{what}: the packets don't come, and the bridge doesn't end")
    _, is_refused = heap.release()
    call.take(0.02)
    for it, got in call.got.items():
        check(got == may.get(it, [])[: len(got)], f"{what}: member {it} gets {[one.hex() for one in got]}")
    # The front learns in its next round that a lane has ended, also where the packets came before.
    late = time.monotonic() + 0.5
    while is_refused and call.bridge.poll() is None and time.monotonic() < late:
        time.sleep(0.005)
    # A growth by half asks for less where it is refused, and the packets come.
    is_done = bool(come) and call.bridge.poll() is None
    if is_refused and not is_done:
        status_of(call.bridge, {2: OUT_OF_MEMORY}, what)
    return ("done" if is_done else "ended") if is_refused else None


def try_step(bridges, name, who, nth):
    """Does a step on a new bridge, one of whose requests is refused. Nothing where the thread made fewer."""
    heap = bridges.heap()
    call = Call(bridges.program, bridges.path, heap)
    try:
        call.begin(bridges.lanes)
        came = do_step(call, heap, STEPS[name], call.threads[who], nth, f"{name}, request {nth} of the {who}")
        if came != "ended":
            stopped(call.bridge, call.operator)
        return came
    finally:
        call.close()


def check_media(bridges):
    """Refuses each request for the steps of the list. How many were refused."""
    total = 0
    for name in STEPS:
        found = {}
        for who in ["front", *(f"lane {at}" for at in range(bridges.lanes))]:
            found[who] = collections.Counter(bridges.last(lambda nth: try_step(bridges, name, who, nth)))
        check(any(found.values()), f"{name}: no request is counted")
        told = (f"{who}: {count['ended']} ended it, {count['done']} went on" for who, count in found.items())
        print(f"{name}: {'; '.join(told)}", flush=True)
        total += sum(count.total() for count in found.values())
    return total


def try_fault(bridges, nth):
    """Sends a frame to a new bridge, and a request of a lane for it is refused. What came of it, as of a step."""
    heap, what = bridges.heap(), f"request {nth} of a lane for a frame"
    call = Call(bridges.program, bridges.path, heap)
    try:
        call.begin(bridges.lanes)
        packets, may, least = STEPS[FRAME](call)
        call.got = {it: [] for it in call.got}
        heap.refuse(call.threads[f"lane {bridges.lanes - 1}"], nth)
        for member, octets in packets:
            call.send(member, octets)
        # Where the packets come all the same, the bridge may be about to end.
        late = time.monotonic() + 1

        def is_over():
            call.take()
            has_come = all(len(call.got[it]) >= least for it in may)
            return call.bridge.poll() is not None or has_come and time.monotonic() > late

        until(is_over, f"{what}: an operator is connected, and the bridge neither sends the frame nor ends")
        if not heap.release()[1]:
            return None
        if call.bridge.poll() is None:
            return "done"
        status_of(call.bridge, {2: OUT_OF_MEMORY}, what)
        check(not call.operator.lines.readline(), f"{what}: the bridge ended, and its operator is told something")
        return "ended"
    finally:
        call.close()


def check_fault(bridges):
    """Refuses requests of a lane until one ends the bridge. How many were refused."""
    nth, came = 0, "done"
    while came == "done":
        nth += 1
        came = try_fault(bridges, nth)
    check(came == "ended", "no request of a lane for a frame ends the bridge")
    print(
        f"request {nth} of a lane for a frame: the bridge ended with status 2, beside an operator who says nothing",
        flush=True,
    )
    return nth


# Starts and ends


def came_of(bridge, heap, what, statuses, goes_on, check_it):
    """Waits until a bridge ends or goes on. The status with which it ended by a refused request, or None where none was
    refused and all is well."""
    try:
        until(lambda: bridge.poll() is not None or goes_on(), f"{what}: the bridge neither ends nor goes on")
        if heap.release()[1]:
            return status_of(bridge, statuses, what)
        check_it()
        return None
    finally:
        bridge.kill()


def try_start(bridges, nth):
    """Starts a bridge while a request is refused. The status with which it ended, or None where it made fewer."""
    heap, what = bridges.heap(), f"request {nth} of the start"
    heap.refuse(ANY, nth)
    words = [bridges.program, "serve", bridges.path]
    bridge = subprocess.Popen(words, stdin=subprocess.DEVNULL, stderr=subprocess.PIPE, text=True, env=heap.environment)

    def is_served():
        listens = LISTENS.fullmatch(bridge.stderr.readline())
        check(listens, f"{what}: none is refused, and the bridge doesn't say where it listens")
        stopped(bridge, operator_at(int(listens[2]), PATIENCE))

    return came_of(
        bridge, heap, what, {2: OUT_OF_MEMORY, 3: NO_THREAD}, lambda: is_started(bridge, bridges.lanes), is_served
    )


def check_starts(bridges):
    """Refuses each request for a start. How many were refused."""
    statuses = bridges.last(lambda nth: try_start(bridges, nth))
    print(
        f"a start: {len(statuses)} requests; {statuses.count(2)} ended it with status 2, {statuses.count(3)} with "
        "status 3",
        flush=True,
    )
    return len(statuses)


def try_end(bridges, nth):
    """Stops a bridge while a request of the front is refused. The status with which it ended, or None where it made
    fewer."""
    heap, what = bridges.heap(), f"request {nth} of the end"
    bridge, _, port = started(bridges.program, bridges.path, environment=heap.environment)
    front = own_threads(bridge, bridges.lanes)["front"]
    operator = operator_at(port, PATIENCE)
    check(operator.ask("add-room 1") == "ok 1", "`add-room 1` isn't accepted")
    heap.refuse(front, nth)
    operator.tell("stop")

    def are_counted():
        calls, _ = said_at_the_end(bridge.stderr.read())
        is_good = bridge.returncode == 0 and calls == {0: 1, 1: 0}
        check(
            is_good, f"{what}: none is refused, and the bridge ends with status {bridge.returncode} and {calls} calls"
        )

    return came_of(bridge, heap, what, {2: OUT_OF_MEMORY}, lambda: False, are_counted)


def check_ends(bridges):
    """Refuses each request for an end. How many were refused."""
    statuses = bridges.last(lambda nth: try_end(bridges, nth))
    print(f"an end: {len(statuses)} requests of the front, each of which made it end with status 2", flush=True)
    return len(statuses)


PARTS = {"calls": check_calls, "media": check_media, "starts": check_starts, "ends": check_ends}
ALONE = {"fault": check_fault}


def run(args):
    with tempfile.TemporaryDirectory() as folder:
        bridges = Bridges(args, folder)
        refused = {name: (PARTS | ALONE)[name](bridges) for name in ([args.only] if args.only else PARTS)}
    print(f"requests refused: {', '.join(f'{count} of {name}' for name, count in refused.items())}; nothing was lost")
    return 0
