"""Has operators call at once while media flows, replays the list of their calls, and stops a bridge in mid-work.

Two, four and sixteen operators make random calls, undos, redos and reverts among them. Behind it the accepted calls
have the numbers from 1 to the desk's version, each once. The bridge says how many calls of each operator it accepted,
and these are the calls that it told that operator. The list is then replayed in the order of its numbers, each call by
its operator: each line is accepted with the same number, and the rows are those that `show` showed. Meanwhile two
members send audio, and each hears packets without a gap.

Last, one of sixteen operators stops a bridge with a full desk. Another leaves `show` unread, one has sent half a line,
and the others go on calling. The bridge has to end with status 0 within four seconds of the line `stop`: what waits to
be written is given a second. It says how many calls of each operator it accepted: all that were told to that operator,
and at most the one whose answer was lost.

`tools/bridge calls --follow` tells each call of two bridges, one after another at one port, also what is accepted
before it has found the next one.
"""

import contextlib
import random
import re
import select
import socket
import subprocess
import sys
import tempfile
import threading
import time

from checks.bridges import operator_at, together
from checks.filling import fill, full_desk
from checks.pair import Pair
from operators.serving import free_port, said_at_the_end, settings, started
from operators.shared import ROOT, add_program, fail, release_program

NEEDS = "the program, half a minute"

SEATS = 16
# How many seconds a bridge may take to end. Answers that nobody reads are given up after one; a busy machine has the
# others. They are fewer than the five of a connection that is left by `quit`.
ALLOWED = 4
# How many seconds an answer may take.
PATIENCE = 60
# How many of an operator's last calls it may revert.
REVERTED = 20
# A line of `tools/bridge calls --follow`.
FOLLOWED = re.compile(r"[0-9-]{10}T[0-9:.]{12} call ([0-9]+) seat [0-9]+ (.+)\n", re.ASCII)
# A call that is refused: it gives a connection its seat, and changes nothing.
REFUSED = "remove-room 4294967295"


def options(parser):
    parser.add_argument("--calls", type=int, default=2000, help="how many calls each operator makes (%(default)s)")
    parser.add_argument("--lanes", type=int, default=4, help="how many lanes the bridge has (%(default)s)")
    parser.add_argument("--seed", type=int, default=1, help="of the random calls (%(default)s)")
    add_program(parser)


def call_of(one, last, made):
    """A random call of an operator who was told this version last, and has made these calls."""
    room, member, source, slot = one.randint(1, 6), one.randint(1, 12), one.randint(100, 115), one.randint(500, 507)
    kinds = [
        f"add-room {room}",
        f"remove-room {room}",
        f"add-member {member} {room} 10.0.0.{member}:5000 pcmu {9000 + member} 0 0",
        f"move-member {member} {room}",
        f"remove-member {member}",
        f"add-source {source} {member} {one.choice(['audio', 'video'])}",
        f"add-slot {slot} {member} {one.randint(0, 3)} 0 0",
        f"subscribe {slot} {source}",
        f"mute {source}",
        f"unmute {source}",
        f"group mute {source} / mute {one.randint(100, 115)}",
        f"undo {last}",
        f"undo {last}",
        f"redo {last}",
        f"revert {one.choice(made[-REVERTED:])}" if made else f"redo {last}",
    ]
    return one.choice(kinds)


def seated(port):
    """An operator who has the lowest free seat."""
    operator = operator_at(port, PATIENCE)
    told = operator.ask(REFUSED)
    if not told.startswith("no "):
        fail(f"`{REFUSED}` is answered `{told}`")
    return operator


class Caller(threading.Thread):
    """An operator who makes random calls, and notes the accepted ones by their numbers."""

    def __init__(self, port, seed, calls):
        super().__init__()
        self.operator = seated(port)
        self.random = random.Random(seed)
        self.calls = calls
        # The accepted calls, those made at random by their numbers, and how many there are, undos taken off.
        self.accepted, self.made, self.done = {}, [], 0
        self.odd = []

    def next_call(self, last):
        """A random call that takes back no more than this operator did, so that what was there at the beginning
        stays."""
        return next(
            call
            for call in iter(lambda: call_of(self.random, last, self.made), None)
            if self.done > 0 or not call.startswith("undo ")
        )

    def run(self):
        last = 0
        for _ in range(self.calls):
            call = self.next_call(last)
            told = self.operator.ask(call).split()
            if len(told) > 1 and told[0] in ("ok", "no"):
                last = int(told[1])
            if told[:1] == ["ok"]:
                self.accepted[last] = call
                self.made.append(last)
                self.done += -1 if call.startswith("undo ") else 1
            elif told[:1] != ["no"]:
                self.odd.append((call, told))


def replayed(program, calls):
    """What the program answers to calls, each with its operator, and then to `show`."""
    script = [f"desk {op} {call}" for op, call in calls] + ["show"]
    text = "".join(f"{line}\n" for line in script)
    run = subprocess.run([program, "replay"], input=text, capture_output=True, text=True, check=True)
    return run.stdout.splitlines()


def begun(bridge, pair, args, count):
    """So many operators of a bridge, the first of whom has put the pair into a room, and the pair, which talks."""
    _, udp, tcp = bridge
    callers = [Caller(tcp, args.seed * 100 + at, args.calls) for at in range(count)]
    for line in pair.lines():
        told = callers[0].operator.ask(line).split()
        if told[0] != "ok":
            fail(f"{line}: {told}")
        callers[0].accepted[int(told[1])] = line
    pair.begin(udp)
    time.sleep(0.3)
    return callers


def check(program, count, args):
    """Has so many operators call, and replays their list."""
    pair = Pair()
    with tempfile.TemporaryDirectory() as folder:
        bridge = started(program, settings(folder, operators=count, lanes=args.lanes))
        callers = begun(bridge, pair, args, count)
        begin = time.monotonic()
        together(callers)
        took = time.monotonic() - begin
        pair.wait_until_heard()
        rows, version = callers[0].operator.show()
        heard = pair.end()
        callers[0].operator.tell("stop")
        calls, dropped = said_at_the_end(bridge[0].stderr.read())
        if bridge[0].wait(PATIENCE):
            fail(f"the bridge ended with status {bridge[0].returncode}")
    if not heard or dropped:
        fail(f"a member heard a gap, or items of lanes were dropped: {dropped}")
    compare(program, callers, calls, rows, version)
    share = f"{version} of {count * args.calls} calls accepted in {took:.1f} s"
    sound = f"of {pair.sent} packets the members heard {heard[0]} and {heard[1]}"
    print(f"{count} operators: {share}; the list leads to the same {len(rows)} rows; {sound}", flush=True)


def compare(program, callers, calls, rows, version):
    """Compares the accepted calls with what the bridge counted, and replays them."""
    odd = [it for caller in callers for it in caller.odd]
    if odd:
        fail(f"an operator was told {odd[0]}")
    accepted = {number: (op, call) for op, caller in enumerate(callers) for number, call in caller.accepted.items()}
    if sorted(accepted) != list(range(1, version + 1)) or sum(len(caller.accepted) for caller in callers) != version:
        fail(f"{len(callers)} operators: the accepted calls don't have the numbers from 1 to {version}, each once")
    if calls != {op: len(caller.accepted) for op, caller in enumerate(callers)}:
        fail(f"the bridge accepted {calls} calls of its operators")
    answers = replayed(program, [accepted[number] for number in range(1, version + 1)])
    if answers[:version] != [f"ok {number}" for number in range(1, version + 1)]:
        fail("not each call of the list is accepted with its number where it is replayed")
    if answers[version:] != [*rows, f"end {version}"]:
        fail("the list leads to other rows where it is replayed")


# Stopping


class Turning(threading.Thread):
    """An operator who adds a room and removes it until the connection ends, and how many of these calls were
    accepted."""

    def __init__(self, port, room):
        super().__init__(daemon=True)
        self.operator = seated(port)
        self.calls, self.accepted = [f"add-room {room}", f"remove-room {room}"], 0

    def run(self):
        try:
            while self.operator.ask(self.calls[self.accepted % 2]).startswith("ok "):
                self.accepted += 1
        except OSError:
            pass


def reluctant(port):
    """A connection with a seat that takes next to nothing until it is read."""
    one = socket.socket()
    one.settimeout(PATIENCE)
    one.setsockopt(socket.SOL_SOCKET, socket.SO_RCVBUF, 4096)
    one.connect(("127.0.0.1", port))
    one.sendall(f"{REFUSED}\n".encode())
    if not one.recv(4096).startswith(b"no "):
        fail(f"`{REFUSED}` is not refused")
    return one


def is_open(connection):
    """Whether the bridge has left a connection open."""
    poll = select.poll()
    poll.register(connection, select.POLLRDHUP)
    return not poll.poll(0)


def stop(bridge, stopping, unread):
    """Asks for the rows once more, and stops the bridge. How long it takes to end, and what it says."""
    ended = threading.Timer(20, bridge.kill)
    ended.start()
    unread.sendall(b"show\n")
    begin = time.monotonic()
    stopping.tell("stop")
    status = bridge.wait()
    took = time.monotonic() - begin
    ended.cancel()
    if status:
        fail(f"the bridge ended with status {status}, {took:.1f} s after `stop`")
    return took, *said_at_the_end(bridge.stderr.read())


def check_stop(program, args):
    """Has one operator stop the bridge while all others are at work."""
    with tempfile.TemporaryDirectory() as folder, contextlib.ExitStack() as stack:
        bridge, _, tcp = started(program, settings(folder, operators=SEATS, lanes=args.lanes))
        first = seated(tcp)
        filled = fill(first, full_desk(64))
        unread, half = (stack.enter_context(reluctant(tcp)) for _ in range(2))
        callers = [Turning(tcp, 2 + at) for at in range(SEATS - 3)]
        for caller in callers:
            caller.start()
        unread.sendall(b"show\n")
        half.sendall(b"add-room 6")
        time.sleep(1)
        if not is_open(unread) or not is_open(half) or not all(caller.is_alive() for caller in callers):
            fail("the bridge closed a connection before `stop`")
        took, calls, _ = stop(bridge, first, unread)
        for caller in callers:
            caller.join()
    # The answer of an operator's last call may be lost.
    least = [filled, 0, 0, *(caller.accepted for caller in callers)]
    most = [filled, 0, 0, *(caller.accepted + 1 for caller in callers)]
    if sorted(calls) != list(range(SEATS)) or not all(least[op] <= calls[op] <= most[op] for op in calls):
        fail(f"the bridge says that it accepted {calls} calls of its operators, who were told of {least}")
    others = f"{len(callers)} operators with {sum(caller.accepted for caller in callers)} calls"
    print(f"stop, beside `show` unread, half a line, and {others}: status 0 after {took * 1e3:.0f} ms", flush=True)
    return took <= ALLOWED


# Following


def check_followed(program):
    """Has `tools/bridge calls --follow` follow two bridges, one after another at one port."""
    port, told = free_port(socket.SOCK_STREAM), 0
    words = [sys.executable, "-B", ROOT / "tools/bridge", "calls", "--follow", str(port)]
    with tempfile.TemporaryDirectory() as folder, contextlib.ExitStack() as stack:
        how = {"stdout": subprocess.PIPE, "stderr": subprocess.PIPE, "text": True}
        follower = stack.enter_context(subprocess.Popen(words, **how))
        stack.callback(follower.kill)
        # It follows from when it says that no bridge is there.
        follower.stderr.readline()
        # What isn't told in time isn't told at all.
        limit = threading.Timer(4 * PATIENCE, follower.kill)
        limit.start()
        stack.callback(limit.cancel)
        for name in "ann", "bob":
            bridge, _, _ = started(program, settings(folder, tcp=port, operators=3))
            first = seated(port)
            for line in f"as {name}", "add-room 1", "undo 1":
                first.ask(line)
            wanted = [("1", f"{name}: add-room 1 8000"), ("2", f"{name}: undo 1")]
            lines = few_calls(follower.stdout, len(wanted))
            got = [found.groups() for found in map(FOLLOWED.fullmatch, lines) if found]
            if got != wanted:
                fail(f"of the calls of {name} it is told {got}, not {wanted}")
            told += len(got)
            first.tell("stop")
            bridge.wait(PATIENCE)
    print(f"followed over the end of a bridge: {told} calls, each once")


def few_calls(lines, count):
    """The next so many lines of calls, or fewer where no more come."""
    found = []
    while len(found) < count and (line := lines.readline()):
        found += [] if line.startswith("following ") else [line]
    return found


def run(args):
    program = release_program(args.binary)
    check_followed(program)
    for count in 2, 4, 16:
        check(program, count, args)
    return 0 if check_stop(program, args) else 1
