"""Runs a bridge under limits on its memory, while operators fill a desk, with and without members who send.

Sixteen operators add members and gains, and 64 members send sound. Under each limit the bridge refuses calls by 13
OutOfMemory, closes a connection, or ends with status 2; it never ends by a signal. While it runs, `show` shows just the
rows that the accepted calls lead to: rooms, members in their order, sources and gains. A call whose answer never came,
since its connection was closed, may be carried out or not. Where a connection was closed, another operator is still
answered. Under a limit at which the bridge doesn't start it ends with status 2, or with 3 where a thread can't be
started. There are limits at which it runs without memory for an operator's thread. A line is printed for each limit,
and last a table of how the limits ended.
"""

import contextlib
import itertools
import resource
import signal
import socket
import subprocess
import tempfile
import threading
import time

from checks.bridges import operator_at, room_lines
from checks.filling import in_groups
from operators.packets import rtp
from operators.serving import LISTENS, Operator, settings, udp_socket
from operators.shared import add_program, fail, release_program

NEEDS = "the program, four minutes"

SEATS = 16
MEMBERS = 64
# Members that each operator adds.
OWN = 60


def options(parser):
    parser.add_argument("--step", type=int, default=8, help="from one limit to the next, in MiB (%(default)s)")
    parser.add_argument("--least", type=int, default=8, help="the first limit, in MiB (%(default)s)")
    parser.add_argument("--most", type=int, default=320, help="the last limit, in MiB (%(default)s)")
    parser.add_argument("--lanes", type=int, default=2, help="how many lanes the bridge has (%(default)s)")
    parser.add_argument(
        "--members", choices=["send", "silent", "both"], default="both", help="whether members send (%(default)s)"
    )
    add_program(parser)


# Operators


class Filler(threading.Thread):
    """An operator who fills the desk with members and gains, and notes what is accepted."""

    def __init__(self, port, number):
        super().__init__(daemon=True)
        self.operator = operator_at(port, 20)
        self.number = number
        self.accepted, self.refused, self.is_closed, self.last = {}, 0, False, None

    def calls(self):
        own = range(2000 + OWN * self.number, 2000 + OWN * (self.number + 1))
        yield from (f"add-member {m} 1 10.1.{self.number}.{m % OWN + 1}:5000 pcmu {100000 + m} 0 0" for m in own)
        gains = [f"set-gain {m} {1000 + s} {self.number + 1}" for m in own for s in range(MEMBERS)]
        # One by one, and then by groups.
        yield from gains[:MEMBERS]
        yield from in_groups(gains[MEMBERS:])

    def call(self, line):
        """Makes a call. Whether it is answered."""
        # A call whose answer never comes may be carried out.
        self.last = line
        told = self.operator.ask(line).split()
        if told[:1] == ["ok"]:
            self.accepted[int(told[1])] = line
        self.refused += told[:1] == ["no"] and told[2:4] == ["13", "OutOfMemory"]
        return told != []

    def run(self):
        try:
            self.is_closed = not all(self.call(line) for line in self.calls())
        except OSError:
            self.is_closed = True


# Rows


def rows_of(call):
    """The rows that a call leads to, members without their places."""
    forms = {"add-room": "room", "add-member": "member", "add-source": "source", "set-gain": "gain"}
    parts = call.removeprefix("group ").split(" / ")
    return [" ".join([forms[part.split()[0]], *part.split()[1:]]) for part in parts]


def without_places(rows):
    """The rows, members without their places. Ends where these aren't counted from 0."""
    words = [row.split() for row in rows]
    places = [int(row[1]) for row in words if row[0] == "member"]
    if places != list(range(len(places))):
        fail(f"members have the places {places}")
    return [" ".join([row[0], *row[2:]] if row[0] == "member" else row) for row in words]


def compare(mib, shown, fillers):
    """Compares rows that are shown with what the accepted calls lead to."""
    accepted = sorted(pair for filler in fillers for pair in filler.accepted.items())
    wanted = [row for _, call in accepted for row in rows_of(call)]
    may = {row for filler in fillers if filler.is_closed and filler.last for row in rows_of(filler.last)} - set(wanted)
    got = without_places(shown)
    if set(wanted) - set(got) or set(got) - set(wanted) - may:
        lost, more = set(wanted) - set(got), set(got) - set(wanted) - may
        fail(
            f"{mib} MiB: `show` lacks {len(lost)} rows that are accepted, as {sorted(lost)[:3]}, and has {len(more)} "
            f"more, as {sorted(more)[:3]}"
        )
    members = lambda rows: [row for row in rows if row.startswith("member ") and row not in may]
    if members(got) != members(wanted):
        fail(f"{mib} MiB: `show` has the members in another order than they were accepted")


# One bridge


def limited(mib):
    def limit():
        resource.setrlimit(resource.RLIMIT_AS, (mib << 20, mib << 20))
        resource.setrlimit(resource.RLIMIT_CORE, (0, 0))

    return limit


class Bridge:
    """A bridge under a limit."""

    def __init__(self, program, folder, mib, lanes):
        words = [program, "serve", settings(folder, operators=SEATS, lanes=lanes)]
        self.mib, self.tcp = mib, None
        self.process = subprocess.Popen(
            words, stdin=subprocess.DEVNULL, stderr=subprocess.PIPE, text=True, preexec_fn=limited(mib)
        )
        listens = LISTENS.fullmatch(self.process.stderr.readline())
        if listens:
            self.udp, self.tcp = int(listens[1]), int(listens[2])

    def ended(self, allowed=(0, 2)):
        """The status with which it ends, which has to be one of these."""
        try:
            status = self.process.wait(20)
        except subprocess.TimeoutExpired:
            self.process.kill()
            fail(f"{self.mib} MiB: the bridge doesn't end")
        if status not in allowed:
            fail(f"{self.mib} MiB: the bridge ends with status {status}: {self.process.stderr.read()[-500:]}")
        return status

    def runs(self):
        """Whether it still runs in a second."""
        with contextlib.suppress(subprocess.TimeoutExpired):
            self.process.wait(1)
        return self.process.poll() is None

    def answer(self, fillers):
        """The rows that an operator is shown who is still there or comes anew, or None where nobody is shown them."""
        for filler in fillers:
            with contextlib.suppress(OSError):
                shown = None if filler.is_closed else filler.operator.show()
                if shown:
                    return shown[0]
        with contextlib.suppress(OSError), socket.create_connection(("127.0.0.1", self.tcp), timeout=20) as one:
            shown = Operator(one).show()
            return shown and shown[0]
        return None

    def operators(self, fillers):
        """The operators who are still there, and one who comes anew, if one can."""
        came = [filler.operator for filler in fillers if not filler.is_closed]
        with contextlib.suppress(OSError):
            came.append(operator_at(self.tcp))
        return came

    def is_answered(self, fillers):
        """Whether an operator is answered at all, who is still there or comes anew."""
        for one in self.operators(fillers):
            with contextlib.suppress(OSError):
                if one.ask("add-room 1").startswith(("ok ", "no ")):
                    return True
        return False

    def stop(self, fillers):
        """Has it stopped by whoever is there. Its status."""
        for one in self.operators(fillers):
            with contextlib.suppress(OSError):
                one.tell("stop")
        return self.ended()


def talk(bridge, sockets, fillers):
    """Has the members send until the operators are done."""
    at = 0
    while any(filler.is_alive() for filler in fillers):
        for number, one in enumerate(sockets):
            one.sendto(rtp(at, 160 * at, 1000 + number, bytes([0x90]) * 160, pt=0), ("127.0.0.1", bridge.udp))
        at += 1
        time.sleep(0.02)


def shut_out(bridge):
    """How a bridge ended that answered no operator."""
    if not bridge.runs():
        return f"it ends with status {bridge.ended((2, 3))} before an operator is answered"
    bridge.process.terminate()
    bridge.ended((-signal.SIGTERM,))
    return "it runs, and no operator's thread can be started"


def filled(bridge, sockets, sends):
    """Has operators fill the desk of a bridge that runs. How it ended, and the counts of calls."""
    fillers = [Filler(bridge.tcp, number) for number in range(SEATS)]
    if not all(fillers[0].call(line) for line in room_lines(sockets)):
        return shut_out(bridge), ""
    for filler in fillers:
        filler.start()
    if sends:
        talk(bridge, sockets, fillers)
    for filler in fillers:
        filler.join()
    return outcome(bridge, fillers)


def outcome(bridge, fillers):
    """Compares the rows with the accepted calls, and stops the bridge. How it ended, and the counts of calls."""
    closed, refused = sum(it.is_closed for it in fillers), sum(it.refused for it in fillers)
    counts = f"{sum(len(it.accepted) for it in fillers)} calls accepted, {refused} refused, {closed} connections closed"
    rows = bridge.answer(fillers)
    if rows is not None:
        compare(bridge.mib, rows, fillers)
    elif bridge.runs() and not bridge.is_answered(fillers):
        fail(f"{bridge.mib} MiB: {counts}, and no other operator is answered")
    status = bridge.stop(fillers)
    if status:
        return f"it ends with status {status}", counts
    kinds = [
        text for count, text in ((refused, "calls are refused by 13"), (closed, "connections are closed")) if count
    ]
    return " and ".join(kinds) or "nothing is refused", counts + ("" if rows is not None else "; `show` had no memory")


def tried(program, folder, mib, lanes, sends):
    """Runs a bridge under a limit. How it ended, and the counts of calls."""
    bridge = Bridge(program, folder, mib, lanes)
    if not bridge.tcp:
        return f"it doesn't start, status {bridge.ended((2, 3))}", ""
    sockets = [udp_socket() for _ in range(MEMBERS)]
    try:
        return filled(bridge, sockets, sends)
    except OSError:
        return shut_out(bridge), ""
    finally:
        for one in sockets:
            one.close()
        with contextlib.suppress(OSError):
            bridge.process.kill()


def print_table(found, members):
    """Prints how the limits ended, neighbours that ended alike as one."""
    print(f"\n| Limit, members {members} | How it ended |\n|---|---|")
    for how, some in itertools.groupby(found, key=lambda pair: pair[1]):
        limits = [mib for mib, _ in some]
        print(f"| {limits[0]} to {limits[-1]} MiB | {how} |" if len(limits) > 1 else f"| {limits[0]} MiB | {how} |")
    print(flush=True)


def run(args):
    program = release_program(args.binary)
    tables = []
    with tempfile.TemporaryDirectory() as folder:
        for members in ["send", "silent"] if args.members == "both" else [args.members]:
            found = []
            for mib in range(args.least, args.most + 1, args.step):
                how, counts = tried(program, folder, mib, args.lanes, members == "send")
                found.append((mib, how))
                print(f"{mib} MiB, members {members}: {how}{'; ' if counts else ''}{counts}", flush=True)
            tables.append((found, members))
    for found, members in tables:
        print_table(found, members)
    return 0
