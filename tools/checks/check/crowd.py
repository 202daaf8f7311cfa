"""Has operators who misbehave beside one who doesn't, whose calls have to be answered within 50 ms.

CROWD is one of
  silent    1,000 connections that say nothing
  endless   15 connections that send lines without an end
  drip      15 connections that send an octet a second
  unread    15 connections that ask for the rows of a full desk and read nothing
  half      connections that close in mid-line, one after another
  busy      15 connections that call as fast as they can: each has up to 128 calls that aren't answered yet

Beside each crowd two members talk with each other. Beside `unread` the honest operator asks for the rows, too; how long
that takes is told, and not judged. Behind the crowd the honest operator's calls and the others' accepted calls have the
numbers from 1 to the desk's version, each once, and as many calls are accepted of all operators as the bridge says at
its end. The packets that each member heard have no gap, and no item was dropped for a lane. The status is 0 where all
is so.
"""

import contextlib
import multiprocessing
import re
import selectors
import socket
import tempfile
import threading
import time

from checks.bridges import status_of, together
from checks.filling import fill, full_desk
from checks.pair import Pair
from operators.serving import Operator, said_at_the_end, settings, started
from operators.shared import add_program, fail, release_program

NEEDS = "the program, a minute"

SEATS = 16
ALLOWED = 0.05
# How many calls the busy send at a time, and how often. The log has 1,048,576 calls, of which the honest operator needs
# some.
BATCH = 64
BATCHES = 15_000


def options(parser):
    parser.add_argument("--crowd", choices=CROWDS, metavar="CROWD", help="this one alone; all if none is given")
    parser.add_argument("--seconds", type=float, default=5, help="how long each lasts (%(default)s)")
    parser.add_argument("--lanes", type=int, default=2, help="how many lanes the bridge has (%(default)s)")
    add_program(parser)


class Crowd:
    """The connections of a crowd to a bridge, until a moment. Another process has them, so that this one has time for
    the honest operator."""

    def __init__(self, name, port, seconds):
        self.port = port
        self.end = time.monotonic() + seconds
        self.accepted = []
        came, there = multiprocessing.Pipe(duplex=False)
        # It begins before there are threads.
        multiprocessing.get_context("fork").Process(target=self.carry_out, args=(name, there), daemon=True).start()
        there.close()
        self.thread = threading.Thread(target=self.wait, args=(came,))
        self.thread.start()

    def carry_out(self, name, there):
        getattr(self, name)()
        there.send(self.accepted)

    def wait(self, came):
        self.accepted = came.recv()

    def lasts(self):
        return time.monotonic() < self.end

    def connection(self):
        return socket.create_connection(("127.0.0.1", self.port), timeout=5)

    def together(self, work, count):
        """Runs a function in so many threads."""

        def one(number):
            with contextlib.suppress(OSError):
                work(number)

        together([threading.Thread(target=one, args=(number,)) for number in range(count)])

    def silent(self):
        with contextlib.ExitStack() as stack:
            for _ in range(1000):
                stack.enter_context(self.connection())
            time.sleep(max(0, self.end - time.monotonic()))

    def endless(self):
        def send(_):
            while self.lasts():
                with contextlib.suppress(OSError), self.connection() as one:
                    while self.lasts():
                        one.sendall(b"a" * 65536)

        self.together(send, SEATS - 1)

    def drip(self):
        def send(_):
            with self.connection() as one:
                while self.lasts():
                    one.sendall(b"s")
                    time.sleep(1)

        self.together(send, SEATS - 1)

    def unread(self):
        def ask(_):
            while self.lasts():
                with contextlib.suppress(OSError), self.connection() as one:
                    one.settimeout(0.5)
                    while self.lasts():
                        one.sendall(b"show\n" * 100)

        self.together(ask, SEATS - 1)

    def half(self):
        while self.lasts():
            with contextlib.suppress(OSError), self.connection() as one:
                one.sendall(b"add-room 6")

    def busy(self):
        self.accepted = call_ahead(self.port, self.end)


class Ahead:
    """A connection that calls without waiting for the answers, and what it is told."""

    def __init__(self, port, room):
        self.connection = socket.create_connection(("127.0.0.1", port), timeout=5)
        self.batch = f"add-room {room}\nremove-room {room}\n".encode() * (BATCH // 2)
        self.told, self.waiting = [], 0

    def send(self):
        self.connection.sendall(self.batch)
        self.waiting += BATCH

    def read(self):
        """Takes the answers that have come. False where the connection is closed."""
        some = self.connection.recv(65536)
        self.told.append(some)
        self.waiting -= some.count(b"\n")
        return some != b""


def call_ahead(port, end):
    """Has 15 connections call until a moment, and gives the numbers of the accepted calls."""
    ones = [Ahead(port, 1000 + number) for number in range(SEATS - 1)]
    left = BATCHES - 2 * len(ones)
    with selectors.DefaultSelector() as ready:
        for one in ones:
            ready.register(one.connection, selectors.EVENT_READ, one)
            one.send()
            one.send()
        while any(one.waiting for one in ones):
            came = ready.select(5)
            if not came:
                break
            for key, _ in came:
                one = key.data
                if not one.read():
                    ready.unregister(one.connection)
                    one.waiting = 0
                elif one.waiting <= BATCH and left and time.monotonic() < end:
                    one.send()
                    left -= 1
    lines = [line for one in ones for line in b"".join(one.told).decode().splitlines()]
    return [int(line[3:]) for line in lines if line.startswith("ok ")]


CROWDS = ["silent", "endless", "drip", "unread", "half", "busy"]


def shown(connection):
    """Asks for the rows, and reads them. How long that took."""
    begun, last = time.monotonic(), b""
    connection.sendall(b"show\n")
    while not re.search(rb"(^|\n)end [0-9]+\n$", last):
        some = connection.recv(1 << 20)
        if not some:
            fail("the connection ends in the rows")
        last = (last + some)[-40:]
    return time.monotonic() - begun


def asked(operator, connection, crowd, thread, accepted):
    """Has the honest operator call while the crowd is there. How long each answer took, and each time the rows."""
    took, rows, rounds = [], [], 0
    while thread.is_alive():
        rounds += 1
        if crowd == "unread" and rounds % 10 == 0:
            rows.append(shown(connection))
        for line in ("add-room 63", "remove-room 63"):
            begun = time.monotonic()
            word, _, rest = operator.ask(line).partition(" ")
            took.append(time.monotonic() - begun)
            if word != "ok":
                fail(f"{crowd}: `{line}` is answered `{word} {rest}`")
            accepted.append(int(rest))
        time.sleep(0.002)
    return sorted(took), sorted(rows)


def resident(bridge):
    """The memory of a bridge in MB."""
    return int(status_of(bridge)["VmRSS"].split()[0]) / 1000


def told_of(name, took, rows, accepted, crowd, heard, sent):
    """Prints how it went. Whether all is as it should be."""
    numbers = sorted(accepted + crowd.accepted)
    is_whole = numbers == list(range(1, len(numbers) + 1))
    late = took[int(len(took) * 0.99)]
    told = [
        f"{name}: {len(took)} lines of the honest operator, answered within {late * 1e3:.1f} ms (99th percentile), "
        f"{took[-1] * 1e3:.1f} ms (all)",
        *[f"the rows {len(rows)} times, within {rows[-1] * 1e3:.1f} ms" for _ in rows[:1]],
        f"{len(crowd.accepted)} calls of the crowd",
        "each number once" if is_whole else "NUMBERS LOST",
        f"of {sent} packets the members heard {heard[0]} and {heard[1]}" if heard else "A MEMBER HEARD A GAP",
    ]
    print("; ".join(told), flush=True)
    return bool(is_whole and heard and took[-1] <= ALLOWED)


def ended(name, bridge, count):
    """Whether a bridge that was stopped ends well, with so many accepted calls."""
    timer = threading.Timer(10, bridge.kill)
    timer.start()
    status = bridge.wait()
    timer.cancel()
    if status:
        print(f"{name}: the bridge ended with status {status}")
        return False
    calls, dropped = said_at_the_end(bridge.stderr.read())
    if sum(calls.values()) != count or dropped:
        print(
            f"{name}: {count} calls were told as accepted, and the bridge says {calls}; dropped items of lanes: "
            f"{dropped}"
        )
        return False
    return True


def held(program, name, args):
    """Has a crowd beside an operator and a call, and tells whether all is as it should be."""
    pair = Pair(first=0)
    with tempfile.TemporaryDirectory() as folder:
        bridge, udp, port = started(program, settings(folder, operators=SEATS, lanes=args.lanes))
        with socket.create_connection(("127.0.0.1", port)) as connection:
            operator = Operator(connection)
            count = fill(operator, full_desk(64, short=2)) if name == "unread" else 0
            accepted = list(range(1, count + 1 + fill(operator, pair.lines())))
            before = resident(bridge)
            crowd = Crowd(name, port, args.seconds)
            pair.begin(udp)
            took, rows = asked(operator, connection, name, crowd.thread, accepted)
            is_well = told_of(name, took, rows, accepted, crowd, pair.end(), pair.sent)
            print(f"  memory {before:.0f} MB before the crowd, {resident(bridge):.0f} MB behind it", flush=True)
            operator.tell("stop")
        return ended(name, bridge, len(accepted) + len(crowd.accepted)) and is_well


def run(args):
    program = release_program(args.binary)
    names = [args.crowd] if args.crowd else CROWDS
    return 0 if all([held(program, name, args) for name in names]) else 1
