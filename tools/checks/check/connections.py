"""Floods the port of a bridge's operators, and has operators ask without reading, while an honest one comes and goes.

First four programs connect without end, two of which say 160 octets without an LF and close, and two of which hold
sixty connections each. Meanwhile an honest operator comes again and again, and its first call is answered within two
seconds each time. Where a newcomer pushed its connection out before its line came, it connects anew. The bridge has no
more threads than before and a thread for each seat, and no more open files than before and those of its seats and of 16
connections more. Behind the flood it has as many threads and files as before, and little more memory.

Then an operator asks `stats` 600 times in one write, and gets each answer, the first within two seconds. Another one
does the same and goes away: its seat is free within five seconds. A third one has a `watch` and a receive buffer of
4,096 octets, and doesn't read while 150 calls are told. It reads on, and gets the rest or the end of its connection.

Last, a member reports on 7,440 streams that don't exist. What another member's receiver reported of its own stream is
still told.
"""

import multiprocessing
import os
import socket
import struct
import tempfile
import time

from checks.bridges import accepted, status_of
from operators.packets import rtp
from operators.serving import Operator, port_of, settings, started, udp_socket
from operators.shared import add_program, fail, release_program

NEEDS = "the program, a minute and a half"

SEATS = 8
# How many seconds the flood lasts.
FLOODED = 12
# How many connections one program holds.
HELD = 60
GUESTS = 16
# The files of a connection with a seat: its socket, its poll and what that is woken by. Others are left for chance.
FILES = 3
# How much memory may be more behind the flood, in kB.
MORE = 32_768
ASKED = 600
# How many seconds a seat may take to come back.
SEAT_BACK = 5
TOLD = 150
PATIENCE = 150
SILENT = b"x" * 160
REFUSED = "remove-room 4294967295"


def options(parser):
    add_program(parser)
    parser.add_argument(
        "--allowed", type=float, default=2, metavar="SECONDS", help="for how long an answer may take (%(default)s)"
    )


def connection(port):
    return socket.create_connection(("127.0.0.1", port), timeout=PATIENCE)


def flood(port, holds, until):
    """Connects without end: closes at once, or holds the last connections."""
    held = []
    while time.monotonic() < until:
        try:
            one = socket.create_connection(("127.0.0.1", port), timeout=5)
            one.sendall(SILENT)
        except OSError:
            continue
        if holds:
            held.append(one)
            one = held.pop(0) if len(held) > HELD else None
        if one:
            one.close()


def state_of(bridge):
    """The threads, open files and kB of memory of a bridge."""
    status, files = status_of(bridge), len(os.listdir(f"/proc/{bridge.pid}/fd"))
    return int(status["Threads"]), files, int(status["VmRSS"].split()[0])


def greeted(port, allowed):
    """How many seconds an operator waits for the first answer, who connects again where a newcomer pushed it out."""
    begin = time.monotonic()
    while time.monotonic() < begin + allowed:
        with connection(port) as one:
            try:
                told = Operator(one).ask(REFUSED)
            except OSError:
                told = ""
        if told.startswith("no "):
            return time.monotonic() - begin
        if told:
            fail(f"beside a flood of connections the first call of an operator is answered `{told}`")
    return fail(f"beside a flood of connections an operator has no answer within {allowed} s")


def settled(bridge, idle):
    """The state of a bridge, once it has so many threads and files again."""
    until = time.monotonic() + PATIENCE
    while state_of(bridge)[:2] != idle and time.monotonic() < until:
        time.sleep(0.1)
    return state_of(bridge)


def steady(bridge):
    """The state of a bridge, once its threads and files have stayed as they are for two seconds."""
    until, last, same = time.monotonic() + PATIENCE, None, 0
    while same < 20 and time.monotonic() < until:
        now = state_of(bridge)[:2]
        same = same + 1 if now == last else 0
        last = now
        time.sleep(0.1)
    return state_of(bridge)


def check_flood(bridge, tcp, allowed):
    # A bridge that listens may have no thread for its lane yet, and the first call takes memory for the desk's rows.
    greeted(tcp, allowed)
    before = steady(bridge)
    until = time.monotonic() + FLOODED
    floods = [multiprocessing.Process(target=flood, args=(tcp, at % 2, until), daemon=True) for at in range(4)]
    for one in floods:
        one.start()
    waits, most = [], before
    while time.monotonic() < until:
        waits.append(greeted(tcp, allowed))
        most = tuple(map(max, most, state_of(bridge)))
        time.sleep(0.2)
    for one in floods:
        one.join()
    if most[0] > before[0] + SEATS:
        fail(f"of {before[0]} threads a flood of connections makes {most[0]}, with {SEATS} seats")
    if most[1] > before[1] + GUESTS + FILES * SEATS:
        fail(f"of {before[1]} files a flood of connections makes {most[1]}, with {SEATS} seats")
    behind = settled(bridge, before[:2])
    if behind[:2] != before[:2] or behind[2] > before[2] + MORE:
        fail(f"behind a flood of connections the bridge has {behind} threads, files and kB, and had {before}")
    print(f"a flood of connections: {len(waits)} first answers within {max(waits) * 1e3:.0f} ms", flush=True)


def used_seats(operator):
    line = next(line for line in operator.shown("stats") if line.startswith("seats "))
    return int(line.split()[1])


def check_asking(tcp, allowed):
    """Asks often in one write: each answer comes, the first one soon."""
    with connection(tcp) as one:
        begin = time.monotonic()
        one.sendall(b"stats\n" * ASKED)
        first, ends, last = None, 0, b""
        while ends < ASKED:
            octets = one.recv(65_536)
            if not octets:
                fail(f"an operator who asks {ASKED} times got {ends} answers")
            first = first or time.monotonic() - begin
            ends += (last + octets).count(b"\nend\n")
            last = (last + octets)[-4:]
    if first > allowed:
        fail(f"the first of {ASKED} answers comes after {first:.1f} s")
    print(f"{ASKED} questions in one write: the first answer after {first * 1e3:.0f} ms", flush=True)


def check_gone(tcp, operator):
    """Asks often, and goes away."""
    seats = used_seats(operator)
    with connection(tcp) as one:
        one.sendall(b"stats\n" * ASKED)
        while used_seats(operator) == seats:
            time.sleep(0.01)
    begin = time.monotonic()
    while used_seats(operator) > seats:
        if time.monotonic() > begin + SEAT_BACK:
            fail(f"an operator who is gone keeps the seat for over {SEAT_BACK} s")
        time.sleep(0.1)
    print(f"an operator who asked and is gone: the seat is free after {time.monotonic() - begin:.1f} s", flush=True)


def check_watch(tcp, operator):
    """Watches, and doesn't read for a while."""
    with socket.socket() as one:
        one.setsockopt(socket.SOL_SOCKET, socket.SO_RCVBUF, 4096)
        one.settimeout(PATIENCE)
        one.connect(("127.0.0.1", tcp))
        one.sendall(b"watch\n")
        words = " / ".join(f"add-room 7{room} / remove-room 7{room}" for room in range(10, 42))
        for _ in range(TOLD):
            told = accepted(operator, f"group {words}")
        begin, octets = time.monotonic(), b""
        last = f"call {told.split()[1]} ".encode()
        while not any(line.startswith(last) for line in octets[-8_192:].split(b"\n")[:-1]):
            more = one.recv(65_536)
            if not more:
                break
            octets += more
    took = time.monotonic() - begin
    print(f"a watch that wasn't read: {len(octets)} octets within {took:.0f} s", flush=True)


def reports(ssrcs):
    """A compound of receiver reports about these streams."""
    octets = b""
    for at in range(0, len(ssrcs), 31):
        some = ssrcs[at : at + 31]
        octets += struct.pack("!BBHI", 0x80 | len(some), 201, 1 + 6 * len(some), 7)
        for ssrc in some:
            octets += struct.pack("!IIIIII", ssrc, 5 << 24 | 3, 1000, 900, 0, 0)
    return octets


def said_of(operator, ssrc):
    """What `stats` says of a stream."""
    return next((line for line in operator.shown("stats") if line.startswith(f"stream {ssrc} ")), "")


def check_reports(udp, operator):
    """Reports on streams that don't exist."""
    near, far = udp_socket(), udp_socket()
    accepted(
        operator,
        "add-room 1",
        f"add-member 10 1 127.0.0.1:{port_of(near)} pcmu 9001 0 0",
        f"add-member 11 1 127.0.0.1:{port_of(far)} pcmu 9002 0 0",
        "add-source 101 10 video",
        "add-slot 501 11 0 0 0",
        "subscribe 501 101",
    )
    at = ("127.0.0.1", udp)
    for number in range(1, 30):
        near.sendto(rtp(number, number * 3000, 101, b"v" * 300, marker=1), at)
        time.sleep(0.02)
    until = time.monotonic() + 20
    while "jitter 10 " not in said_of(operator, 501):
        if time.monotonic() > until:
            fail(f"a receiver's report isn't told: {said_of(operator, 501)}")
        far.sendto(reports([501]), at)
        time.sleep(0.5)
    for part in range(24):
        near.sendto(reports([0x10000 + part * 310 + one for one in range(310)]), at)
        time.sleep(0.05)
    near.sendto(reports([501]), at)
    time.sleep(1)
    if "jitter 10 " not in said_of(operator, 501):
        fail(f"a member's reports on other streams hide what a receiver reported: {said_of(operator, 501)}")
    print("7,440 reports on streams that don't exist hide none of a receiver's", flush=True)


def run(args):
    program = release_program(args.binary)
    with tempfile.TemporaryDirectory() as folder:
        bridge, udp, tcp = started(program, settings(folder, operators=SEATS))
        check_flood(bridge, tcp, args.allowed)
        with connection(tcp) as one:
            operator = Operator(one)
            check_asking(tcp, args.allowed)
            check_gone(tcp, operator)
            check_watch(tcp, operator)
            check_reports(udp, operator)
            operator.tell("stop")
        if bridge.wait(PATIENCE):
            fail(f"the bridge ended with status {bridge.returncode}")
    return 0
