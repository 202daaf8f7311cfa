"""Starts bridges with good and bad settings.

It compares their exit statuses and standard error, on which a line says what failed and why before the last one says
how the bridge ends. The faults are those of docs/FORMATS.md. Ports are of the system's choice. `stats` tells the
buffers that the settings ask for, as far as the system allows them. Then it counts the lines of many connections. At
last ./confbridge runs bridges, as units and containers do. In mid-call SIGHUP does nothing, and SIGTERM and SIGINT stop
a bridge with its last lines and status 0. A full or closed standard error keeps none from starting.
"""

import pathlib
import re
import socket
import subprocess
import tempfile
import time

from checks.bridges import check
from checks.scripted import check_script
from operators.serving import LISTENS, Operator, said_at_the_end, udp_socket
from operators.shared import add_program, release_program

NEEDS = "the program, a minute"

UDP, TCP = b'udp = "127.0.0.1:0"\n', b'tcp = "127.0.0.1:0"\n'
BOTH = UDP + TCP
# A trace goes to an address of this machine, and takes a seat.
TRACE, TRACED = b'trace = "127.0.0.1:9000"\n', BOTH + b"operators = 2\n"
# Bad settings, each with the fault that the bridge tells, and what it says that the file has there.
BAD = [
    (b"", "2 MissingKey udp", "udp is missing"),
    (TCP, "2 MissingKey udp", "udp is missing"),
    (UDP, "2 MissingKey tcp", "tcp is missing"),
    (b"udp = ", "1 BadToml", "line 1: .+"),
    (b"\xff\n" + BOTH, "1 BadToml", "no UTF-8"),
    (BOTH + b"lanes = 1\nlanes = 1\n", "1 BadToml", "line 4: .+"),
    (b"udp = 5004\n" + TCP, "3 BadValue udp", "udp = 5004"),
    (b'udp = "127.0.0.1"\n' + TCP, "3 BadValue udp", 'udp = "127.0.0.1"'),
    (b'udp = "127.0.0.1:65536"\n' + TCP, "3 BadValue udp", 'udp = "127.0.0.1:65536"'),
    (b'udp = "127.0.0.01:0"\n' + TCP, "3 BadValue udp", 'udp = "127.0.0.01:0"'),
    (b'udp = "256.0.0.1:0"\n', "3 BadValue udp", 'udp = "256.0.0.1:0"'),
    (UDP + b'tcp = "10.0.0.1:7000"\n', "3 BadValue tcp", 'tcp = "10.0.0.1:7000"'),
    (UDP + b'tcp = "128.0.0.1:7000"\n', "3 BadValue tcp", 'tcp = "128.0.0.1:7000"'),
    (BOTH + b"lanes = 0\n", "3 BadValue lanes", "lanes = 0"),
    (BOTH + b"lanes = 17\n", "3 BadValue lanes", "lanes = 17"),
    (BOTH + b"lanes = 1.0\n", "3 BadValue lanes", "lanes = 1.0"),
    (BOTH + b"lanes = -1\noperators = 0\n", "3 BadValue lanes", "lanes = -1"),
    (BOTH + b"operators = 0\n", "3 BadValue operators", "operators = 0"),
    (BOTH + b"operators = 17\n", "3 BadValue operators", "operators = 17"),
    (BOTH + b"report_ms = 999\n", "3 BadValue report_ms", "report_ms = 999"),
    (BOTH + b"report_ms = 5001\n", "3 BadValue report_ms", "report_ms = 5001"),
    (BOTH + b"bridge_ssrc = 4294967296\n", "3 BadValue bridge_ssrc", "bridge_ssrc = 4294967296"),
    (BOTH + b'cname = ""\n', "3 BadValue cname", 'cname = ""'),
    (BOTH + b'cname = "a\\tb"\n', "3 BadValue cname", 'cname = "a\\\\tb"'),
    (BOTH + b'cname = "' + 256 * b"a" + b'"\n', "3 BadValue cname", 'cname = "a{111}'),
    (TRACED + b'trace = "10.0.0.1:9000"\n', "3 BadValue trace", 'trace = "10.0.0.1:9000"'),
    (TRACED + b"trace = 9000\n", "3 BadValue trace", "trace = 9000"),
    (BOTH + TRACE, "3 BadValue trace", 'trace = "127.0.0.1:9000"'),
    (BOTH + b"operators = 1\n" + TRACE, "3 BadValue trace", 'trace = "127.0.0.1:9000"'),
    (TRACED + b'cname = "a b"\n' + TRACE, "3 BadValue trace", 'trace = "127.0.0.1:9000"'),
    (TRACED + b"lane = 1\n" + TRACE, "4 UnknownKey lane", "lane = 1"),
    (BOTH + b"lane = 1\n", "4 UnknownKey lane", "lane = 1"),
    (b"zone = 1\nLanes = 1\n" + BOTH, "4 UnknownKey Lanes", "Lanes = 1"),
    (b"lane = 1\noperators = 17\n" + BOTH, "3 BadValue operators", "operators = 17"),
    (BOTH + b"[more]\nlanes = 1\n", "4 UnknownKey more", r"more = \{.*lanes = 1.*\}"),
    (BOTH + b"receive_buffer = 4095\n", "3 BadValue receive_buffer", "receive_buffer = 4095"),
    (BOTH + b"send_buffer = 1000000001\n", "3 BadValue send_buffer", "send_buffer = 1000000001"),
]
# What is good, which stands behind what the file has: by key, and of keys.
NUMBER = "a number from 1 to 16"
BUFFER = "a number from 4096 to 1000000000"
VALUES = {
    "udp": "an address such as 10.0.0.5:5004",
    "tcp": "an address in 127.0.0.0/8, such as 127.0.0.1:7000",
    "lanes": NUMBER,
    "operators": NUMBER,
    "report_ms": "a number from 1000 to 5000",
    "bridge_ssrc": "a number from 0 to 4294967295",
    "cname": "a text of 1 to 255 octets from a space to ~",
    "trace": "an address in 127.0.0.0/8, where operators is 2 or more and cname has no space",
    "receive_buffer": BUFFER,
    "send_buffer": BUFFER,
}


def with_good(fault, has):
    """What a bridge says of a fault of its file: what that has, and what would be good."""
    kind, key = fault.split(" ")[1], fault.split(" ")[-1]
    if kind == "BadToml":
        return has
    return f"{has} \\({re.escape(', '.join(VALUES) if kind == 'UnknownKey' else VALUES[key])}\\)"


# Good settings.
GOOD = [
    BOTH,
    BOTH + b'lanes = 16\noperators = 16\nreport_ms = 1000\nbridge_ssrc = 4294967295\ncname = "' + 255 * b"a" + b'"\n',
]
# The buffers that settings ask for: to receive, and to send.
BUFFERS = [
    (BOTH, 4_194_304, 4_194_304),
    (BOTH + b"receive_buffer = 65536\n", 65_536, 4_194_304),
    (BOTH + b"receive_buffer = 1000000000\nsend_buffer = 98304\n", 1_000_000_000, 98_304),
]
USAGE = "usage: confbridge replay | confbridge serve FILE\n"
FAILED = "confbridge: input or output failed\n"
# So many connections come at once, and so many lines a second tell of them.
CROWD, MOST_LINES = 60, 10
EVENT = re.compile(r"confbridge: connection from 127[.]0[.]0[.]1:[0-9]+( refused: busy)?")
LEFT_OUT = re.compile(r"confbridge: ([0-9]+) events left out")


def options(parser):
    add_program(parser)


def ended(program, words):
    """The exit status and the standard error of a program that ends by itself."""
    done = subprocess.run(
        [program, *words], stdin=subprocess.DEVNULL, capture_output=True, text=True, timeout=20, check=False
    )
    check(done.stdout == "", f"{words}: standard output is not empty")
    return done.returncode, done.stderr


def check_end(program, words, status, text):
    told = ended(program, words)
    check(told == (status, text), f"{words}: {told}, not {(status, text)}")


def check_cause(program, words, status, cause, text):
    """A program that ends by itself says why, and then what it always says."""
    got, told = ended(program, words)
    says = re.fullmatch(f"confbridge: {cause}\n{re.escape(text)}", told)
    check(says and got == status, f"{words}: {(got, told)}, not {(status, cause, text)}")


def check_said(program):
    """What the program says on standard output."""
    for word, first in ("--help", USAGE.strip()), ("--version", "confbridge 1"):
        done = subprocess.run(
            [program, word], stdin=subprocess.DEVNULL, capture_output=True, text=True, timeout=20, check=False
        )
        lines = done.stdout.splitlines()
        check(done.returncode == 0 and not done.stderr and lines[:1] == [first], f"{word}: {done}")
        check_end(program, [word, word], 4, USAGE)


def check_start(program, path, stop):
    """Starts a bridge with good settings, and stops it."""
    begun = time.time_ns()
    with subprocess.Popen(
        [program, "serve", path], stdin=subprocess.DEVNULL, stderr=subprocess.PIPE, text=True
    ) as bridge:
        listens = LISTENS.fullmatch(bridge.stderr.readline())
        check(listens and "0" not in listens.groups(), "the bridge doesn't say where it listens")
        check(begun <= int(listens[3]) <= time.time_ns(), "the bridge doesn't say from when on it counts ticks")
        stop(bridge, int(listens[2]))
        rest = bridge.stderr.read()
        calls, dropped = said_at_the_end(rest)
        check(not dropped and not any(calls.values()), f"after `stop` it says {rest!r}")
        check(bridge.wait(20) == 0, "after `stop` its status is not 0")
    return rest.splitlines()


def stop_by_line(_, port):
    with socket.create_connection(("127.0.0.1", port), timeout=20) as desk:
        desk.sendall(b"stop\n")
        desk.recv(1)


def allowed(what):
    """The most octets that the system gives a buffer for which a program asks, or None where it doesn't say."""
    path = pathlib.Path(f"/proc/sys/net/core/{what}_max")
    return int(path.read_text()) if path.is_file() else None


def check_buffers(program, path):
    """`stats` tells the buffers that the settings ask for, or the largest that the system allows."""
    most = allowed("rmem"), allowed("wmem")
    if None in most:
        print("the system doesn't say how large a buffer may be: buffers are not tried")
        return
    for octets, *asked in BUFFERS:
        path.write_bytes(octets)
        given = [min(pair) for pair in zip(asked, most, strict=True)]

        def stop(_, port, given=given):
            with socket.create_connection(("127.0.0.1", port), timeout=20) as connection:
                operator = Operator(connection)
                told = next(line for line in operator.shown("stats") if line.startswith("socket "))
                line = "socket receive-buffer {} send-buffer {} drops ".format(*given)
                drops = told.removeprefix(line)
                check(drops in ("0", "-"), f"of buffers `stats` tells {told!r}, not {line + '0'!r}")
                operator.ask("stop")

        check_start(program, path, stop)


def stop_in_a_crowd(bridge, port):
    """Stops a bridge to which many have connected, of which its one seat refuses most."""
    with socket.create_connection(("127.0.0.1", port), timeout=20) as desk:
        desk.sendall(b"show\n")
        check(desk.recv(100) == b"end 0\n", "the bridge doesn't answer `show`")
        for _ in range(CROWD):
            with socket.create_connection(("127.0.0.1", port), timeout=20) as one:
                check(one.recv(100) == b"busy\n", "a connection isn't told `busy`")
        time.sleep(1.5)
        desk.sendall(b"stop\n")
        desk.recv(1)


def check_crowd(program, path):
    """Each connection has a line or is counted, and no second has more than ten lines."""
    said = check_start(program, path, stop_in_a_crowd)
    lines = [line for line in said if not line.startswith("confbridge: operator")]
    check(lines.pop() == "confbridge: stopped", "the last line isn't `confbridge: stopped`")
    left = [int(found[1]) for found in map(LEFT_OUT.fullmatch, lines) if found]
    told = [line for line in lines if EVENT.fullmatch(line)]
    check(len(left) + len(told) == len(lines), f"of a crowd the bridge says {lines}")
    which = f"of {CROWD + 1} connections the bridge tells {len(told)}, and leaves out {left}"
    check(len(told) + sum(left) == CROWD + 1, which)
    check(told and left, f"of {CROWD + 1} connections in a second the bridge leaves out {left}")


def check_all(program, folder, taken):
    """Starts the program with all settings. `taken` has a TCP and a UDP socket, whose ports no bridge gets."""
    path = folder / "serve.toml"
    at = re.escape(str(path))
    for words in [], ["serve"], ["serve", path, path], ["Serve", path]:
        check_end(program, words, 4, USAGE)
    check_said(program)
    check_cause(program, ["serve", path], 3, f"{at}: no such file", FAILED)
    check_cause(program, ["serve", folder], 3, f"{re.escape(str(folder))}: is a directory", FAILED)
    for octets, fault, part in BAD:
        path.write_bytes(octets)
        check_cause(program, ["serve", path], 1, f"{at}: {with_good(fault, part)}", f"confbridge: settings: {fault}\n")
    tcp, udp = (one.getsockname()[1] for one in taken)
    path.write_bytes(UDP + b'tcp = "127.0.0.1:%d"\n' % tcp)
    check_cause(program, ["serve", path], 3, f"tcp 127.0.0.1:{tcp}: address in use", FAILED)
    path.write_bytes(b'udp = "127.0.0.1:%d"\n' % udp + TCP)
    check_cause(program, ["serve", path], 3, f"udp 127.0.0.1:{udp}: address in use", FAILED)
    # 192.0.2.0/24 is for documents alone (RFC 5737), and no machine has an address of it.
    path.write_bytes(b'udp = "192.0.2.1:5004"\n' + TCP)
    check_cause(program, ["serve", path], 3, "udp 192.0.2.1:5004: cannot assign requested address", FAILED)
    for octets in GOOD:
        path.write_bytes(octets)
        check_start(program, path, stop_by_line)
    check_buffers(program, path)
    path.write_bytes(BOTH)
    check_crowd(program, path)


def run(args):
    program = release_program(args.binary)
    udp = udp_socket()
    with tempfile.TemporaryDirectory() as folder, udp, socket.create_server(("127.0.0.1", 0)) as tcp:
        check_all(program, pathlib.Path(folder), (tcp, udp))
        print(f"{len(BAD)} bad settings refused, {len(GOOD)} good ones taken; each bad start says why")
        check_script(program, pathlib.Path(folder))
    print("./confbridge stops a bridge in mid-call by SIGTERM and SIGINT, and starts one without standard error")
    return 0
