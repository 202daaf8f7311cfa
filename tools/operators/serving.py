"""A bridge on sockets, and an operator's connection to it."""

import atexit
import contextlib
import pathlib
import random
import re
import socket
import subprocess
import threading

from operators.shared import fail

LISTENS = re.compile(
    r"confbridge: listening on udp 127\.0\.0\.1:([0-9]+) and tcp 127\.0\.0\.1:([0-9]+), ticks from ([0-9]+)\n"
)


def udp_socket(port=0):
    """A UDP socket on loopback, at a port of the system's choice if none is given."""
    one = socket.socket(socket.AF_INET, socket.SOCK_DGRAM)
    one.bind(("127.0.0.1", port))
    return one


def with_room(one, octets):
    """Gives a socket a receive buffer of this size, where the system lets it have one."""
    # SO_RCVBUFFORCE, which is root's; Python has no name for it.
    try:
        one.setsockopt(socket.SOL_SOCKET, 33, octets)
    except OSError:
        one.setsockopt(socket.SOL_SOCKET, socket.SO_RCVBUF, octets)


def come_to(one):
    """The datagrams that have come to a socket that doesn't wait."""
    with contextlib.suppress(BlockingIOError):
        while True:
            yield one.recv(65536)


def port_of(one):
    return one.getsockname()[1]


# Ports that no socket gets which asks for any: on Linux these are from 32768 on. And those that were given here.
PORTS, GIVEN = range(10_000, 20_000), set()


def free_port(kind):
    """A port that no socket of this kind has. Until its program has begun, no connection of another one takes it."""
    while True:
        port = random.choice(PORTS)
        if port in GIVEN:
            continue
        with socket.socket(socket.AF_INET, kind) as one, contextlib.suppress(OSError):
            one.bind(("127.0.0.1", port))
            GIVEN.add(port)
            return port


class Answering(threading.Thread):
    """A UDP port of a program that isn't there: `answer` says what each datagram is answered, or None."""

    def __init__(self):
        super().__init__(daemon=True)
        self.socket = udp_socket()
        self.port = port_of(self.socket)
        self.start()

    def run(self):
        while True:
            try:
                octets, sender = self.socket.recvfrom(65536)
            except OSError:
                return
            answer = self.answer(octets)
            if answer:
                self.socket.sendto(answer, sender)

    def close(self):
        self.socket.close()


def settings(folder, udp=0, tcp=0, operators=2, lanes=1):
    """The path of a settings file with these ports, so many seats and so many lanes, which is written to a folder."""
    path = pathlib.Path(folder) / "serve.toml"
    path.write_text(f'udp = "127.0.0.1:{udp}"\ntcp = "127.0.0.1:{tcp}"\noperators = {operators}\nlanes = {lanes}\n')
    return path


def started(program, path, under=(), environment=None):
    """A bridge with these settings, once it says where it listens, and the ports of its sockets. It runs under another
    program, if one is named."""
    words = [*under, program, "serve", path]
    bridge = subprocess.Popen(words, stdin=subprocess.DEVNULL, stderr=subprocess.PIPE, text=True, env=environment)
    # A tool that fails leaves no bridge behind.
    atexit.register(bridge.kill)
    listens = LISTENS.fullmatch(bridge.stderr.readline())
    if not listens:
        fail("the bridge doesn't say where it listens")
    return bridge, int(listens[1]), int(listens[2])


CALLS = re.compile(r"confbridge: operator ([0-9]+): ([0-9]+) calls")
DROPPED = re.compile(r"confbridge: lane ([0-9]+): ([0-9]+) items dropped")


def said_at_the_end(text):
    """The calls of each operator that were accepted, and the items that were dropped for each lane, as a bridge says at
    its end."""
    calls, dropped = {}, {}
    for line in text.splitlines():
        for form, found in (CALLS, calls), (DROPPED, dropped):
            said = form.fullmatch(line)
            if said:
                found[int(said[1])] = int(said[2])
    if not text.endswith("confbridge: stopped\n"):
        fail(f"the bridge says at its end {text!r}")
    return calls, dropped


class Operator:
    """A connection of an operator."""

    def __init__(self, connection):
        self.lines = connection.makefile("rw", newline="\n")

    def ask(self, line):
        """The line that answers a line."""
        self.tell(line)
        return self.lines.readline().strip()

    def shown(self, line="show"):
        """The lines that answer `show`, `history` or `stats`, as far as they come."""
        self.tell(line)
        lines = []
        for line in self.lines:
            lines.append(line.strip())
            if line.split()[:1] == ["end"]:
                break
        return lines

    def tell(self, line):
        self.lines.write(line + "\n")
        self.lines.flush()

    def show(self):
        """The rows of the desk and its version, or None where the connection is closed."""
        self.tell("show")
        rows = []
        for line in self.lines:
            if line.startswith("end "):
                return rows, int(line[4:])
            rows.append(line.strip())
        return None
