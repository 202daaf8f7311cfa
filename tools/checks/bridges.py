"""What checks and benches share that hold calls: what has to be so, a bridge, and operators who make its desk."""

import contextlib
import os
import pathlib
import socket
import time

from operators.serving import Operator, port_of, started
from operators.shared import fail


# The first source of sound of a room, and the first stream of a mix.
SOUND, MIX = 1000, 5000


def check(holds, text):
    if not holds:
        fail(text)


def until(holds, text, seconds=20):
    """Waits until something holds, and ends where it doesn't in time."""
    end = time.monotonic() + seconds
    while not holds():
        check(time.monotonic() < end, text)
        time.sleep(0.005)


def accepted(operator, *lines):
    """Has an operator say lines, each of which has to be accepted. The last answer."""
    answer = ""
    for line in lines:
        answer = operator.ask(line)
        check(answer.startswith("ok "), f"`{line}` is answered `{answer}`")
    return answer


def operator_at(tcp, seconds=20):
    """An operator who is connected to this port, and waits for an answer for so many seconds at most."""
    return Operator(socket.create_connection(("127.0.0.1", tcp), timeout=seconds))


def room_lines(sockets):
    """The calls that make a room: each member has a socket, a source of sound and a mix."""
    yield "add-room 1"
    for number, one in enumerate(sockets):
        yield f"add-member {number} 1 127.0.0.1:{port_of(one)} pcmu {MIX + number} 0 0"
        yield f"add-source {SOUND + number} {number} audio"


@contextlib.contextmanager
def held(program, path, under=(), seconds=20):
    """A bridge with these settings, the port of its datagrams, and an operator who stops it at the end."""
    bridge, udp, tcp = started(program, path, under)
    operator = operator_at(tcp, seconds)
    yield bridge, udp, operator
    operator.tell("stop")
    check(bridge.wait(seconds) == 0, f"the bridge ended with status {bridge.returncode}")


def together(threads):
    """Starts threads, and waits until all have ended."""
    for one in threads:
        one.start()
    for one in threads:
        one.join()


def seconds_of(process):
    """The seconds of processor time that a process and its threads have taken."""
    words = pathlib.Path(f"/proc/{process.pid}/stat").read_text().rpartition(")")[2].split()
    # User and system time are the 14th and 15th field (proc(5)); the first two stand before what is split.
    return (int(words[11]) + int(words[12])) / os.sysconf("SC_CLK_TCK")


def status_of(process):
    """What the system says of a process (/proc/PID/status, proc(5)), by its names."""
    lines = pathlib.Path(f"/proc/{process.pid}/status").read_text().splitlines()
    return dict(line.split(":", 1) for line in lines)
