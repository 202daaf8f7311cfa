"""Watches a running bridge from outside: packets, loss, jitter and level of each source, who speaks, and who is
unknown.

It captures by a packet socket, which takes root or CAP_NET_RAW, or reads a capture that another program writes:

    tcpdump -i any -U -w - 'udp port 5004 or tcp port 7000' | tools/bridge watch -

The desk is known from the lines that pass, or from `show`, for which --ask connects for a moment every five seconds; it
needs a free seat. With --listen it answers GET /metrics in the text format of Prometheus. Levels are of PCMU and L16,
in dBFS, and of the time since the table before. Of senders that are no source it keeps 64, and counts the others
together.
"""

import contextlib
import socket
import sys
import threading
import time

from operators.captures.files import frames_of
from operators.captures.links import Packets
from operators.captures.live import Live
from operators.captures.notes import BadCapture, Notes
from operators.printing import printable
from operators.serving import Operator
from operators.watch.metrics import serve
from operators.watch.seen import Seen
from operators.watch.table import Table

NEEDS = "leave to capture, or a capture on standard input"

# How many seconds lie between two questions for the desk.
ASKED = 5
CLEAR = "\x1b[H\x1b[2J"


def options(parser):
    parser.add_argument("capture", nargs="?", metavar="-", help="read a pcap or pcapng stream from standard input")
    parser.add_argument("--interface", metavar="NAME", help="capture on this interface alone")
    parser.add_argument(
        "--udp", default="5004", metavar="ADDRESS", help="the bridge's `udp`, as an address or a port (%(default)s)"
    )
    parser.add_argument(
        "--tcp", default="7000", metavar="ADDRESS", help="the bridge's `tcp`, as an address or a port (%(default)s)"
    )
    parser.add_argument(
        "--ask", metavar="ADDRESS", help="ask the desk at this address for its rows, such as 127.0.0.1:7000"
    )
    parser.add_argument("--listen", metavar="ADDRESS", help="answer Prometheus at this address, such as 127.0.0.1:9100")
    parser.add_argument(
        "--every", type=float, default=2, metavar="SECONDS", help="how often the table is printed (%(default)s)"
    )
    parser.add_argument("--seconds", type=float, default=float("inf"), help="how long it watches")


def shown_at(address):
    """The rows and the version that a desk tells, or None where it doesn't."""
    host, _, port = address.rpartition(":")
    with contextlib.suppress(OSError), socket.create_connection((host, int(port)), timeout=2) as connection:
        operator = Operator(connection)
        lines = operator.shown()
        operator.tell("quit")
        if lines and lines[-1].startswith("end "):
            return lines[:-1], int(lines[-1][4:])
    return None


def ask(address, seen, lock):
    """Asks for the desk again and again."""
    while True:
        shown = shown_at(address)
        if shown:
            with lock:
                if not seen.is_known or seen.judge.log.version != shown[1]:
                    seen.is_desk(*shown)
        time.sleep(ASKED)


def frames_from(args, notes):
    """The frames to watch, and None where none came for a while."""
    if args.capture == "-":
        return frames_of(sys.stdin.buffer, notes)
    try:
        return Live(args.interface).frames()
    except PermissionError:
        raise BadCapture(
            "this process may not capture: run it as root, or give it a capture by `tcpdump -U -w - .. |`"
        ) from None


def watch(args, seen, lock):
    """Takes what passes, and tells the table."""
    packets, table, told = Packets(seen.notes), Table(seen), time.monotonic()
    end = told + args.seconds
    for frame in frames_from(args, seen.notes):
        with lock:
            for packet in packets.of([frame] if frame else []):
                seen.take(packet)
        if time.monotonic() >= min(told + args.every, end):
            told = time.monotonic()
            tell(table, lock)
        if told >= end:
            return
    tell(table, lock)


def tell(table, lock):
    """Prints the table."""
    with lock:
        lines = list(table.lines()) if table.seen.now else ["nothing has passed yet"]
    if sys.stdout.isatty():
        sys.__stdout__.write(CLEAR)
    print("\n".join(map(printable, lines)), flush=True)


def run(args):
    seen, lock = Seen(Notes(), args.udp, args.tcp), threading.Lock()
    try:
        if args.listen:
            serve(args.listen, seen, lock)
        if args.ask:
            threading.Thread(target=ask, args=(args.ask, seen, lock), daemon=True).start()
        watch(args, seen, lock)
    except (BadCapture, OSError) as why:
        print(f"tools/bridge watch: {why}", file=sys.stderr)
        return 2
    return 0
