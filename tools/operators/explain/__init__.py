"""Explains a capture of a bridge's call: who was dropped, muted or late, and which packet differs from the rules.

CAPTURE is a file of tcpdump or Wireshark, pcap or pcapng, or `-` for standard input. It has to hold the datagrams of
the bridge and the lines of its operators:

    tcpdump -i any -w call.pcap 'udp port 5004 or tcp port 7000'

From these it makes a script for `confbridge replay`, and answers it by the models in tools/operators/models, which
answer as the program does. A capture that begins in mid-call needs the desk: a `show`, `groups`, `history` or `calls`
while it was made, or --desk. The status is 1 where a media packet differs from the model's, and 2 where nothing can be
read.

CAPTURE may also be such a script, or the text of a bridge's trace. Then no capture is read, and what the models send
counts as sent, so that nothing is compared.
"""

import argparse
import contextlib
import pathlib
import sys
import textwrap

from operators.captures.notes import BadCapture
from operators.explain.explaining import explain_wire
from operators.explain.given import given_by
from operators.explain.pieces import LONG, MANY, USUAL, Pieces, Source
from operators.explain.scripted import explain_script, is_script
from operators.explain.telling import Telling, moment_text, telling
from operators.printing import printable
from operators.shared import first_difference, replay

NEEDS = "nothing"

COLUMNS = 118
# By so many octets a script is told from a capture.
BEGINNING = 16


def piece(text):
    """The seconds of a piece, from a text."""
    seconds = float(text)
    if not 1 <= seconds <= 10**6:
        raise argparse.ArgumentTypeError("a piece has a second or more, and a million at most")
    return seconds


def options(parser):
    parser.add_argument("capture", metavar="CAPTURE", help="a pcap or pcapng file, or - for standard input")
    parser.add_argument(
        "--of", metavar="MEMBER", help="tell of this member alone: its number, its address, or an SSRC of it"
    )
    parser.add_argument(
        "--between", nargs=2, type=float, metavar=("A", "B"), help="tell of these seconds of the capture alone"
    )
    parser.add_argument(
        "--each",
        type=piece,
        metavar="SECONDS",
        help="explain pieces of so many seconds, as is done by itself "
        f"where a capture has over {LONG // 10**9} s, or {MANY:,} datagrams ({USUAL})",
    )
    parser.add_argument(
        "--script",
        metavar="FILE",
        help="write the script to a file, or with - to standard output, and tell nothing else",
    )
    parser.add_argument(
        "--udp", metavar="ADDRESS", help="the bridge's `udp`, as an address or a port, where there are several"
    )
    parser.add_argument("--tcp", metavar="ADDRESS", help="the bridge's `tcp`, as an address or a port")
    parser.add_argument(
        "--desk",
        metavar="FILE",
        help="the desk when the capture began: the lines of `show`, `groups`, `history`, `calls`, of "
        "`tools/bridge keep`, or a trace",
    )
    parser.add_argument("--program", metavar="PROGRAM", help="compare the models' answers with those of this program")


@contextlib.contextmanager
def opened(name):
    """The octets of a capture."""
    if name == "-":
        yield sys.stdin.buffer
        return
    with open(name, "rb") as stream:
        yield stream


def compared(run, program):
    """Whether the program answers the script as the models do."""
    if not run.is_script:
        print("the capture has a time of which nothing is known: its script isn't compared with the program")
        return True
    script = [(line, [] if line.startswith("#") else list(done.said)) for line, done in zip(run.script(), run.done)]
    count = first_difference(script, replay([line for line, _ in script], program))
    if count is not None:
        print(f"the program answers the script as the models do: {count:,} lines")
    return count is not None


def moments(wire, between):
    """Two moments of a capture, by its seconds."""
    a, b = between or (0, (wire.end - wire.begin) / 1e9 + 1)
    return wire.begin + int(a * 1e9), wire.begin + int(b * 1e9)


def folded(line):
    """A line in as many as its columns take, but for one that has an empty line before it."""
    indent = " " * (len(line) - len(line.lstrip(" ")) + 4)
    return (
        line
        if line.startswith("\n")
        else textwrap.fill(line, COLUMNS, subsequent_indent=indent, replace_whitespace=False)
    )


def write_script(run, name):
    """Writes the script of a run."""
    text = "".join(f"{line}\n" for line in run.script())
    if name == "-":
        sys.stdout.write(text)
    else:
        pathlib.Path(name).write_text(text)


def tell_pieces(args, source, given):
    """Tells of each piece of a capture. The exit status."""
    seconds, is_same, is_known, pieces = args.each or USUAL, True, True, 0
    for it, between in Pieces(source, seconds, args.udp, args.tcp, given).all():
        if not pieces:
            print(f"{args.capture}: explained by pieces of {seconds:g} s, from {moment_text(it.wire.zero)} on")
            print(folded(printable(f"bridge: udp {it.wire.udp or 'not in it'}, tcp {it.wire.tcp or 'not in it'}")))
        one = Telling(it, args.of, between)
        for line in one.piece():
            print(folded(printable(line)), flush=True)
        pieces, is_known = pieces + 1, is_known and it.run is not None
        is_same = is_same and not (it.run and one.differing())
    if not pieces:
        raise BadCapture("no datagram and no operator's line of a bridge is in it")
    return 0 if is_same and is_known else 1


def is_long(args, source):
    """Whether a capture is explained by pieces: where that is asked for, or it is too long for one."""
    if args.each or args.script or args.program or args.between:
        return bool(args.each)
    first = source.next_from(0)
    if first is None:
        return False
    source.read_until(first + LONG)
    moments = source.moments()
    return max(moments) >= first + LONG or len(moments) >= MANY


def run(args):
    try:
        given = given_by(pathlib.Path(args.desk).read_text(errors="replace")) if args.desk else None
        with opened(args.capture) as stream:
            if is_script(stream.peek(BEGINNING)):
                it = explain_script(stream.read().decode("latin-1"))
            else:
                source = Source(stream)
                if is_long(args, source):
                    return tell_pieces(args, source, given)
                it = explain_wire(source.whole().wire(args.udp, args.tcp), given)
    except (BadCapture, OSError) as why:
        print(f"tools/bridge explain: {args.capture}: {why}", file=sys.stderr)
        return 2
    if args.script:
        if not it.run:
            print(f"tools/bridge explain: {args.capture}: without the desk there is no script", file=sys.stderr)
            return 2
        write_script(it.run, args.script)
        return 0
    for line in telling(it, args.capture, args.of, moments(it.wire, args.between)):
        print(folded(printable(line)))
    is_same = not (args.program and it.run) or compared(it.run, args.program)
    return 0 if is_same and it.run and not it.run.cursor.found else 1
