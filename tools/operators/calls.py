"""Prints who called what at a bridge, and when.

    tools/bridge calls 127.0.0.1:7000

Without --follow these are the last calls of the log. With it they are those from now on, for as long as it runs: it
holds a seat, and where the bridge is gone or busy it asks again each second. Once that answers, also a bridge that was
started anew, it tells what was accepted meanwhile, up to the last 1000 calls. Each call is a line such as

    2025-11-28T20:00:04.870 call 2 seat 1 ann: mute 201

The moment is in the time of this machine. A name is what an operator said by `as`, and nobody checks it. Without
--follow the status is 2 where the bridge is gone or busy.
"""

import contextlib
import datetime
import re
import socket
import sys
import time

from operators.printing import printable

NEEDS = "a bridge that runs"

# How many seconds a bridge may take for an answer, and after how many one that is gone is asked again. How many octets
# a line of it has at most: more are no bridge's.
PATIENCE, AGAIN, MOST_OCTETS = 30, 1, 5000
# A line of a call: its number, its moment, its seat, the name, its words. A moment ends before the year 2600.
CALL = re.compile(r"call ([0-9]{1,20}) ([0-9]{1,14}) ([0-9]{1,2}) (\S+) (.+)", re.ASCII)
# So many of the last calls are asked for where some may have been accepted while nobody followed.
MEANWHILE = 1000


class Trouble(Exception):
    """What a person is told."""


def options(parser):
    parser.add_argument("address", metavar="ADDRESS", help="the bridge's `tcp`, as an address or a port of 127.0.0.1")
    parser.add_argument("--last", type=int, default=20, metavar="COUNT", help="how many calls (%(default)s)")
    parser.add_argument("--follow", action="store_true", help="print the calls from now on")


def place_of(text):
    """The address that a text is."""
    host, _, port = text.rpartition(":")
    if not port.isdigit() or int(port) > 65535:
        raise Trouble(f"{text} is no address such as 127.0.0.1:7000")
    return host or "127.0.0.1", int(port)


def numbers_of(line):
    """The number and the moment, in milliseconds since 1970, of a line `call NO MOMENT OP NAME CALL`."""
    found = CALL.fullmatch(line)
    if not found:
        raise Trouble(f"the bridge answers `{line}`: it is an older one, or none")
    return int(found[1]), int(found[2])


def in_words(line):
    """A line `call NO MOMENT OP NAME CALL` in words."""
    (number, moment), (seat, name, call) = numbers_of(line), CALL.fullmatch(line).groups()[2:]
    when = datetime.datetime.fromtimestamp(moment / 1000).isoformat(timespec="milliseconds")
    who = f"seat {seat}" if name == "-" else f"seat {seat} {name}"
    return f"{when} call {number} {who}: {call}"


def octets_of(place, text, patience):
    """The lines that a bridge answers to a text, with their ends, until it ends the connection."""
    try:
        with socket.create_connection(place, PATIENCE) as connection:
            connection.settimeout(patience)
            connection.sendall(text.encode())
            with connection.makefile("rb") as answers:
                while line := answers.readline(MOST_OCTETS):
                    yield line
    except OSError as error:
        raise Trouble(f"the bridge is gone: {error}") from error


def lines_of(place, text, patience):
    """The same as texts. With no patience the bridge may take forever."""
    for line in octets_of(place, text, patience):
        if line == b"busy\n":
            raise Trouble("all seats of the bridge are taken")
        if not line.endswith(b"\n"):
            raise Trouble("what is told is no line of a bridge")
        yield printable(line[:-1].decode("latin-1"))


def last(place, count):
    """Prints the last calls."""
    for line in lines_of(place, f"calls {count}\nquit\n", PATIENCE):
        if line.startswith("end "):
            return
        print(in_words(line))
    raise Trouble("the bridge ended its answer before the last call: ask for fewer")


def followed(place, since):
    """The calls that were accepted since a moment, and then those from now on, as far as a connection lasts: lines, but
    for a number first, from which on it follows."""
    version, last = None, 0
    for line in lines_of(place, f"watch names\ncalls {MEANWHILE}\n", None):
        if not line.startswith("end "):
            number, moment = numbers_of(line)
            # A call may stand in both answers.
            if number > last or number <= version and moment > since:
                last = max(last, number)
                yield line
        elif version is None:
            version = last = int(line[4:])
            yield version


def follow(place):
    """Prints the calls from now on."""
    said, since = None, time.time_ns() // 10**6
    while True:
        why = "the bridge is gone"
        try:
            for one in followed(place, since):
                said = None
                if isinstance(one, int):
                    print(f"following from call {one} on", flush=True)
                else:
                    print(in_words(one), flush=True)
                    since = max(since, numbers_of(one)[1])
        except Trouble as trouble:
            why = str(trouble)
        # Once for each time, so that a journal isn't filled.
        if why != said:
            print(f"tools/bridge calls: {why}", file=sys.stderr, flush=True)
            said = why
        time.sleep(AGAIN)


def run(args):
    try:
        place = place_of(args.address)
        if not 0 <= args.last < 2**64:
            raise Trouble(f"{args.last} is no number of calls")
        with contextlib.suppress(KeyboardInterrupt, BrokenPipeError):
            return follow(place) if args.follow else last(place, args.last)
        return 0
    except (Trouble, OSError) as trouble:
        print(f"tools/bridge calls: {printable(str(trouble))}", file=sys.stderr)
        return 2
