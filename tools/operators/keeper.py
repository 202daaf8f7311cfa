"""Keeps the desk of a bridge in a file all the time, and restores it once the bridge has started anew.

    tools/bridge keeper 127.0.0.1:7000 desk.txt

It holds a seat at the desk. Each minute it writes what `tools/bridge keep` prints beside FILE, and then moves it there,
so that FILE is always whole. A desk that nobody has changed yet gets the groups of FILE first. Where that fails, it
says why, moves FILE aside, and the desk stays empty. Where operators were faster, FILE moves aside, too, and their desk
is kept. While there is no bridge it looks for one each second. SIGTERM and SIGINT end it: it keeps the desk once more
before. What it does it says on standard error, and with status 4 that ADDRESS is none.
"""

import contextlib
import os
import pathlib
import re
import select
import signal
import sys
import time

from operators.keep import Seat, Trouble, text_of
from operators.keep import options as takes_address
from operators.restore import give, groups_in

NEEDS = "a bridge, a seat at its desk"

# How many seconds pass before a bridge is looked for again.
AGAIN = 1
VERSION = re.compile("# the desk of version ([0-9]+):")


def options(parser):
    takes_address(parser)
    parser.add_argument("file", metavar="FILE", type=pathlib.Path, help="where the desk is kept")
    parser.add_argument(
        "--every", type=float, default=60, metavar="SECONDS", help="how often the desk is kept (%(default)s)"
    )


class Keeper:
    """A file, and what was said last."""

    def __init__(self, path, every):
        self.path, self.every, self.said = path, every, None
        # The version of the desk that the file has, as far as this keeper wrote it.
        self.version = None
        self.is_ending, (self.wakes, self.woken) = False, os.pipe()

    def end(self, *_):
        """A signal: it ends once it has kept the desk."""
        self.is_ending = True
        os.write(self.woken, b".")

    def wait(self, seconds, *connections):
        """Waits for so long, until a signal comes, or a connection has ended."""
        select.select([self.wakes, *connections], [], [], 0 if self.is_ending else seconds)

    def say(self, text):
        """Says something, but not the same again and again."""
        if text != self.said:
            print(f"tools/bridge keeper: {text}", file=sys.stderr, flush=True)
        self.said = text

    def aside(self, why):
        """Moves the file aside. The name that it has then."""
        name = f"{self.path}.{why}-{time.strftime('%Y%m%d-%H%M%S', time.gmtime())}"
        os.replace(self.path, name)
        return name

    def kept_version(self):
        """The version of the desk that the file says, or 0."""
        with contextlib.suppress(OSError):
            found = VERSION.match(self.path.read_text(errors="replace"))
            return int(found[1]) if found else 0
        return 0

    def meet(self, seat):
        """Restores the desk of a bridge that has just started."""
        self.version = None
        rows, version = seat.rows()
        if not self.path.exists():
            self.say(f"{self.path} isn't there yet: there is nothing to restore")
        elif version == 0 and not rows:
            self.restore(seat)
        elif version < self.kept_version():
            self.say(f"its desk was changed before it could be restored: {self.path} is now {self.aside('before')}")

    def restore(self, seat):
        try:
            groups = groups_in(self.path)
            give(seat, groups)
        except Trouble as why:
            if why.status == 2:
                raise
            self.say(f"the desk isn't restored, and stays empty: {why}. {self.path} is now {self.aside('refused')}")
        else:
            self.say(f"{self.path}: {len(groups)} groups of it were accepted" if groups else f"{self.path} has no rows")

    def keep(self, seat):
        """Writes the desk, where it has changed."""
        if seat.version() == self.version:
            return
        groups, version = seat.groups()
        beside = self.path.with_name(f"{self.path.name}.new")
        try:
            with beside.open("w") as file:
                file.write(text_of(groups, version))
                file.flush()
                os.fsync(file.fileno())
            os.replace(beside, self.path)
        except OSError as why:
            self.say(f"the desk isn't kept: {beside}: {why.strerror}")
        else:
            self.version = version

    def stay(self, seat):
        """Keeps the desk of a bridge as long as that runs."""
        self.meet(seat)
        while True:
            self.keep(seat)
            if self.is_ending:
                return
            self.wait(self.every, seat.connection)

    def go(self, address):
        while not self.is_ending:
            try:
                with contextlib.closing(Seat(address)) as seat:
                    self.stay(seat)
            except Trouble as why:
                if why.status == 4:
                    self.say(str(why))
                    return 4
                self.say(f"{why}. It is looked for again each second")
                self.wait(AGAIN)
        return 0


def run(args):
    keeper = Keeper(args.file, args.every)
    for one in signal.SIGTERM, signal.SIGINT:
        signal.signal(one, keeper.end)
    return keeper.go(args.address)
