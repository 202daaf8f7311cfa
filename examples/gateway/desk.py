"""The desk of the bridge: the agent's seat, the desk's rows, and its refusals in words."""

import contextlib
import itertools
import socket
import threading

from refused import Refused

GONE = "The bridge doesn't answer. Try again in a minute."
BUSY = "The bridge is busy: all seats at its desk are taken. Ask its operators to leave one to the gateway."
SAME_SSRC = "Another member sends under your SSRC, a number that a program draws. Join again: yours draws a new one."
TAKEN = "Another member has the {0} that the gateway took for you. Join again: you get another one."
FULL = "The bridge is full: it has {1} {0} already. Try again when somebody has left."
MUSIC = "This room is for music at 44100 Hz. Browsers and phones can join a room for speech."
CLOSED = "This bridge takes no changes now: it has lost its fleet, and your room may be on another one. Try again soon."
REFUSALS = {"Exists": SAME_SSRC, "SsrcTaken": SAME_SSRC, "Full": FULL, "RateMismatch": MUSIC, "Closed": CLOSED}
# How many rooms a desk has at most (12 Full of docs/FORMATS.md), and the rate of a room for speech.
ROOMS, SPEECH = 64, 8000
# How many commands a group has at most, and how many octets a line.
MOST_COMMANDS, MOST_OCTETS = 64, 4096
# How many of the desk's last calls an agent looks through.
MANY, FEW = 4096, 500


def in_words(refusal, group=()):
    """A line `no AT NUMBER NAME ..` in words. Of a group of commands, the reason of that part counts."""
    words = refusal.replace("room-audio", "voices").split()
    is_group = words[3:4] == ["PartRefused"]
    name, *more = words[6:] if is_group else words[3:]
    part = group[int(words[4])].split() if is_group and group else []
    if part[:1] in (["add-member"], ["add-slot"]):
        # The numbers are the gateway's own, and none that a program of who calls has drawn.
        what = "number or the address" if name == "Exists" and part[0] == "add-member" else "SSRC"
        if name in ("Exists", "SsrcTaken"):
            return TAKEN.format(what)
    return REFUSALS[name].format(*more) if name in REFUSALS else f"The bridge refuses: {refusal}"


def is_closed(refusal):
    """Whether the desk takes no calls for now, as at a bridge that is cut off from its fleet."""
    return refusal is not None and refusal.split()[2:4] == ["27", "Closed"]


def line_of(commands):
    return "group " + " / ".join(commands)


def groups_of(commands):
    """The same commands in groups, as few as the desk takes them in."""
    groups = [[]]
    for command in commands:
        if len(groups[-1]) == MOST_COMMANDS or len(line_of([*groups[-1], command])) > MOST_OCTETS:
            groups.append([])
        groups[-1].append(command)
    return groups


class Rows:
    """The desk at one version. By default it is as nobody has read it yet. Of sources with video, `screens` are screens,
    and the others cameras."""

    def __init__(self, lines=("end -1",), screens=()):
        rows = [line.split() for line in lines]
        of = lambda kind: [row[1:] for row in rows if row[0] == kind]
        self.version = int(rows[-1][1])
        # The rate of each room: a row names it where it isn't that of speech.
        self.rooms = {int(row[0]): int([*row, SPEECH][1]) for row in of("room")}
        # The room of each member, and the SSRC of its mix; and who has each address.
        self.members = {int(row[1]): int(row[2]) for row in of("member")}
        self.mixes = {int(row[1]): int(row[5]) for row in of("member")}
        self.addresses = {row[3]: int(row[1]) for row in of("member")}
        # Whose a source is, and of what kind: "audio", "video" or "screen"; whose a slot is, and the how manieth.
        kind_of = lambda ssrc, kind: "screen" if int(ssrc) in screens else kind
        self.sources = {int(ssrc): (int(member), kind_of(ssrc, kind)) for ssrc, member, kind in of("source")}
        self.slots = {int(row[0]): (int(row[1]), int(row[2])) for row in of("slot")}
        self.subs = {int(slot): int(ssrc) for slot, ssrc in of("sub")}
        self.mutes = {int(ssrc) for ssrc, in of("mute")}
        self.gains = {(int(member), int(ssrc)): int(q8) for member, ssrc, q8 in of("gain")}
        self.pins = {int(room): int(ssrc) for room, ssrc in of("pin")}
        self.floors = {int(room): int(member) for room, member in of("floor")}


class Desk:
    """The agent's seat. It connects where it has to, and has a name that operators see (`calls`, `watch names`)."""

    def __init__(self, address, name="agent-gateway"):
        self.address, self.name, self.lock, self.lines = address, name, threading.Lock(), None
        # The sources that are screens. The desk has no word for that.
        self.screens = set()

    def ask(self, line, is_last=lambda said: True, count=1):
        """The lines that answer a line, up to the last one. Of several lines: so many answers."""
        with self.lock:
            try:
                if self.lines is None:
                    with socket.create_connection(self.address, 10) as stream:
                        self.lines = stream.makefile("rw", newline="\n")
                    # An older bridge knows no names. Its fault would end a connection whose first line that is.
                    self.answer("history 0", lambda said: said.startswith("end "))
                    self.answer(f"as {self.name}")
                return self.answer(line, is_last, count)
            except OSError as why:
                # A connection that is left open would keep its seat.
                with contextlib.suppress(OSError, AttributeError):
                    self.lines.close()
                self.lines = None
                raise Refused(BUSY if str(why) == "busy" else GONE) from why

    def answer(self, line, is_last=lambda said: True, count=1):
        self.lines.write(line + "\n")
        self.lines.flush()
        answer = []
        while len(answer) < count or not is_last(answer[-1]):
            answer.append(self.lines.readline().strip())
            if answer[-1] in ("", "busy"):
                raise OSError(answer[-1])
        return answer

    def history(self):
        """The last calls in force."""
        is_end = lambda said: said.startswith("end ")
        try:
            lines = self.ask(f"history {MANY}", is_end)
        except Refused:
            # The connection closes where these are over 4 million octets. So many are less, whatever they say.
            lines = self.ask(f"history {FEW}", is_end)
        return list(itertools.takewhile(lambda line: line != "undone", lines[:-1]))

    def rows(self):
        return Rows(self.ask("show", lambda said: said.startswith("end ")), self.screens)

    def version(self):
        return int(self.ask("history 0", lambda said: said.startswith("end "))[-1].split()[1])

    def levels(self):
        """How loud sources are (docs/FORMATS.md, Levels). None where the bridge is older than that."""
        lines = self.ask("levels", lambda said: said == "end" or said.startswith("fault "))
        return None if lines[-1].startswith("fault ") else lines[:-1]

    def stats(self):
        return self.ask("stats", lambda said: said == "end")[:-1]

    def strangers(self, address):
        """The SSRCs that come from an address and are of no source: how many packets of each."""
        rows = [line.split() for line in self.stats() if line.startswith(f"stranger {address} ")]
        return {int(row[2]): int(row[6]) for row in rows}

    def group(self, commands):
        """Gives commands as one change. The refusal, or None where it was accepted."""
        said = self.ask(line_of(commands))[0]
        return None if said.startswith("ok ") else said
