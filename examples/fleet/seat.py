"""The seat of an agent at a bridge's desk: what it asks, and what the bridge tells of each call, whoever made it."""

import collections
import contextlib
import itertools
import select
import socket
import threading
import time

from desk import BUSY, GONE, Desk
from refused import Refused

# How many octets are taken at once. How many calls are remembered: those that wait to be looked at, and the numbers of
# the agent's own. How many are asked for at once: a bridge closes a connection on which over 4 MB wait. And how many are
# made again at once.
OCTETS, FRESH, OWN, ASKED, LOT = 65536, 1024, 16384, 512, 16
# The name of its connections. And the one that operators' calls have where an agent makes them again: the page takes
# them for a person's, so that its Undo takes them back.
NAME, ELSEWHERE = "agent-fleet", "elsewhere"
# How a program's name begins.
PROGRAM = "agent-"
# How many seconds a bridge has for an answer, where the settings don't say: after that it is taken for one that is gone.
ANSWERS = 10
# The most milliseconds of a lease. After how many seconds its answer is late, so that it is given anew, and how often.
MOST_MS, LATE, TURNS = 2**32 - 1, 0.1, 2
# How a bridge answers a call of another name than the lease's, once that has ended; and one before leases to a lease.
CLOSED, OLDER = " 27 Closed", "fault 1 3 UnknownWord"


class Call(collections.namedtuple("Call", "number moment operator name words")):
    """A call, as `calls` has it. Its moment is in milliseconds since 1970."""

    def is_persons(self):
        """Whether a person has made it here, and not a program."""
        return not self.name.startswith(PROGRAM) and self.name != ELSEWHERE

    def who(self):
        """Its number and who has made it, in words."""
        return f"call {self.number} of operator {self.operator}{'' if self.name == '-' else f' ({self.name})'}"


def is_end(line):
    return line.startswith("end ")


class Seat(Desk):
    """It connects where it has to. Then `is_new` says so, since the bridge may be another one."""

    def __init__(self, address, seconds=ANSWERS):
        self.seconds = seconds
        self.address, self.lock, self.stream, self.octets, self.is_new = address, threading.Lock(), None, b"", False
        # The number of the last call that was told. All that nobody has looked at yet: their numbers, operators and
        # words. And the numbers of those that the agent made itself.
        self.told, self.fresh, self.own = 0, collections.deque(maxlen=FRESH), set()
        # Says until when others' calls are certainly kept, by this process's clock; how many milliseconds that was when
        # the desk got a lease, and what it answered.
        self.until, self.given, self.leased = None, 0, ""
        # What wakes who waits for a call.
        self.bell, self.rope = socket.socketpair()
        self.bell.setblocking(False)
        self.rope.setblocking(False)

    @contextlib.contextmanager
    def held(self):
        """The connection, for one alone. It is closed where the bridge doesn't answer."""
        with self.lock:
            try:
                yield
            except OSError as why:
                self.close()
                raise Refused(BUSY if str(why) == "busy" else GONE) from why

    def ask(self, line, is_last=lambda said: True, count=1):
        with self.held():
            if self.stream is None:
                self.connect()
            said = self.asked(line, is_last, count)
            self.own |= {int(one[3:]) for one in said if one.startswith("ok ")}
            if len(self.own) > OWN:
                self.own = {*sorted(self.own)[OWN // 2 :]}
            return said

    def ask_again(self, calls):
        """What the bridge answers to calls that operators made elsewhere, up to one at which the desk is closed: they have
        another name than the lease. Where a slow bridge takes longer for some than that lasts, it goes on."""
        found, some = [], True
        while some and len(found) < len(calls):
            lines = [f"as {ELSEWHERE}", *calls[len(found) :][:LOT], f"as {NAME}"]
            self.lease()
            said = self.ask("\n".join(lines), count=len(lines))[1:-1]
            some = [*itertools.takewhile(lambda one: not one.endswith(CLOSED), said)]
            found += some
            if not all(one.endswith(CLOSED) for one in said[len(some) :]):
                # Somebody has opened it meanwhile: the calls aren't in their order.
                break
        return found

    def lease(self):
        """Has the desk take others' calls for as long as they are certainly kept. A new connection begins with that."""
        with self.held():
            if self.stream is None:
                self.connect()
            else:
                self.give()

    def give(self):
        """Gives the desk the lease, again where the answer is late: the bridge has counted from a later moment on."""
        for _ in range(TURNS):
            now = time.monotonic()
            self.given = max(0, min(MOST_MS, int(1000 * (self.until() - now))))
            (self.leased,) = self.asked(f"lease {self.given}", lambda said: True, 1)
            if time.monotonic() - now < LATE:
                break

    def is_older(self):
        """Whether the bridge knows no leases."""
        return self.leased == OLDER

    def version(self):
        """How many calls there were."""
        return int(self.ask("history 0", is_end)[-1][4:])

    def calls_after(self, version):
        """What was called since a version, the last ones of very many."""
        now, asked = self.version(), -1
        while asked < min(now - version, ASKED):
            asked = min(now - version, ASKED)
            *lines, end = self.ask(f"calls {asked}", is_end)
            now = int(end[4:])
        found = [line.split(" ", 5) for line in lines]
        calls = [Call(int(number), int(when), int(operator), *more) for _, number, when, operator, *more in found]
        return [one for one in calls if one.number > version]

    def connect(self):
        self.stream, self.octets = socket.create_connection(self.address, self.seconds), b""
        # The page's Undo leaves what a program of such a name did.
        self.asked(f"as {NAME}", lambda said: True, 1)
        if self.until:
            self.give()
        self.told, self.is_new = int(self.asked("watch", lambda said: True, 1)[0][4:] or 0), True
        self.fresh.clear()
        if self.told < max(self.own, default=0):
            # It is another bridge.
            self.own.clear()

    def asked(self, line, is_last, count):
        self.stream.sendall(f"{line}\n".encode())
        answer = []
        while len(answer) < count or not is_last(answer[-1]):
            if b"\n" not in self.octets:
                self.take(self.stream.recv(OCTETS))
                continue
            said = self.line()
            if said in ("", "busy"):
                raise OSError(said)
            if not self.is_call(said):
                answer.append(said)
        return answer

    def take(self, octets):
        if not octets:
            raise OSError("closed")
        self.octets += octets

    def line(self):
        line, _, self.octets = self.octets.partition(b"\n")
        return line.decode("ascii", "backslashreplace").strip()

    def is_call(self, line):
        """Whether a line tells of a call. Those of an answer to `calls` have a further number."""
        word, *more = line.split(" ", 3)
        if word != "call" or len(more) != 3 or not (more[0] + more[1]).isdigit() or more[2][:1].isdigit():
            return False
        self.told = max(self.told, int(more[0]))
        self.fresh.append((int(more[0]), int(more[1]), more[2]))
        return True

    def taken(self, after, version):
        """The calls of others after one version up to another one. None where some of them haven't been told."""
        told = {one[0]: one for one in self.fresh}
        if self.is_new or any(one not in told and one not in self.own for one in range(after + 1, version + 1)):
            return None
        while self.fresh and self.fresh[0][0] <= version:
            self.fresh.popleft()
        return [one for one in told.values() if after < one[0] <= version and one[0] not in self.own]

    def hears(self):
        """Takes what the bridge has told meanwhile."""
        with self.lock:
            while self.stream and select.select([self.stream], [], [], 0)[0]:
                try:
                    self.take(self.stream.recv(OCTETS))
                except OSError:
                    self.close()
                while b"\n" in self.octets:
                    self.is_call(self.line())

    def close(self):
        # A connection that is left open would keep its seat.
        if self.stream:
            self.stream.close()
        self.stream, self.octets = None, b""

    def ring(self):
        """Wakes who waits."""
        with contextlib.suppress(BlockingIOError):
            self.rope.send(b"\0")

    def waits(self, seconds):
        """Waits until the bridge tells something, somebody rings, or so much time has passed."""
        with contextlib.suppress(OSError, ValueError):
            # Who asks takes an answer under the lock; that isn't waited for.
            select.select([self.bell, *([self.stream] if self.stream else [])], [], [], seconds)
        with contextlib.suppress(BlockingIOError):
            while self.bell.recv(OCTETS):
                pass
