"""A bridge whose socket refuses datagrams, by a library in C that stands before `sendto`."""

import collections
import ctypes
import errno
import itertools

from checks.bridges import check
from checks.refusing import ANY, NONE, mapped
from operators.packets import is_rtcp, seq_of, ssrc_of

# A call after which the socket may be ready, and how often a lane tries a datagram before it gives it up.
UNREADY, MOST_TRIES = {errno.EAGAIN, errno.ENOBUFS}, 21
# What a bridge says at its end of a datagram that was refused.
CAUSES = {
    errno.EAGAIN: "the socket was not ready",
    errno.ENOBUFS: "the socket was not ready",
    errno.EPERM: "not permitted",
    errno.ECONNREFUSED: "connection refused",
}
FOREVER = 2**62


class Try(ctypes.Structure):
    """A call of `sendto`: `struct try` of unready.c."""

    _fields_ = [
        ("thread", ctypes.c_int32), ("error", ctypes.c_int32), ("port", ctypes.c_uint32), ("head", ctypes.c_uint8 * 12)
    ]

    def name(self):
        """Where a datagram went, and its first octets: of media its stream and number."""
        return self.port, bytes(self.head)


class Control(ctypes.Structure):
    """What the library is told and tells: `struct control` of unready.c."""

    _fields_ = [
        ("thread", ctypes.c_int32),
        ("error", ctypes.c_int32),
        ("before", ctypes.c_int64),
        ("left", ctypes.c_int64),
        ("each", ctypes.c_int64),
        ("count", ctypes.c_uint32),
        ("tries", Try * 65536),
    ]


class Wire:
    """The socket of a bridge: what is tried on it is listed, and some of that refused."""

    def __init__(self, folder):
        self.control, name = mapped(Control, folder)
        self.environment = {"CONFBRIDGE_UNREADY": name}
        self.release()

    def release(self):
        """Refuses nothing more."""
        self.control.thread = NONE

    def refuse(self, thread, error, before=0, count=FOREVER, each=0):
        """Refuses so many calls of a thread with media, behind so many that are let through. Of EACH calls the last one
        is let through."""
        self.count = count
        self.control.error, self.control.before, self.control.left, self.control.each = error, before, count, each
        self.control.thread = thread

    def has_begun(self):
        """Whether a call was refused."""
        return self.control.left < self.count

    def has_ended(self):
        """Whether all were refused that had to be."""
        return self.control.left <= 0

    def tries(self, thread):
        """The tries of a thread so far."""
        count = self.control.count
        check(count <= len(self.control.tries), f"the bridge tried {count} datagrams, more than the list holds")
        return [it for it in self.control.tries[:count] if thread in (ANY, it.thread)]


class Sent:
    """What a lane sent and what it didn't, by the tries of its thread.

    A try that found the socket not ready is followed by one of the same datagram, until it has been tried 21 times;
    behind a datagram that was given up so, the next ones are tried once, until one is taken. All else is tried once,
    and never again.
    """

    def __init__(self, tries, what):
        self.taken, self.unsent, self.streams, is_stuck = [], collections.Counter(), {}, False
        for name, them in itertools.groupby(tries, Try.name):
            errors = [it.error for it in them]
            last, most = errors[-1], 1 if is_stuck else MOST_TRIES
            check(UNREADY.issuperset(errors[:-1]), f"{what}: {name} is tried again behind {errors}")
            is_stuck = last in UNREADY
            check(
                len(errors) == most if is_stuck else len(errors) <= most,
                f"{what}: {name} is tried {len(errors)} times, {errors}",
            )
            if last:
                self.unsent[CAUSES[last]] += 1
            else:
                self.taken.append(name)
            port, head = name
            if not is_rtcp(head):
                self.streams.setdefault((port, ssrc_of(head)), []).append(seq_of(head))

    def check_numbers(self, what):
        """Each stream's numbers go on, also over what was not sent, and none comes twice."""
        for stream, numbers in self.streams.items():
            steps = {(b - a) % 65536 for a, b in itertools.pairwise(numbers)}
            check(steps <= {1}, f"{what}: the numbers of stream {stream} go on by {sorted(steps)}")

    def got_at(self, port):
        """What a member has to have got: the beginning of each datagram that was taken."""
        return [head for to, head in self.taken if to == port]
