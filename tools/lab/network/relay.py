"""A relay between a sender and the bridge, which has the sender's address and does to datagrams what a path does."""

import dataclasses
import socket
import time

from checks.camera import VIDEO_PT, asked_numbers
from lab.network.path import Direction
from lab.network.seen import Seen
from operators.packets import is_rtcp, seq_of
from operators.serving import port_of

# Octets that the sockets of a relay hold while they wait for their turn.
HELD = 1 << 20


def roomy_socket(host="127.0.0.1"):
    """A UDP socket whose receive buffer holds what comes while a busy machine does something else."""
    one = socket.socket(socket.AF_INET, socket.SOCK_DGRAM)
    one.bind((host, 0))
    one.setsockopt(socket.SOL_SOCKET, socket.SO_RCVBUF, HELD)
    return one


@dataclasses.dataclass
class Octets:
    """What came to the bridge from the sender's address, and the control that the bridge sent there."""

    came: int = 0
    control: int = 0

    def __sub__(self, before):
        return Octets(self.came - before.came, self.control - before.control)


def is_picture(octets):
    """Whether a datagram is a packet of the picture."""
    return len(octets) >= 12 and octets[0] >> 6 == 2 and octets[1] & 127 == VIDEO_PT


class Relay:
    """A relay. A sender gives it datagrams, and is given the control that comes down.

    It knows what would be seen where its way ends, and how long the sender took to send again what it was asked for.
    """

    def __init__(self, loop, path, args, goal_of, host="127.0.0.1"):
        """A relay that sends each datagram to a goal, from an address of a host."""
        self.loop, self.goal_of, self.out, self.inner = loop, goal_of, roomy_socket(host), None
        self.up, self.down = Direction("up", path, args.seed), Direction("down", path, args.seed)
        self.octets, self.hears, self.hears_others = Octets(), lambda octets: None, lambda octets: None
        self.seen, self.is_at_once, self.asked, self.waits = Seen(args.buffer), args.at_once, {}, []
        loop.reads(self.out, self.takes_down)

    def serves(self, hearing):
        """Lets programs send to a port, which is returned, and hear control at another one."""
        self.inner = roomy_socket()
        self.hears = lambda octets: self.inner.sendto(octets, ("127.0.0.1", hearing))
        self.loop.reads(self.inner, self.takes_up)
        return port_of(self.inner)

    def begin(self, seconds):
        """From now on packets are lost. The moment, and what was sent before it."""
        now = time.monotonic()
        self.up.begin(now, seconds)
        self.down.begin(now, seconds)
        return now, dataclasses.replace(self.octets)

    def takes_up(self, octets):
        """Takes a datagram of the sender."""
        now = time.monotonic()
        waited = self.waited(octets, now)
        seconds = self.up.seconds(octets, now)
        if seconds is not None:
            self.loop.at(now + max(0.0, seconds - waited * self.is_at_once), self.gives_up, octets)

    def waited(self, octets, now):
        """How long the sender took to send a packet again since it was asked for it; none where it wasn't."""
        if not is_picture(octets) or seq_of(octets) not in self.asked:
            return 0.0
        self.waits.append(now - self.asked.pop(seq_of(octets)))
        return self.waits[-1]

    def gives_up(self, octets):
        self.octets.came += len(octets)
        if is_picture(octets):
            self.seen.takes(octets, time.monotonic())
        self.out.sendto(octets, self.goal_of(octets))

    def gives_down(self, octets):
        for seq in asked_numbers(octets)[0]:
            self.asked.setdefault(seq, time.monotonic())
        self.hears(octets)

    def takes_down(self, octets):
        """Takes a datagram of the bridge."""
        if len(octets) < 2 or not is_rtcp(octets):
            self.hears_others(octets)
            return
        now = time.monotonic()
        self.octets.control += len(octets)
        seconds = self.down.seconds(octets, now)
        if seconds is not None:
            self.loop.at(now + seconds, self.gives_down, octets)
