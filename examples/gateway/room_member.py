"""A member of a room that is a program of this machine: it listens or plays, sees or shows."""

import pathlib
import secrets
import select
import signal
import socket
import sys
import threading
import tomllib

from call import numbers
from desk import Desk, in_words
from places import SETTINGS
from sdp import PCMU, VP8

# Such members have these numbers, which no gateway's have.
FIRST, COUNT = 500_000_000, 400_000_000
# The payload types of RTCP where it comes to the port of RTP (RFC 5761 section 4), with the marker.
RTCP = range(192, 224)
# By which a program of this folder ends. Its main thread takes them, and no other one. A program that it starts has to
# be started before it blocks them: else they are blocked there, too.
ENDS = signal.SIGINT, signal.SIGTERM
# What a program's socket holds until it reads: a key frame comes at once.
HELD = 1 << 20


class RoomMember:
    """`name` is that of its connection, `settings` are those of the gateway. The member has a port, and SSRCs: of the mix
    and the slot that it gets, and of the voice and the camera that it sends. A program opens the port later."""

    def __init__(self, name, room, settings=None):
        bridge = tomllib.loads(pathlib.Path(settings or SETTINGS).read_text())["bridge"]
        self.bridge, (host, _, port) = bridge["udp"], bridge["tcp"].rpartition(":")
        self.desk, self.room, self.member = Desk((host, int(port)), name), room, FIRST + secrets.randbelow(COUNT)
        self.port = free_port()
        self.mix, self.slot, self.voice, self.camera = (secrets.randbits(32) for _ in range(4))

    def joins(self, speaks=False, shows=False, sees=False):
        """Makes it a member: one that speaks, shows a picture, or sees one, if it does."""
        group = [f"add-member {self.member} {self.room} 127.0.0.1:{self.port} pcmu {self.mix} {numbers()}"]
        group += [f"add-source {self.voice} {self.member} audio"] if speaks else []
        group += [f"add-source {self.camera} {self.member} video"] if shows else []
        # It follows no pin by itself, since it isn't a stage.
        group += [f"add-slot {self.slot} {self.member} 1 {numbers()}"] if sees else []
        refusal = self.desk.group(group)
        if refusal:
            sys.exit(in_words(refusal, group))

    def leaves(self):
        self.desk.group([f"remove-member {self.member}"])


class Wire(threading.Thread):
    """The one address of a member, for several programs. What comes goes to `goals`, ports by payload type, and RTCP to
    all of `control`. What programs send to `port` goes to the bridge."""

    def __init__(self, one, goals, control=()):
        super().__init__(daemon=True)
        host, _, port = one.bridge.rpartition(":")
        self.bridge, self.goals, self.control = (host, int(port)), goals, control
        self.outer, self.inner = bound(one.port), bound()
        self.port = self.inner.getsockname()[1]

    def run(self):
        signal.pthread_sigmask(signal.SIG_BLOCK, ENDS)
        while True:
            for one in select.select([self.outer, self.inner], [], [])[0]:
                octets, sender = one.recvfrom(65536)
                if one is self.inner:
                    self.outer.sendto(octets, self.bridge)
                elif sender == self.bridge and len(octets) > 1:
                    for port in self.control if octets[1] in RTCP else [self.goals.get(octets[1] & 127)]:
                        if port is not None:
                            self.inner.sendto(octets, ("127.0.0.1", port))


def bound(port=0):
    one = socket.socket(socket.AF_INET, socket.SOCK_DGRAM)
    one.setsockopt(socket.SOL_SOCKET, socket.SO_RCVBUF, HELD)
    one.bind(("127.0.0.1", port))
    return one


def free_port():
    with bound() as one:
        return one.getsockname()[1]


def is_taken(port):
    """Whether a program has opened a port."""
    try:
        bound(port).close()
    except OSError:
        return True
    return False


def description(ports):
    """A description of what comes to ports, by payload type, for a program that listens."""
    head = ["v=0", "o=- 1 1 IN IP4 127.0.0.1", "s=room", "c=IN IP4 127.0.0.1", "t=0 0"]
    lines = [f"m=audio {ports[PCMU]} RTP/AVP {PCMU}", "a=rtcp-mux", "a=recvonly"]
    if VP8 in ports:
        lines += [f"m=video {ports[VP8]} RTP/AVP {VP8}", f"a=rtpmap:{VP8} VP8/90000", "a=rtcp-mux", "a=recvonly"]
    return "\r\n".join([*head, *lines, ""])
