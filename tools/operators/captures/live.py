"""Frames as they pass an interface of this machine (Linux packet sockets, packet(7)). It takes leave: root, or
CAP_NET_RAW."""

import socket
import struct
import time

from operators.captures.files import Frame
from operators.captures.links import RAW
from operators.serving import with_room

ALL, OUTGOING = 0x0003, 4
# Names that Python lacks: the kernel's stamp of a datagram in nanoseconds, and counts of losses.
SO_TIMESTAMPNS, SOL_PACKET, PACKET_STATISTICS = 35, 263, 6
BUFFER = 1 << 24


def may_capture():
    """Whether this process may capture."""
    try:
        Live("lo").close()
    except (OSError, AttributeError):
        return False
    return True


class Live:
    """A capture of an interface, or of all. What comes while nobody reads waits in a buffer."""

    def __init__(self, interface=None):
        self.socket = socket.socket(socket.AF_PACKET, socket.SOCK_DGRAM, socket.htons(ALL))
        self.socket.setsockopt(socket.SOL_SOCKET, SO_TIMESTAMPNS, 1)
        with_room(self.socket, BUFFER)
        if interface:
            self.socket.bind((interface, ALL))
        self.is_open = True

    def close(self):
        self.is_open = False
        self.socket.close()

    def fileno(self):
        return self.socket.fileno()

    def frames(self, seconds=0.2):
        """The frames that come, and None where none came for so long."""
        self.socket.settimeout(seconds)
        while self.is_open:
            try:
                octets, extra, _, (name, _, kind, *_) = self.socket.recvmsg(65536, 64)
            except TimeoutError:
                yield None
                continue
            except OSError:
                return
            # On loopback each packet passes twice, first as it goes out.
            if name != "lo" or kind != OUTGOING:
                yield Frame(moment_in(extra), RAW, octets, len(octets))

    def lost(self):
        """How many packets came while the buffer was full, since the last question."""
        return struct.unpack("II", self.socket.getsockopt(SOL_PACKET, PACKET_STATISTICS, 8))[1]


def moment_in(extra):
    """The moment at which the kernel had a packet."""
    for level, kind, octets in extra:
        if (level, kind) == (socket.SOL_SOCKET, SO_TIMESTAMPNS):
            seconds, rest = struct.unpack("qq", octets[:16])
            return seconds * 10**9 + rest
    return time.time_ns()
