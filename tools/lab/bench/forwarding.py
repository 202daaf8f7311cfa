"""Janus beside the bridge in the load `fan`. load.c runs this on the socket of the fan's source:

python3 -m lab.bench.forwarding SOCKET PORT..

The first 16 ports are those of the receivers. It prints where Janus takes the picture and which process it is, and
keeps the path open until it is ended.
"""

import signal
import socket
import sys
import tempfile

from lab.network.janus import Janus
from lab.network.loop import Loop
from lab.network.streams import SLOT
from operators.serving import port_of

RECEIVERS = 16


class Source:
    """The fan's source. load.c sends its packets, and this its ICE checks."""

    def __init__(self, janus, number):
        self.janus, self.socket, self.hears_others = janus, socket.socket(fileno=number), None

    def takes_up(self, octets):
        self.socket.sendto(octets, self.janus.goal_of(octets))

    def hears(self, octets):
        self.hears_others(octets)


def main():
    signal.signal(signal.SIGTERM, lambda *_: sys.exit())
    number, *ports = map(int, sys.argv[1:])
    with tempfile.TemporaryDirectory() as folder:
        janus, loop = Janus(folder), Loop()
        try:
            source = Source(janus, number)
            loop.reads(source.socket, source.hears)
            receivers = {SLOT + at: port for at, port in enumerate(ports[:RECEIVERS])}
            janus.forwards(loop, source, port_of(source.socket), receivers)
            print(*janus.picture, janus.process.pid, flush=True)
            loop.run(float("inf"))
        finally:
            janus.close()


if __name__ == "__main__":
    main()
