"""The bridge in the middle of a call."""

import socket

from checks.filling import fill
from lab.network.ending import under
from lab.network.streams import AUDIO, MIX, PATIENCE, SLOT, VIDEO
from operators.serving import Operator, port_of, settings, started
from operators.shared import fail


def desk(sender, receiver):
    """The commands that put a sender and a receiver, whose ports are told, into a room."""
    return [
        "add-room 1",
        f"add-member 10 1 127.0.0.1:{sender} pcmu 9001 0 0",
        f"add-member 11 1 127.0.0.1:{receiver} pcmu {MIX} 0 0",
        f"add-source {VIDEO} 10 video",
        f"add-source {AUDIO} 10 audio",
        f"add-slot {SLOT} 11 0 0 0",
        f"subscribe {SLOT} {VIDEO}",
    ]


class Bridge:
    """A bridge that runs."""

    HOST = "127.0.0.1"

    def __init__(self, folder, program, lanes):
        self.process, udp, self.tcp = started(program, settings(folder, lanes=lanes), under())
        self.address = (self.HOST, udp)

    def goal_of(self, _):
        """Where a sender's datagram goes."""
        return self.address

    def joins(self, _, relay, receiver):
        """Puts the sender behind a relay and a receiver into a room."""
        receiver.asks_at = self.address
        with socket.create_connection((self.HOST, self.tcp), timeout=PATIENCE) as connection:
            operator = Operator(connection)
            fill(operator, desk(port_of(relay.out), port_of(receiver.socket)))
            operator.tell("quit")

    def close(self):
        if self.process.poll() is not None:
            fail(f"the bridge ended with status {self.process.returncode}")
        self.process.kill()
        self.process.wait()
        self.process.stderr.close()
