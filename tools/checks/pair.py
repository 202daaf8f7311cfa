"""Two members of a bridge who talk with each other, and what each hears."""

import threading
import time

from operators.packets import has_no_gap, is_rtp_of, rtp
from operators.serving import come_to, port_of, udp_socket

ROOM = 60


class Pair(threading.Thread):
    """Two members of a room of their own. Each sends a packet every 20 ms."""

    def __init__(self, first=1001):
        super().__init__(daemon=True)
        self.first, self.sockets, self.is_done = first, (udp_socket(), udp_socket()), threading.Event()
        self.heard, self.to, self.sent = [[], []], None, 0

    def lines(self):
        """The commands that put them into their room."""
        yield f"add-room {ROOM}"
        for number, one in enumerate(self.sockets):
            member, ssrc = self.first + number, 1001 + number
            yield f"add-member {member} {ROOM} 127.0.0.1:{port_of(one)} pcmu {8001 + number} 0 0"
            yield f"add-source {ssrc} {member} audio"

    def begin(self, port):
        """Has them talk over the bridge at this port."""
        self.to = ("127.0.0.1", port)
        self.start()

    def run(self):
        at, begun = 0, time.monotonic()
        while not self.is_done.wait(0.005):
            # By the clock, or the bridge drops what comes as late.
            while time.monotonic() - begun >= 0.02 * at:
                for number, one in enumerate(self.sockets):
                    one.sendto(rtp(at, 160 * at, 1001 + number, bytes([0x90 + number]) * 160, pt=0), self.to)
                at += 1
            for number, one in enumerate(self.sockets):
                one.setblocking(False)
                self.heard[number] += come_to(one)
        self.sent = at

    def wait_until_heard(self):
        """Waits until each has heard something, a minute at most."""
        end = time.monotonic() + 60
        while min(map(len, self.heard)) < 10 and time.monotonic() < end:
            time.sleep(0.01)

    def end(self):
        """Ends the talk. How many packets each heard, or None where one heard a gap or next to nothing."""
        self.is_done.set()
        self.join()
        for one in self.sockets:
            one.close()
        streams = [[it for it in heard if is_rtp_of(it, 8001 + at)] for at, heard in enumerate(self.heard)]
        return [len(stream) for stream in streams] if all(has_no_gap(stream) for stream in streams) else None
