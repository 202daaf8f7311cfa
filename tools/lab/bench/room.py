"""A room whose members all send sound, for benches."""

import threading
import time

from checks.bridges import SOUND
from operators.packets import rtp


class Members(threading.Thread):
    """All members, who send a packet of sound every 20 ms: each sample of it is the one that `sample` gives for the
    member."""

    def __init__(self, port, sockets, sample):
        super().__init__(daemon=True)
        self.to, self.sockets, self.sample = ("127.0.0.1", port), sockets, sample
        self.is_done = threading.Event()
        self.start()

    def send(self, at):
        """Sends what is due at the nth tick."""
        for number, one in enumerate(self.sockets):
            one.sendto(rtp(at, 160 * at, SOUND + number, bytes([self.sample(number)]) * 160, pt=0), self.to)

    def run(self):
        at, due = 0, time.monotonic()
        while not self.is_done.is_set():
            self.send(at)
            at += 1
            due += 0.02
            time.sleep(max(0, due - time.monotonic()))

    def end(self):
        self.is_done.set()
        self.join()
