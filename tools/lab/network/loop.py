"""Work that is due at moments, and sockets that are read."""

import heapq
import itertools
import select
import time


class Loop:
    """Does what is due, in one thread. It knows how late it was at worst."""

    def __init__(self):
        self.due, self.numbers, self.readers, self.latest = [], itertools.count(), {}, 0.0

    def at(self, moment, does, *given):
        """Does something at a moment."""
        heapq.heappush(self.due, (moment, next(self.numbers), does, given))

    def reads(self, one, does):
        """Does something with each datagram that comes to a socket."""
        one.setblocking(False)
        self.readers[one] = does

    def do_due(self):
        while self.due and self.due[0][0] <= time.monotonic():
            moment, _, does, given = heapq.heappop(self.due)
            self.latest = max(self.latest, time.monotonic() - moment)
            does(*given)

    def read(self, seconds):
        for one in select.select(self.readers, [], [], seconds)[0]:
            try:
                while True:
                    self.readers[one](one.recv(65536))
            except (BlockingIOError, ConnectionRefusedError):
                pass

    def run(self, until, is_done=lambda: False):
        """Goes on until a moment, or until something is so."""
        while time.monotonic() < until and not is_done():
            self.do_due()
            following = min(until, self.due[0][0]) if self.due else until
            self.read(min(0.05, max(0.0, following - time.monotonic())))
