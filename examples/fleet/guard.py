"""The agent's lease at the desk of a bridge: while it lasts, the desk takes operators' calls.

It lasts for as long as is certain that the others know this agent, and the bridge counts it down. So a desk whose agent
has lost the others, stands still or has ended closes by itself. What the agent itself calls is always taken.
"""

import contextlib
import threading
import time

from keeping import log
from refused import Refused

# For how many seconds there is no lease before that is told: an agent that had no processor time renews it meanwhile.
# For how many an agent that begins has none; and the most seconds between two looks.
LATE, BEGINS, STILL = 0.5, 5, 1


class Guard:
    """That of a bridge."""

    def __init__(self, bridge, lease):
        self.bridge, self.lease, self.closed = bridge, lease, threading.Event()
        # The lease in etcd under which the agent knows which rooms are the bridge's. Set where the desk is to be told
        # another moment.
        self.known, self.due = None, threading.Event()
        # Whether it was told that the bridge is cut off, and that it knows no leases.
        self.is_cut, self.is_older = False, False
        bridge.desk.until = self.until
        lease.heard.append(self.due.set)

    def until(self):
        """Until when calls at the desk are certainly kept, by this process's clock: 0 where that isn't known."""
        return self.lease.until if self.known is not None and self.known == self.lease.id else 0.0

    def is_open(self):
        """Whether the desk takes calls of all operators."""
        return time.monotonic() < self.until()

    def run(self):
        while not self.closed.is_set():
            is_due, desk = self.due.is_set(), self.bridge.desk
            self.due.clear()
            # A desk that is closed already isn't closed again: somebody may have opened it by hand.
            if desk.stream is None or is_due and (self.until() or desk.given):
                with contextlib.suppress(Refused):
                    desk.lease()
            self.tell()
            self.due.wait(STILL)

    def opens(self, lease):
        """Under this lease in etcd the agent knows which rooms are the bridge's."""
        if self.known != lease:
            self.known = lease
            self.bridge.desk.lease()
        if self.is_cut and self.is_open():
            self.is_cut = False
            log(f"{self.bridge.name} is back: {self.bridge.left} of its rooms had gone elsewhere")
        self.bridge.left = self.bridge.left if self.is_cut else 0

    def tell(self):
        """Tells once that the bridge is cut off, and that it is older than leases."""
        name, desk = self.bridge.name, self.bridge.desk
        if desk.is_older() and not self.is_older:
            log(f"{name} knows no leases: while it is cut off its desk takes calls, which may be lost")
        self.is_older = desk.is_older()
        if desk.stream and not self.is_cut and self.lease.lost_for() > (BEGINS if self.known is None else LATE):
            self.is_cut = True
            log(f"{name} is cut off: its rooms may go elsewhere{'' if self.is_older else ', and its desk is closed'}")
