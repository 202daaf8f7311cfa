"""The lease of an agent, which a thread of its own renews: by it others know that the agent runs."""

import threading
import time

from refused import Refused

# How many renewals may be unanswered at once, and how many times longer than any other question each may be.
MOST, TIMES = 5, 2.5


class Lease:
    """`begun` is called with each new lease. An answer that comes late is one: only etcd says that a lease is lost.
    `heard` are called where it lasts until another moment."""

    def __init__(self, store, lasts, begun, log):
        self.store, self.lasts, self.begun, self.log = store, lasts, begun, log
        self.id, self.until, self.asking, self.trouble, self.heard = None, time.monotonic(), [], "", []
        # `patient`: before this moment others may be as late as this agent was.
        self.patient, self.lost, self.closed = 0.0, threading.Event(), threading.Event()

    def is_good(self):
        """Whether it is certain that the others know this agent."""
        return time.monotonic() < self.until

    def lost_for(self):
        """For how many seconds others may not know that this agent runs."""
        return max(0.0, time.monotonic() - self.until)

    def run(self):
        while not self.closed.is_set():
            self.asking = [one for one in self.asking if one.is_alive()]
            if self.id is None:
                self.begins()
            elif len(self.asking) < MOST:
                one = threading.Thread(target=self.renews, args=(self.id, len(self.asking)), daemon=True)
                one.start()
                self.asking.append(one)
            self.lost.wait(self.lasts / 3)
            self.lost.clear()

    def begins(self):
        began = time.monotonic()
        try:
            lease = self.store.lease(self.lasts)
            self.begun(lease)
            self.id, self.until = lease, began + self.lasts
            self.tell()
            self.says("")
        except Refused as why:
            self.says(str(why))
        self.patient = time.monotonic() + self.lasts + 2

    def renews(self, lease, turn):
        began = time.monotonic()
        try:
            is_there = self.store.renew(lease, TIMES * self.store.patience, turn)
            if is_there:
                self.until = max(self.until, began + self.lasts)
            elif self.id == lease:
                # Other agents may have lost theirs as well.
                self.id, self.until = None, min(self.until, time.monotonic())
                self.lost.set()
            self.tell()
            self.says("")
        except Refused as why:
            self.patient = time.monotonic() + self.lasts + 2
            self.says(str(why))

    def tell(self):
        for one in self.heard:
            one()

    def says(self, trouble):
        """Tells once what is wrong."""
        if trouble != self.trouble:
            self.log(f"the lease: {trouble or 'all is well again'}")
        self.trouble = trouble
