"""The copy of what all agents know. A watch of etcd keeps it up to date: nobody reads what hasn't changed."""

import threading
import time

from etcd import ANY, GONE
from known import FLEET, Known, gone
from refused import Refused

# After how many seconds the copy is read anew where the watch has ended; and after how many times what an answer may
# take, where it doesn't tell of the agent's own change.
PAUSE, UNTOLD = 0.2, 2.5


class Copy:
    """`known` at this moment. Who reads more than one thing of it has `lock`.

    `heard` are called with each key that has changed, and with None where all is read anew.
    """

    def __init__(self, store):
        self.store, self.known, self.lock = store, Known(), threading.Condition(threading.RLock())
        self.is_current, self.heard, self.stream, self.closed = False, [], None, threading.Event()
        # Up to which revision all is known; that of the agent's own last change, and since when it is waited for. The
        # revisions at which it has removed keys.
        self.revision, self.own, self.waits, self.removed = 0, 0, None, {}
        # Why there is no watch, and how often all was read.
        self.trouble, self.reads = "", 0

    def run(self):
        while not self.closed.is_set():
            try:
                self.follow()
            except (OSError, Refused) as why:
                self.trouble = str(why)
            with self.lock:
                self.is_current = False
            self.closed.wait(PAUSE)

    def follow(self):
        """Reads all, and takes what changes from there on until the watch ends."""
        values, revision = self.store.read_at(FLEET)
        with self.lock:
            self.known, self.revision, self.removed = Known(values), revision, {}
            self.own, self.waits, self.reads = 0, None, self.reads + 1
        for changes in self.store.watched(FLEET, revision + 1, self.begins):
            if not self.is_current:
                with self.lock:
                    self.is_current, self.trouble = True, ""
                    self.lock.notify_all()
                self.tell([None])
            self.takes(changes)

    def begins(self, stream):
        self.stream = stream

    def takes(self, changes):
        """Takes what the watch says. The agent knows its own changes already."""
        fresh = []
        with self.lock:
            for key, value, revision in changes:
                self.revision = max(self.revision, revision)
                if revision > max(self.known.revisions.get(key, 0), self.removed.get(key, 0)):
                    self.known.put(key, value, revision)
                    fresh.append(key)
                if revision >= self.removed.get(key, revision):
                    self.removed.pop(key, None)
            if self.revision >= self.own:
                self.waits = None
            self.lock.notify_all()
        self.tell(fresh)

    def tell(self, keys):
        for key in keys:
            for one in self.heard:
                one(key)

    def current(self, seconds=0.0):
        """What is known now. Where the watch has ended, it is waited for."""
        with self.lock:
            if self.waits and time.monotonic() - self.waits > UNTOLD * self.store.patience:
                self.ends()
            if not self.lock.wait_for(lambda: self.is_current, seconds):
                raise Refused(GONE)
            return self.known

    def until(self, condition, seconds):
        """Waits until something holds of what is known. Whether it does."""
        with self.lock:
            return bool(self.lock.wait_for(lambda: self.is_current and condition(self.known), seconds))

    def ends(self):
        """Ends a watch that says nothing. All is read anew then."""
        self.waits, self.is_current = None, False
        if self.stream:
            try:
                self.stream.shutdown(2)
            except OSError:
                pass

    # Changes

    def swap(self, changes, lease=None, only_if=()):
        """Changes etcd, as `swap` of that does, and what is known here."""
        revision = self.store.swap(changes, lease, only_if)
        if revision:
            self.made([(key[len(FLEET) :], value) for key, value, _ in changes if key.startswith(FLEET)], revision)
        return revision

    def made(self, changes, revision):
        fresh = []
        with self.lock:
            for key, value in changes:
                if revision > self.known.revisions.get(key, 0):
                    self.known.put(key, value, revision)
                    fresh.append(key)
                    if value is None:
                        self.removed[key] = revision
            if changes and revision > self.revision:
                self.own, self.waits = max(self.own, revision), self.waits or time.monotonic()
            self.lock.notify_all()
        self.tell(fresh)

    def put_room(self, room, record, revision, *others):
        """Changes a room, if it has this revision, and other keys with it. The revision of that, or 0."""
        return self.swap([(f"{FLEET}rooms/{room}", record, revision), *others])

    def end_room(self, room, revision):
        return self.put_room(room, None, revision, *gone(room))

    def put_rooms(self, records, revisions, only_if=()):
        """Changes rooms, if each has its revision and other keys have theirs. The revision of that, or 0."""
        changes = [(f"{FLEET}rooms/{room}", record, revisions[room]) for room, record in records.items()]
        return self.swap(changes, None, only_if)

    def put(self, key, value, lease=None):
        """Changes any other key of the fleet's."""
        return self.swap([(f"{FLEET}{key}", value, ANY)], lease)
