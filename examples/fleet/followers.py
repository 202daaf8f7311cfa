"""Those who are told where a room is whenever that changes: server-sent events (of HTML), one connection each.

    data: {"room": 12, "bridge": "a", "udp": "10.0.0.5:5004", ..}    where it is now, and whenever that is another place
    data: {"room": 12, "bridge": null}                               it has ended
    :                                                                nothing has changed for a while

One thread tells all of them. Who doesn't take what is told is let go.
"""

import json
import queue
import socket
import threading
import time

# How many there may be, and after how many seconds one is told that nothing has changed.
MOST, STILL = 1024, 15
HEAD = (
    "HTTP/1.1 200 OK\r\nContent-Type: text/event-stream\r\nCache-Control: no-store\r\nConnection: close\r\n\r\n"
    "retry: 1000\n\n"
)


class Followers:
    """`place` says where a room is: what a follower is told, or None where nobody knows it in this moment."""

    def __init__(self, copy, place):
        self.copy, self.place, self.lock, self.keys = copy, place, threading.Lock(), queue.SimpleQueue()
        # The connections of each room, and what each was told last; None has those of all rooms.
        self.of, self.told = {}, {}
        copy.heard.append(self.keys.put)

    def fits(self):
        return len(self.told) < MOST

    def add(self, connection, room):
        """Takes a connection over, whose request is a room, or None for all."""
        connection.setblocking(False)
        with self.lock:
            self.told[connection] = {}
            self.of.setdefault(room, set()).add(connection)
        self.say(connection, room, HEAD)
        self.keys.put(f"rooms/{room}")

    def run(self):
        still = time.monotonic() + STILL
        while True:
            try:
                self.hear(self.keys.get(timeout=max(0.0, still - time.monotonic())))
            except queue.Empty:
                still = time.monotonic() + STILL
                for connection, room in self.all():
                    self.say(connection, room, ":\n\n")

    def all(self):
        with self.lock:
            return [(connection, room) for room, some in self.of.items() for connection in some]

    def hear(self, key):
        """Tells of what has changed by a key: a room, or where bridges are."""
        kind, _, name = (key or "").partition("/")
        if kind == "rooms" and name.isdigit():
            self.tell(int(name))
        elif kind in ("bridges", ""):
            with self.lock:
                rooms = {*self.of} - {None}
            for room in rooms:
                self.tell(room)

    def tell(self, room):
        with self.lock:
            some = [(connection, one) for one in (room, None) for connection in self.of.get(one, ())]
        place = self.place(room) if some else None
        if place is None:
            return
        for connection, one in some:
            told = self.told.get(connection)
            if told is not None and told.get(room) != place:
                told[room] = place
                self.say(connection, one, f"data: {json.dumps(place)}\n\n")

    def say(self, connection, room, text):
        try:
            # What fits no more is waited for by nobody.
            sent = connection.send(text.encode()) == len(text)
        except OSError:
            sent = False
        if not sent:
            self.drop(connection, room)

    def drop(self, connection, room):
        with self.lock:
            self.told.pop(connection, None)
            some = self.of.get(room, set())
            some.discard(connection)
            if not some:
                self.of.pop(room, None)
        try:
            connection.shutdown(socket.SHUT_RDWR)
        except OSError:
            pass
        connection.close()
