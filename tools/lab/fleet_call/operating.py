"""Operators of a large fleet: they mute members at the desks of the models, and look whether that has travelled."""

import contextlib
import random
import socket
import threading

from operators.serving import Operator

# How many calls of a desk are looked at, and how many seconds an answer may take.
HISTORY, PATIENCE = 4096, 300


def desk_at(tcp):
    return Operator(socket.create_connection(("127.0.0.1", tcp), PATIENCE))


class Operating(threading.Thread):
    """It mutes one source after another, at a pace of the simulation's clock. `done` has the moments by that, with the
    rooms and the sources."""

    def __init__(self, clock, machines, pace, seconds):
        super().__init__(daemon=True)
        self.clock, self.machines, self.pace, self.count = clock, machines, pace, int(pace * seconds)
        self.drawn, self.begun, self.desks, self.done = random.Random(93), clock.now(), {}, []

    def run(self):
        for at in range(self.count):
            due = self.begun + at / self.pace
            if due > self.clock.now():
                self.clock.sleep(due - self.clock.now())
            running = [tcp for one in self.machines if one.runs() for tcp, _ in one.bridges.values()]
            # A machine may be killed in this moment.
            with contextlib.suppress(OSError, ValueError, IndexError):
                self.mute(self.drawn.choice(running))

    def mute(self, tcp):
        desk = self.desks[tcp] = self.desks.get(tcp) or desk_at(tcp)
        try:
            rows = [row.split(" ") for row in desk.shown()]
            rooms, muted = {row[2]: int(row[3]) for row in rows if row[0] == "member"}, [row[1:] for row in rows]
            free = [row for row in rows if row[0] == "source" and [row[1]] not in muted]
            _, ssrc, member, _ = self.drawn.choice(free)
            if desk.ask(f"mute {ssrc}").startswith("ok "):
                self.done.append((self.clock.now(), rooms[member], ssrc))
        except OSError:
            del self.desks[tcp]
            raise

    def lost(self, before, rooms, tcp_of):
        """Of the mutes in some rooms before a moment: how many there were, and those that are no calls of their own
        where the rooms are now. `tcp_of` has the desks by their rooms."""
        made = [(room, ssrc) for moment, room, ssrc in self.done if moment < before and room in rooms]
        calls = {}
        for tcp in {tcp_of[room] for room, _ in made}:
            calls[tcp] = {line.split(" ", 2)[2] for line in desk_at(tcp).shown(f"history {HISTORY}")[:-1]}
        return len(made), [one for one in made if f"mute {one[1]}" not in calls[tcp_of[one[0]]]]
