"""The rooms that the agent has opened: for whom, and which of them have no members."""

import time

# After how many seconds without a member such a room ends.
EMPTY = 10


class OwnRooms:
    def __init__(self):
        # Who has opened each room, and since when those have had no member that have none.
        self.openers, self.empty = {}, {}

    def __contains__(self, room):
        return room in self.openers

    def add(self, room, source):
        self.openers[room] = source

    def discard(self, room):
        self.openers.pop(room, None)
        self.empty.pop(room, None)

    def of(self, source, rows):
        """How many rooms there are that a source has opened."""
        return sum(opener == source and room in rows.rooms for room, opener in self.openers.items())

    def over(self, rows):
        """The rooms of this desk that have had no member for so long that they end."""
        now, taken = time.monotonic(), set(rows.members.values())
        self.empty = {one: self.empty.get(one, now) for one in self.openers if one in rows.rooms and one not in taken}
        return [room for room, since in self.empty.items() if now - since > EMPTY]
