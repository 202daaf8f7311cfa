"""What etcd keeps of a fleet, how much of it, and how agents watch it."""

import itertools
import random
import threading

from checks.bridges import together
from lab.fleet_call.parts import EtcdPart, commands_of, groups_of, until

from agent import Agent  # noqa: E402
from bridge import Bridge  # noqa: E402
from copied import Copy  # noqa: E402
from etcd import ANY, Ended  # noqa: E402
from keeping import MOST_KEPT, MOST_OCTETS as MOST_AT_ONCE, portions  # noqa: E402
from kept import change_of, with_changes  # noqa: E402
from known import FLEET, NEW  # noqa: E402

# How many changes of a room there are, by how many at once, and how many octets of a database they may make.
CHANGES, WRITERS, MOST_OCTETS = 10_000, 10, 20_000_000
# The first of many rooms that are kept at once, and how many these are.
FIRST, MANY = 1000, 100
# By how many octets it may grow once old changes are forgotten.
MOST_MORE = 100_000


class Keeper:
    """A room of a bridge that isn't there, as an agent keeps it."""

    def __init__(self, store, room, rows):
        self.room, self.rows, self.copy = room, rows, Copy(store)
        self.bridge, self.agent = Bridge("a", {"tcp": "127.0.0.1:9"}), Agent.__new__(Agent)
        self.agent.copy = self.copy
        self.copy.put_room(room, NEW | {"on": "a"}, 0)

    def changes(self, turn):
        """An operator mutes and pins others."""
        mute, pin = f"mute {2001 + turn % 16}", f"pin {self.room} {3001 + turn // 3 % 16}"
        self.bridge.rooms, self.bridge.version = {self.room: [*self.rows, mute, pin]}, turn + 1
        self.agent.keep(self.bridge, {self.room: self.copy.known.rooms[self.room]})
        if self.room not in self.bridge.kept:
            raise ValueError(f"change {turn} of room {self.room} isn't kept")


class Memory:
    """What etcd keeps of a fleet, and how it is watched."""

    def __init__(self, check, folder, program):
        self.check, self.folder, self.etcd = check, folder, EtcdPart(folder)
        self.store = self.etcd.store
        # A machine may have little time for etcd.
        self.store.patience = 300

    def step_changes(self):
        """Changes of a room's rows, drawn by chance."""
        drawn, wrong = random.Random(92), []
        commands = ["add-room 5"]
        for number in range(300):
            after = [one for one in commands if one == "add-room 5" or drawn.random() < 0.8]
            for at in range(drawn.randrange(4)):
                after.insert(drawn.randrange(1, len(after) + 1), f"mute {1000 * number + at}")
            if with_changes(groups_of(commands), [change_of(commands, after)]) != groups_of(after):
                wrong.append((commands, after))
            commands = after
        self.check(not wrong, "300 changes, each put alone, make the rows that they were made of", wrong[:1])
        turned = change_of(["mute 1", "mute 2"], ["mute 2", "mute 1"])
        self.check(turned is None, "rows in another order are put whole", turned)

    def step_watch(self):
        """A copy whose watch ends, and one whose revision is compacted."""
        copy = Copy(self.store)
        threading.Thread(target=copy.run, daemon=True).start()
        self.comes(lambda: copy.is_current, "a copy is there")
        for room in range(50):
            self.store.put_room(room, NEW | {"on": "a"}, 0)
        self.comes(lambda: len(copy.known.rooms) == 50, "it has what changes")
        self.check(copy.reads == 1, "and has read all once", copy.reads)
        copy.ends()
        self.comes(lambda: copy.is_current and copy.reads == 2, "its watch ends: it reads all anew")
        revision = self.store.put_room(7, NEW | {"on": "b"}, self.store.room(7)[1])
        self.comes(lambda: copy.known.rooms[7][0]["on"] == "b", "and goes on from there")
        self.store.ask("kv/compaction", revision=str(revision))
        try:
            for _ in self.store.watched(FLEET, 2, lambda stream: None):
                pass
            self.check(False, "a watch from a compacted revision goes on")
        except Ended as why:
            self.check("compacted" in str(why), "a watch from a compacted revision ends, and says why", why)
        own = copy.put_room(8, NEW | {"on": "c"}, self.store.room(8)[1])
        self.check(own and copy.known.rooms[8][0]["on"] == "c", "it knows its own change at once", copy.known.rooms[8])
        copy.closed.set()
        copy.ends()

    def step_many(self):
        """Many rooms of a bridge are kept at once. One of their records has changed, and the agent doesn't know yet."""
        one, rows = Keeper(self.store, FIRST, []), self.large()
        rooms = range(FIRST, FIRST + MANY)
        one.copy.put_rooms({room: NEW | {"on": "a"} for room in rooms[1:]}, dict.fromkeys(rooms, 0))
        self.store.put_room(rooms[-1], NEW | {"on": "a", "version": 1}, self.store.room(rooms[-1])[1])
        one.bridge.rooms = {room: [row.format(room) for row in rows] for room in rooms}
        revision = self.store.read_at(FLEET)[1]
        one.agent.keep(one.bridge, {room: one.copy.known.rooms[room] for room in rooms})
        puts = self.store.read_at(FLEET)[1] - revision
        kept = [room for room in rooms if room in one.bridge.kept]
        text = f"{MANY} rooms are kept at once, but for the one whose record has changed"
        self.check(kept == [*rooms[:-1]], text, kept)
        # 40 at once, and the last ones one by one.
        wanted = MANY // MOST_KEPT + MANY % MOST_KEPT - 1
        self.check(puts == wanted, f"by {puts} changes of etcd", wanted)
        found = self.store.groups(kept)
        wrong = [room for room in kept if found[room] != groups_of(commands_of(one.bridge.rooms[room]))]
        self.check(not wrong, "each is there as it is", wrong)
        sizes = [len(part) for part in portions({room: [("", "x" * MOST_AT_ONCE, ANY)] for room in rooms[:3]})]
        self.check(sizes == [1, 1, 1], "rooms that are large are put one by one", sizes)

    def step_database(self):
        """Many changes of a room of 16 with pictures, each as an agent puts it."""
        rows, wrong, after = self.large(), [], {}

        def writes(room):
            one = Keeper(self.store, room, [row.format(room) for row in rows])
            try:
                for turn in range(CHANGES // WRITERS):
                    one.changes(turn)
            except Exception as why:
                wrong.append(repr(why))
            after[room] = groups_of(commands_of(one.bridge.rooms[room]))

        together([threading.Thread(target=writes, args=(100 + at,)) for at in range(WRITERS)])
        self.check(not wrong, f"{CHANGES} changes of {WRITERS} rooms of 16 are put", wrong[:3])
        kept = self.store.groups(after)
        self.check(kept == after, "each room is kept as it is", [room for room in after if kept[room] != after[room]])
        octets = int(self.store.ask("maintenance/status")["dbSize"])
        self.check(octets < MOST_OCTETS, f"etcd's database has {octets / 1e6:.1f} MB", octets)
        revision = self.store.read_at(FLEET)[1]
        self.store.ask("kv/compaction", 10, revision=str(revision), physical=True)
        for turn in range(1000):
            self.store.swap([(f"{FLEET}rooms/1", NEW | {"version": turn}, ANY)])
        later = int(self.store.ask("maintenance/status")["dbSize"])
        text = "once old changes are forgotten, their place is used again by the next 1,000"
        self.check(later < octets + MOST_MORE, text, (octets, later))

    def large(self):
        rows = ["room {0}"]
        numbers = itertools.count(1)
        members = [next(numbers) for _ in range(16)]
        rows += [f"member {at} {one} {{0}} 10.0.0.{one}:5000 pcmu {1000 + one} 7 9" for at, one in enumerate(members)]
        rows += [f"source {2000 + one} {one} audio" for one in members]
        rows += [f"source {3000 + one} {one} video" for one in members]
        rows += [f"slot {4000 + 10 * one + at} {one} {at} 7 9" for one in members for at in range(4)]
        return rows + [f"sub {4000 + 10 * one + at} {3000 + (one + at) % 16 + 1}" for one in members for at in range(4)]

    def comes(self, condition, text, seconds=20):
        took = until(condition, seconds)
        self.check(took is not None, text)

    def close(self):
        self.etcd.close()
