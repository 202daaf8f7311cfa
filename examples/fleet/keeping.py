"""What an agent keeps of its bridges' rooms in etcd, and makes again of that."""

from etcd import ANY
from known import DESKS, FLEET
from past import Past
from printable import printable

# Of how many rooms etcd gets the rows at once, and how many octets: it takes 128 changes, of which a room has three,
# and requests of 1.5 MB.
MOST_KEPT, MOST_OCTETS = 40, 400_000


def log(text):
    print(f"fleet: {printable(text)}", flush=True)


class Keeping:
    """The part of an agent that keeps rooms and brings them."""

    def remembers(self, bridge):
        """The pasts of the rooms that are on a bridge, as etcd has them."""
        here = [room for room, (record, _) in self.records(bridge).items() if record["on"] == bridge.name]
        kept = self.store.restored(here)
        return {room: Past(one.base, one.calls) for room, one in kept.items() if one}

    def keep(self, bridge, rooms):
        """Keeps the rows of rooms, given by their records and revisions, where they have changed or where a room is
        about to go."""
        later = {}
        for room, (record, revision) in rooms.items():
            ready = record["to"] is not None
            if room not in bridge.rooms:
                self.misses(bridge, room, record, revision)
            elif record["ready"] != ready or not bridge.is_kept(room):
                later[room] = record | {"ready": ready}, revision
            else:
                bridge.sure[room] = bridge.version
        self.put(bridge, later)

    def misses(self, bridge, room, record, revision):
        """A room isn't on the desk of its bridge any more."""
        bridge.forget(room)
        if bridge.is_anew or bridge.version < record["version"]:
            log(f"{bridge.name} was started anew, without room {room}")
            self.copy.put_room(room, record | {"on": None, "ready": False}, revision)
        else:
            log(f"room {room} was removed from {bridge.name}")
            self.copy.end_room(room, revision)

    def put(self, bridge, rooms):
        """Gives rooms these records where they have these revisions, and with a record on this bridge the rows that
        aren't kept yet. The rooms for which that was done."""
        changes, kept, done = {}, {}, set()
        for room, (record, revision) in rooms.items():
            others = []
            if record["on"] == bridge.name and room in bridge.rooms:
                others, kept[room] = self.rows_to_keep(bridge, room)
                record = record | {"members": len(bridge.members(room)), "version": bridge.version}
            changes[room] = [(f"{FLEET}rooms/{room}", record, revision), *others]
            # Where that fails, somebody has changed the record, and all is put anew.
            bridge.kept.pop(room, None)
        for part in portions(changes):
            done |= self.swapped(part, changes)
        bridge.kept |= {room: one for room, one in kept.items() if room in done}
        bridge.sure |= dict.fromkeys(kept.keys() & done, bridge.version)
        return done

    def swapped(self, rooms, changes):
        """Makes the changes of rooms at once, or one by one where some record has changed meanwhile. The rooms for
        which that was done."""
        if self.copy.swap([one for room in rooms for one in changes[room]]):
            return {*rooms}
        return set().union(*(self.swapped([room], changes) for room in rooms)) if len(rooms) > 1 else set()

    def rows_to_keep(self, bridge, room):
        """The changes after which etcd has a room's rows as they are, and what it has then."""
        if bridge.is_kept(room):
            return [], bridge.kept[room]
        number, what, kept = bridge.changes_to_keep(room)
        if number is None:
            return [(f"{DESKS}{room}", what, ANY), (f"{DESKS}{room}/", None, ANY)], kept
        return [(f"{DESKS}{room}/{number:04}", what, ANY)], kept

    def bring(self, bridge, rooms):
        """Makes rooms on a bridge by their records and revisions, and then says which of them are there."""
        kept, later = self.store.restored(rooms), {}
        refusals = dict.fromkeys(rooms, "etcd keeps lines of it that make anything but its rows")
        refusals |= bridge.bring({room: one for room, one in kept.items() if one is not None})
        for room, why in bridge.alone.items():
            log(f"room {room} is on {bridge.name} without its operators' calls, which can't be made again: {why}")
        for room, (record, revision) in rooms.items():
            after = record | {"to": None, "ready": False}
            if refusals[room] is None:
                after |= {"on": bridge.name, "tried": [], "why": ""}
            else:
                why = f"Bridge {bridge.name} refuses room {room}: {refusals[room]}"
                after |= {"tried": [*record["tried"], bridge.name], "why": why}
                log(why)
            later[room] = after, revision
        done = self.put(bridge, later)
        for room in rooms.keys() - done:
            # Its record has changed meanwhile: the room isn't to come any more.
            if refusals[room] is None:
                bridge.remove(room)


def portions(changes):
    """The rooms of these changes, in parts of which etcd takes each at once."""
    part, octets = [], 0
    for room, some in changes.items():
        size = sum(len(str(value)) for _, value, _ in some)
        if len(part) == MOST_KEPT or part and octets + size > MOST_OCTETS:
            yield part
            part, octets = [], 0
        part.append(room)
        octets += size
    if part:
        yield part
