"""The agent's watch: it sees to its own bridges, and the leader that each room has one.

A room's record says where it is to be. The agents do what is missing, again and again, so that one that dies in the
middle leaves nothing that the next one doesn't put right.
"""

import collections
import contextlib
import itertools
import threading
import traceback

from copied import Copy
from desk import BUSY
from etcd import ANY, GONE, PATIENCE
from guard import Guard
from keeping import Keeping, log
from known import FLEET, NEW, Store
from leader import AT_ONCE, EMPTY, Leader
from leased import Lease
from lost import differing, lost_of
from past import names_in
from refused import FAILED, Refused, words_of

# The seconds between two looks where nothing happens, and where something is wrong.
PAUSE, TROUBLED = 1, 0.25
# For how many seconds an agent that begins, or has a new lease, waits to know all, before it says that there is no etcd.
BEGINS = 5
# How many calls that may be lost are remembered.
LOST = 64


class Agent(Keeping):
    def __init__(self, settings, bridges, user=None):
        self.url, self.lasts, self.log = settings["agent"]["url"], settings["agent"]["lease"], log
        etcd, self.bridges = settings["etcd"], {one.name: one for one in bridges}
        self.store = Store(etcd["servers"], user, etcd.get("patience", PATIENCE))
        self.copy, self.troubles, self.spoiled = Copy(self.store), {}, set()
        self.lease = Lease(self.store, self.lasts, self.begins, log)
        self.leader = Leader(self)
        # The revision at which the others know its lease; and calls of operators that may be lost.
        self.since, self.lost, self.closed = 0, collections.deque(maxlen=LOST), threading.Event()
        self.copy.heard.append(self.hears)
        self.guards = {one.name: Guard(one, self.lease) for one in bridges}
        for bridge in bridges:
            bridge.remembered = self.remembers

    def run(self):
        self.starts(self.copy.run)
        self.starts(self.lease.run)
        for guard in self.guards.values():
            # Also without etcd: the desks are closed then.
            self.starts(guard.run)
        self.copy.until(lambda known: True, BEGINS)
        for name, bridge in self.bridges.items():
            self.starts(self.again, name, bridge.desk.waits, self.tend, bridge)
        self.starts(self.again, "the fleet", self.leader.woken.wait, self.leader.settle)
        self.starts(self.again, "bridges without agents", self.leader.late.wait, self.leader.ask_late)

    def starts(self, work, *given):
        threading.Thread(target=work, args=given, daemon=True).start()

    def close(self):
        """Ends, and lets another agent be the leader. The desks close once the lease has ended: nobody keeps what is
        called there."""
        self.closed.set()
        self.copy.closed.set()
        self.lease.closed.set()
        for guard in self.guards.values():
            guard.closed.set()
        with contextlib.suppress(Refused):
            if self.copy.known.leader == self.url:
                self.copy.swap([(f"{FLEET}leader", None, ANY)], None, self.leader.only_if())

    def again(self, name, waits, work, *given):
        """Does a work again and again, also early. What hinders it is told once."""
        while not self.closed.is_set():
            waits(TROUBLED if self.troubles.get(name) else PAUSE)
            trouble = ""
            try:
                work(*given)
            except Exception as why:
                # A fault of the agent ends a look, and not the watch.
                trouble = words_of(why)
                if trouble == FAILED != self.troubles.get(name):
                    traceback.print_exc()
            if trouble != self.troubles.get(name, ""):
                log(f"{name}: {trouble or 'all is well again'}")
            self.troubles[name] = trouble

    def hears(self, key):
        """Wakes those of its bridges that a change is about."""
        kind, _, name = (key or "").partition("/")
        known = self.copy.known
        if kind == "rooms" and name.isdigit():
            record, _ = known.rooms.get(int(name), (NEW, 0))
            # Where a room has left, the desk that still has it sees so.
            named = {record["on"], record["to"], *(one for one, it in self.bridges.items() if int(name) in it.rooms)}
        elif kind in ("bridges", "draining"):
            named = {name}
        else:
            named = {*self.bridges} if key is None else set()
        for one in named & self.bridges.keys():
            self.bridges[one].desk.ring()

    def begins(self, lease):
        """Has a new lease, by which the others know this agent."""
        key = f"agents/{self.url.partition('//')[2]}"
        self.since = self.copy.put(key, {"url": self.url}, lease)

    def demand(self):
        """Refuses what is asked of a bridge where other agents may have given its rooms away."""
        self.copy.current()
        if not self.lease.is_good():
            raise Refused(GONE)

    def in_words(self, why):
        """What is said of a refusal where the agent has lost the others: they may have given its rooms away."""
        lost = self.lease.lost_for()
        if str(why) != GONE or not lost:
            return why
        names = ", ".join(name for name, bridge in self.bridges.items() if bridge.desk.stream)
        words = f"{GONE.partition('. ')[0]}. This agent has had no word of its fleet for {lost:.0f} s."
        rooms = f" The rooms of {names} may be on others by now, and that desk is closed." if names else ""
        return Refused(f"{words}{rooms} Ask another agent.")

    def tell_of(self, spoiled):
        """Says of keys that they hold what no agent has put there."""
        for key in list(spoiled - self.spoiled)[:10]:
            log(f"etcd has something strange at {FLEET}{key[:100]}: it is passed over")
        self.spoiled = {*spoiled}

    # A bridge of this agent

    def tend(self, bridge):
        """Does what the records ask of a bridge, and keeps the rows of its rooms."""
        with bridge.lock:
            bridge.desk.hears()
            self.copy.current()
            try:
                bridge.see()
            except Refused as why:
                if str(why) != BUSY:
                    self.loses(bridge)
                raise
            self.announce(bridge)
            self.learn(bridge)
            self.bring_all(bridge)
            here = {room: one for room, one in self.records(bridge).items() if one[0]["on"] == bridge.name}
            self.keep(bridge, here)
            for room, (record, revision) in here.items():
                self.end_empty(bridge, room, record, revision)
            bridge.is_anew = False
            self.end_drain(bridge)

    def learn(self, bridge):
        """Learns which rooms are a bridge's. From then on its desk takes calls for as long as the lease lasts."""
        guard, lease = self.guards[bridge.name], self.lease.id
        # Rooms may have gone elsewhere before the others knew of this lease.
        if guard.known != lease and not self.copy.until(lambda _: self.copy.revision >= self.since, BEGINS):
            raise Refused(GONE)
        self.give_up(bridge)
        guard.opens(lease)

    def bring_all(self, bridge):
        """Brings the rooms that are to come to a bridge, at once. Whoever has the bridge's lock does so first, since they
        may be nowhere. Operators' calls can be made again while the desk is open."""
        may_come = lambda one: one["to"] == bridge.name != one["on"] and (one["on"] is None or one["ready"])
        coming = {room: one for room, one in self.records(bridge).items() if may_come(one[0])}
        if coming and self.guards[bridge.name].is_open():
            self.tell_lost(bridge, coming.keys() & bridge.rooms.keys())
            self.bring(bridge, dict(list(coming.items())[:AT_ONCE]))

    def records(self, bridge):
        """The records of the rooms that are on a bridge or go there, with their revisions."""
        with self.copy.lock:
            known = self.copy.known
            return {room: known.rooms[room] for room in known.rooms_of(bridge.name)}

    def loses(self, bridge):
        """A bridge has ended: its rooms go elsewhere."""
        with self.copy.lock:
            known = self.copy.known
            before, revision = known.bridges.get(bridge.name), known.revisions.get(f"bridges/{bridge.name}", 0)
        bridge.kept = {}
        if before and before["agent"] == self.url:
            self.copy.swap([(f"{FLEET}bridges/{bridge.name}", None, revision)])

    def give_up(self, bridge):
        """Gives up the rooms of a desk that have gone elsewhere, and takes in those that an operator has added."""
        added, leaving, here = {}, {}, {*bridge.rooms, *bridge.sure}
        with self.copy.lock:
            known = self.copy.known
            found = {room: (known.rooms.get(room, (None, 0))[0], known.revision(room)) for room in here}
        for room, (record, revision) in found.items():
            if record is None:
                added |= {room: (NEW | {"on": bridge.name}, revision)} if room in bridge.rooms else {}
            elif bridge.name not in (record["on"], record["to"]):
                leaving[room] = record["on"]
        self.tell_lost(bridge, leaving)
        for room, on in leaving.items():
            if room in bridge.rooms:
                log(f"room {room} leaves {bridge.name}: it is on {on}")
                bridge.remove(room)
                bridge.left += 1
            bridge.forget(room)
        # If a number is taken by now, the next look removes the room.
        self.put(bridge, added)

    def tell_lost(self, bridge, rooms):
        """Says which calls of operators may be lost with rooms that are elsewhere now. An agent that has just begun sees
        so by their rows, and by what the desk hasn't got any more."""
        gone = self.others(bridge) if self.guards[bridge.name].known is None else {}
        if not rooms and not gone:
            return
        sure = {room: bridge.sure[room] for room in rooms if room in bridge.sure}
        kept = self.store.restored(room for room in rooms if room not in sure)
        rows, lines = [bridge.rooms[room] for room in kept], [one.rows for one in kept.values() if one]
        differ = differing(itertools.chain(*rows), itertools.chain(*lines))
        first = 0 if kept or gone else min(sure.values())
        calls, why = bridge.desk.calls_after(first), f"at {bridge.name} may be lost, since rooms had gone"
        told = [f"{one.who()} {why}: {one.words}" for one in lost_of(calls, sure, differ, names_in(bridge.rooms), gone)]
        if first and calls and calls[0].number > first + 1:
            told.insert(0, f"calls {first + 1} to {calls[0].number - 1} {why}")
        for words in told:
            self.lost.append(words)
            log(words)

    def others(self, bridge):
        """The rooms on other bridges that this one's desk hasn't got, and when each was given its first bridge."""
        with self.copy.lock:
            rooms = [(room, one) for room, (one, _) in self.copy.known.rooms.items() if room not in bridge.rooms]
        return {room: one["placed"] for room, one in rooms if bridge.name not in (one["on"], one["to"])}

    def end_drain(self, bridge):
        """Stops a bridge that is drained. What etcd says of a drain stops none: somebody has to ask this agent."""
        known = self.copy.known
        if bridge.may_stop and bridge.name in known.draining and not bridge.rooms and not known.of.get(bridge.name):
            log(f"{bridge.name} has no room any more, and is stopped")
            bridge.stop()
            self.copy.swap([(f"{FLEET}{kind}/{bridge.name}", None, ANY) for kind in ("draining", "bridges")])

    def end_empty(self, bridge, room, record, revision):
        """Ends a room that nobody has joined, or that nobody is in any more."""
        is_over = bridge.seconds_empty(room) > EMPTY and record["placed"] and record["to"] is None
        if is_over and self.copy.end_room(room, revision):
            log(f"room {room} has had no member for {EMPTY} s, and ends")
            bridge.remove(room)

    def announce(self, bridge):
        """Says that a bridge runs."""
        told = {key: bridge.settings[key] for key in ("udp", "sip", "page", "rooms", "members")} | {"agent": self.url}
        with self.copy.lock:
            known = self.copy.known
            before, revision = known.bridges.get(bridge.name), known.revisions.get(f"bridges/{bridge.name}", 0)
            others = before and before["agent"] != self.url and known.has_agent(bridge.name)
        if others:
            raise Refused(f"the agent at {before['agent']} has a bridge of this name")
        if not self.lease.id:
            # Rooms of a bridge that nobody knows would be given to others.
            raise Refused(GONE)
        if self.url not in known.agents:
            self.begins(self.lease.id)
        if before != told and not self.copy.swap([(f"{FLEET}bridges/{bridge.name}", told, revision)]):
            raise Refused(f"another agent has just announced {bridge.name}")
