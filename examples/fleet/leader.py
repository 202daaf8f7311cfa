"""The leader: one agent of the fleet, which gives each room that has no bridge one.

It has put the key `leader` under its lease, where nobody had. Each change that it makes as a leader is made only if the
key is still that one: an agent that was late, and is a leader no longer, changes nothing.
"""

import concurrent.futures
import itertools
import threading
import time

import reached
from known import FLEET, NEW
from refused import Refused

# After how many seconds a refused room is tried again, and a bridge that runs without its agent is asked again.
AGAIN, ASKS = 5, 2
# How many rooms are changed at once: etcd takes 128 changes. And how many such changes are made at once.
AT_ONCE, HANDS = 100, 8
# How many seconds a room stays without a member, unless an operator has added it.
EMPTY = 10
TOO_MANY = 429


class Leader:
    def __init__(self, agent):
        self.agent, self.copy, self.lease, self.url = agent, agent.copy, agent.lease, agent.url
        # `woken`: something is to be settled. `late`: an agent has lost its lease, or there is another leader.
        self.woken, self.late = threading.Event(), threading.Event()
        # The bridges whose agents are late: when they are asked again, and what was seen of them last.
        self.missing = {}
        # Those who make its changes.
        self.hands = concurrent.futures.ThreadPoolExecutor(HANDS)
        self.copy.heard.append(self.hears)

    def hears(self, key):
        """Sees whether a change needs the leader."""
        kind, _, name = (key or "").partition("/")
        if kind in ("agents", "leader") or key is None:
            self.late.set()
        record, _ = self.copy.known.rooms.get(int(name), (None, 0)) if kind == "rooms" and name.isdigit() else (None, 0)
        if kind != "rooms" or record and not self.is_settled(record, self.copy.known):
            self.woken.set()

    def is_settled(self, record, known):
        """Whether a room is on a bridge, or goes to one, and stays there."""
        on, to = record["on"], record["to"]
        if to is not None:
            return to in known.bridges and (on in known.bridges or on is None and known.has_agent(to))
        return on in known.bridges and not known.draining.get(on, {}).get("move", False)

    def leads(self):
        """Whether this agent is the leader, which it becomes where there is none."""
        known = self.copy.current()
        if known.leader is None and self.lease.is_good():
            lease, revision = self.lease.id, known.revisions.get("leader", 0)
            if lease and self.copy.swap([(f"{FLEET}leader", {"url": self.url}, revision)], lease):
                self.agent.log("this agent is the leader now")
        return known.leader == self.url

    def only_if(self):
        """What holds while this agent is the leader."""
        revision = self.copy.known.revisions.get("leader", 0)
        if self.copy.known.leader != self.url or not revision:
            raise Refused("Another agent is the leader. Try again in a second.", 409)
        return [(f"{FLEET}leader", revision)]

    # Rooms

    def settle(self):
        """Gives each room without a bridge one, and ends rooms that nobody has joined."""
        self.woken.clear()
        if not self.leads():
            return
        with self.copy.lock:
            known, only_if = self.copy.known, self.only_if()
            self.agent.tell_of(known.spoiled)
            later, ended = {}, []
            for room, (record, revision) in list(known.rooms.items()):
                is_nowhere = record["on"] is None and record["members"] == 0 and record["placed"]
                if is_nowhere and time.time() - record["placed"] > EMPTY:
                    ended.append((room, revision))
                elif room not in known.held and not self.is_settled(record, known) and len(later) < 10 * AT_ONCE:
                    self.plan(room, record, known, later)
        # At once: an etcd that is slow would make each of them a wait.
        list(self.hands.map(lambda some: self.change({room: later[room] for room in some}, only_if), parts_of(later)))
        for room, revision in ended:
            self.copy.end_room(room, revision)

    def plan(self, room, record, known, later):
        """Says what becomes of a room, if something does."""
        after = dict(record)
        for end in "on", "to":
            if after[end] is not None and after[end] not in known.bridges:
                after[end] = None
        if after["on"] is None:
            after["ready"] = False
            # Nobody takes it there.
            after["to"] = after["to"] if known.has_agent(after["to"]) else None
        if after["to"] is None and time.time() >= after["after"]:
            try:
                after["to"] = known.chosen(after["members"], [*after["tried"], after["on"]])
                known.hold(room, after["to"], after["members"])
                self.agent.log(f"room {room} goes from {record['on']} to {after['to']}")
            except Refused as why:
                after |= {"tried": [], "why": str(why), "after": int(time.time()) + AGAIN}
                self.agent.log(f"room {room} has no bridge: {why}")
        if after != record:
            later[room] = after, known.rooms[room][1]

    def change(self, later, only_if):
        """Makes changes, all at once, or one by one where some room has changed meanwhile. The last one's revision."""
        records = {room: record for room, (record, _) in later.items()}
        revisions = {room: revision for room, (_, revision) in later.items()}
        try:
            revision = self.copy.put_rooms(records, revisions, only_if)
            if not revision and len(records) > 1:
                for room in records:
                    revision = self.copy.put_rooms({room: records[room]}, revisions, only_if)
            return revision
        finally:
            with self.copy.lock:
                for room in records:
                    self.copy.known.let_go(room)

    def place(self, room, source, at, most):
        """Gives a new room a bridge. One source has opened `most` rooms at most."""
        with self.copy.lock:
            known, only_if = self.copy.current(), self.only_if()
            if room in known.rooms:
                return known.revision(room)
            if room in known.held:
                raise Refused("This room is opened in this moment. Try again in a second.", 409)
            opened = known.sources[source]
            if source and opened >= most:
                words = f"{source} has opened {opened} rooms of this fleet, as many as one may."
                raise Refused(f"{words} Try again when one of them has ended.", TOO_MANY)
            to, revision = known.chosen(at=at), known.revision(room)
            known.hold(room, to, 0, source)
        record = NEW | {"to": to, "source": source, "placed": int(time.time())}
        return self.change({room: (record, revision)}, only_if)

    def move(self, room, to):
        """Has a room go to another bridge."""
        with self.copy.lock:
            known, only_if = self.copy.current(), self.only_if()
            if room not in known.rooms or to not in known.bridges:
                raise Refused(f"There is no room {room}, or no bridge {to}.", 404)
            record, revision = known.rooms[room]
            if record["on"] is None or record["to"] or room in known.held:
                raise Refused(f"Room {room} is on its way already.", 409)
            if known.chosen(record["members"], [name for name in known.bridges if name != to]) == record["on"]:
                raise Refused(f"Room {room} is on {to}.", 400)
            known.hold(room, to, record["members"])
        return self.change({room: (record | {"to": to, "tried": [], "why": ""}, revision)}, only_if)

    # Bridges

    def ask_late(self):
        """Asks the bridges whose agents have lost their leases, and says which are gone."""
        self.late.clear()
        known, now = self.copy.current(), time.monotonic()
        if known.leader != self.url:
            self.missing = {}
            return
        with self.copy.lock:
            late = {name: one for name, one in known.bridges.items() if not known.has_agent(name)}
            revisions = {name: known.revisions[f"bridges/{name}"] for name in late}
        self.missing = {name: self.missing.get(name, (0.0, "")) for name in late}
        due = {name: late[name] for name, (moment, _) in self.missing.items() if now > moment}
        lost = {}
        for name, said in reached.seen(due).items() if due else ():
            if said == reached.RUNS and self.missing[name][1] != said:
                self.agent.log(f"{name} runs, and its agent doesn't: its rooms stay")
            elif said == reached.GONE or said == reached.SILENT and now > self.lease.patient:
                why = "its port is closed" if said == reached.GONE else "nothing answers at its address"
                self.agent.log(f"{name} is gone, and its agent: {why}")
                lost[f"{FLEET}bridges/{name}"] = revisions[name]
            # Where nothing answers just after this agent itself was late, others may be late as well.
            self.missing[name] = now + (ASKS if said == reached.RUNS else 0), said
        only_if = self.only_if() if lost else []
        # All at once: their rooms go together. If one has changed meanwhile, the next look sees so.
        if lost and not self.copy.swap([(key, None, revision) for key, revision in lost.items()], None, only_if):
            for key, revision in lost.items():
                self.copy.swap([(key, None, revision)], None, only_if)


def parts_of(later):
    """The rooms of these changes, in parts of which etcd takes each at once. Those that go to one bridge are together: its
    agent would wait for etcd between two lots of them."""
    goes = lambda room: later[room][0]["to"] or ""
    parts = [[]]
    for _, some in itertools.groupby(sorted(later, key=goes), goes):
        rooms = list(some)
        if len(parts[-1]) + len(rooms) > AT_ONCE:
            parts.append([])
        for room in rooms:
            if len(parts[-1]) == AT_ONCE:
                parts.append([])
            parts[-1].append(room)
    return [one for one in parts if one]
