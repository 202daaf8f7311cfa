"""Three bridges with an agent each, and 30 rooms."""

import signal
import threading
import time

from checks.bridges import together
from lab.fleet_call.dispatcher import Dispatched, Sink
from lab.fleet_call.failing import Failing
from lab.fleet_call.gateways import Gatewayed
from lab.fleet_call.guarding import Guarded
from lab.fleet_call.operated import Operated
from lab.fleet_call.parts import LEASE, ROOMS, AgentPart, BridgePart, EtcdPart, commands_of, groups_of, until
from lab.fleet_call.strangers import Strangers
from lab.gateway_call.bodies import are_refused
from lab.waits import within

COUNT, PEOPLE = 30, 3
# How many times later a machine may be that has no time for this test.
LATE = 20
# How many seconds the rooms of a bridge that was killed may be nowhere; and those of a machine that is gone.
MOST = MOST_OF_MACHINE = 5


def without_firsts(rows):
    """Rows without what a room's way to another bridge changes: its members' places, and FIRST_SEQ."""
    told = [row.split(" ") for row in rows]
    for one in told:
        if one[0] in ("member", "slot"):
            del one[-2]
        if one[0] == "member":
            del one[1]
    return told


class Fleet(Dispatched, Failing, Gatewayed, Guarded, Operated, Strangers):
    """A fleet of bridges."""

    without_firsts = staticmethod(without_firsts)

    def __init__(self, check, folder, program):
        self.check, self.folder, self.parts, self.ports = check, folder, [], iter(range(20_000, 60_000))
        # Who was started is in the list at once, so that a fault on the way here leaves nothing behind either.
        self.etcd = self.begun(EtcdPart(folder))
        self.bridges = {name: self.begun(BridgePart(name, folder, program)) for name in "abc"}
        self.sinks = {name: self.begun(Sink(name)) for name in "abc"}
        self.agents = {}
        for name, bridge in self.bridges.items():
            self.agents[name] = self.begun(AgentPart(bridge, folder, self.etcd, f"127.0.0.1:{self.sinks[name].port}"))
        self.comes(lambda: all(one.knows() == 3 for one in self.agents.values()), "three agents know three bridges", 60)

    def begun(self, part):
        self.parts.append(part)
        return part

    def comes(self, condition, text, seconds=20, most=None):
        """Checks that something holds before long. After how many seconds it did."""
        with within(LATE * seconds + 30, text):
            took = until(condition, seconds)
        good = took is not None and (most is None or took <= most)
        self.check(good, f"{text}{'' if took is None else f', after {took:.1f} s'}", took or self.logs())
        return took

    def logs(self):
        return {name: one.log.read_text()[-600:] for name, one in self.agents.items()}

    def told(self, said, status, words, text):
        """Checks what a request is answered: a status, and words."""
        self.check(said[0] == status and words in str(said[1]), f"{text}: {status}, `{words}`", said)

    # What is where

    def desks(self):
        """The rows of each room, and the version of each desk that is there."""
        return {name: one.desk() for name, one in self.bridges.items() if one.is_up()}

    def places(self):
        """The bridges on whose desks each room is."""
        found = {}
        for name, (rooms, _) in self.desks().items():
            for room in rooms:
                found.setdefault(room, []).append(name)
        return found

    def records(self):
        return {room: one for room, (one, _) in self.etcd.store.known().rooms.items()}

    def stand_once(self, rooms):
        """Whether just these rooms are there, each on one desk, which is the one that its record names."""
        places = self.places()
        if places.keys() != set(rooms) or any(len(names) != 1 for names in places.values()):
            return False
        records = self.records()
        return records.keys() == set(rooms) and all(
            places[room] == [one["on"]] and one["to"] is None for room, one in records.items()
        )

    def rows(self, room):
        names = self.places().get(room, [])
        return self.bridges[names[0]].desk()[0][room] if len(names) == 1 else []

    def people(self, room):
        return sum(row.startswith("member ") for row in self.rows(room))

    def join(self, agent, room, **more):
        port = next(self.ports)
        words = {"room": room, "address": f"127.0.0.1:{port}", "voice": port, "camera": 100_000 + port, "slots": 2}
        return self.agents[agent].ask("join", **words | {"source": f"who opens {room}"} | more)

    def joins(self, agent, room):
        """The answer to a join, which tries again for 30 s where it is told to: a room may be on its way."""
        end = time.monotonic() + 30
        while (said := self.join(agent, room))[0] == 409 and "Try again" in said[1] and time.monotonic() < end:
            time.sleep(1)
        return said

    # Steps

    def step_opens(self):
        """Three agents open rooms at once, each for members of its own and of rooms that another one opens as well."""
        said = []

        def opens(agent, first):
            for turn in range(COUNT):
                said.append(self.join(agent, (first + turn) % COUNT + 1))

        threads = [threading.Thread(target=opens, args=(agent, at * 10)) for at, agent in enumerate("abc")]
        begun = time.monotonic()
        together(threads)
        took = time.monotonic() - begun
        statuses = [status for status, _ in said]
        self.check(statuses == [200] * 90, f"90 joins of {COUNT} rooms by three agents, {took:.1f} s", said)
        members = {(one["bridge"], one["member"]) for status, one in said if status == 200}
        self.check(len(members) == 90, "each is a member of its own", members)
        self.comes(lambda: self.stand_once(range(1, COUNT + 1)), "each room stands on one bridge")
        counts = [len(rooms) for rooms, _ in self.desks().values()]
        self.check(max(counts) - min(counts) <= 4, f"the bridges have {counts} rooms", counts)
        self.check(all(self.people(room) == PEOPLE for room in range(1, 31)), "each room has three members")
        for room in 1, 2, 3:
            camera = next(row.split(" ")[1] for row in self.rows(room) if row.endswith(" video"))
            self.bridges[self.places()[room][0]].do(f"group mute {camera} / pin {room} {camera}")
        self.comes(self.are_kept, "what operators do is kept")

    def are_kept(self):
        """Whether etcd has each room as it is."""
        for rooms, _ in self.desks().values():
            for room, rows in rooms.items():
                if self.etcd.store.groups([room])[room] != groups_of(commands_of(rows)):
                    return False
        return True

    def lost(self, names, kill, most, text):
        """Kills some bridges, and sees their rooms come back while all others stay as they are."""
        self.comes(self.are_kept, "all rooms are kept")
        before, gone = self.desks(), {}
        for name in names:
            gone |= before.pop(name)[0]
        taken = self.given(gone)
        kill()
        rooms = [*gone, *(room for others, _ in before.values() for room in others)]
        text = f"{text}: its {len(gone)} rooms stand elsewhere, each on one"
        self.comes(lambda: self.stand_once(rooms), text, 30, most)
        after, given = self.desks(), 0
        for name, (others, version) in before.items():
            came = [room for room in after[name][0] if room not in others]
            same = all(after[name][0][room] == rows for room, rows in others.items())
            given = sum(taken.get(room, 0) for room in came)
            self.check(same, f"the {len(others)} other rooms of {name} are as they were")
            seen = after[name][1] - version
            self.check(seen == given, f"its desk took {given} groups and calls, and no other change", seen)
        all_rows = {room: rows for rooms, _ in after.values() for room, rows in rooms.items()}
        same = [room for room in gone if without_firsts(all_rows[room]) == without_firsts(gone[room])]
        self.check(len(same) == len(gone), "each has all its members, sources, slots, mutes and pins", (gone, all_rows))

    def step_kill(self):
        self.lost("a", lambda: self.bridges["a"].close(), MOST, "a bridge is killed")
        self.bridges["a"].start()
        self.comes(lambda: self.agents["b"].knows() == 3, "it is started anew, and the agents know it")
        said = self.join("b", 31)
        self.told(said, 200, "'bridge': 'a'", "a new room is placed on it")

    def one_on(self, name):
        """A room on a bridge. Where an agent was late, and its rooms have gone elsewhere, one is moved there."""
        if not self.desks()[name][0]:
            self.goes(min(self.records()), name, f"a room goes to {name}")
        return min(self.desks()[name][0])

    def step_move(self):
        room, desks = self.one_on("b"), self.desks()
        rows, calls = desks["b"][0][room], self.calls(room)
        said = self.agents["c"].ask("move", room=room, to="a")
        self.told(said, 200, "'bridge': 'a'", f"room {room} moves from b to a")
        self.comes(lambda: self.places()[room] == ["a"], "it stands on a alone")
        now = self.rows(room)
        self.check(without_firsts(now) == without_firsts(rows), "it has all its rows", (rows, now))
        after = self.desks()
        steps = [after[name][1] - desks[name][1] for name in "abc"]
        good = steps == [1 + len(calls), 1, 0]
        self.check(good, f"that was one group on each, and {len(calls)} calls of an operator", steps)
        for back in range(1 + len(calls)):
            self.bridges["a"].do(f"undo {after['a'][1] + back}")
        self.comes(lambda: room not in self.records(), "an operator who undoes the group has removed the room")
        for text, words, status, why in (
            ("a room that isn't there", {"room": 999, "to": "a"}, 404, "There is no room 999"),
            ("a bridge that isn't there", {"room": 31, "to": "z"}, 404, "no bridge z"),
            ("a room's own bridge", {"room": 31, "to": "a"}, 400, "Room 31 is on a"),
        ):
            self.told(self.agents["b"].ask("move", **words), status, why, text)
        self.step_refused_move()

    def step_refused_move(self):
        """Rooms of two bridges have members that send under one SSRC: they can't be on one."""
        room, other = self.one_on("b"), self.one_on("c")
        ssrc = next(row.split(" ")[1] for row in self.rows(other) if row.startswith("source"))
        said = self.join("a", room, voice=int(ssrc))
        before = self.desks()
        words = f"Room {room} stays on b. Bridge c refuses room {room}"
        self.told(self.agents["a"].ask("move", room=room, to="c"), 503, words, "a move that a bridge refuses")
        after = self.desks()
        self.check(after == before, "nothing of it stays behind", (before, after))
        self.told(self.agents["c"].ask("leave", room=room, member=said[1]["member"]), 200, "'b'", "that member leaves")

    def step_cut_moves(self):
        """Agents that die between the two groups of a move."""
        room, store = self.one_on("b"), self.etcd.store
        everywhere = [*self.records()]
        self.agents["b"].close()
        record, revision = store.room(room)
        store.put_room(room, record | {"to": "c", "ready": True}, revision)
        text = "an agent dies before its own half of a move: the other one is done"
        self.comes(lambda: self.records()[room]["on"] == "c", text)
        self.agents["b"].start()
        self.comes(lambda: self.stand_once(everywhere), "it is started anew: the room stands on c alone")
        self.settles(everywhere)
        room = self.one_on("b")
        self.agents["c"].close()
        self.bridges["c"].operator.ask("lease off")
        for group in store.groups([room])[room]:
            self.bridges["c"].do(group)
        record, revision = store.room(room)
        store.put_room(room, record | {"to": "c", "ready": True}, revision)
        time.sleep(LEASE + 1)
        self.agents["c"].start()
        self.comes(lambda: self.stand_once(everywhere), "one that dies after its half, untold: the room stands on one")
        self.check(self.places()[room] == ["c"], "it is where the move goes", self.places()[room])
        self.settles(everywhere)
        room = self.one_on("b")
        self.agents["c"].close()
        self.bridges["c"].operator.ask("lease off")
        for group in store.groups([room])[room]:
            self.bridges["c"].do(group)
        self.bridges["c"].do(f"remove-room {room}")
        self.agents["c"].start()
        text = "one that dies before it says where the room goes: it stays on b"
        self.comes(lambda: self.stand_once(everywhere), text)

    def settles(self, rooms):
        """Waits until all agents know all bridges, and each room stands where it stood a second ago."""

        def stands():
            before = self.places() if all(one.knows() == 3 for one in self.agents.values()) else None
            time.sleep(1)
            return before == self.places() and self.stand_once(rooms)

        self.comes(stands, "all rooms stand still")

    def step_etcd(self):
        room, before = self.one_on("b"), self.desks()
        self.etcd.close()
        took = until(lambda: self.join("a", 77)[0] == 503)
        self.check(took is not None, "etcd is gone")
        words = "The fleet's memory (etcd) doesn't answer"
        for path, more in ("join", {"address": "127.0.0.1:9"}), ("move", {"to": "a"}), ("drain", {"bridge": "a"}):
            self.told(self.agents["b"].ask(path, room=room, **more), 503, words, path)
        time.sleep(LEASE + 3)
        self.check(self.desks() == before, "no desk changes meanwhile")
        self.etcd.start()
        knows = lambda: all(one.knows() == 3 for one in self.agents.values())
        self.comes(knows, "etcd comes back: the agents know all bridges")
        time.sleep(3)
        self.check(self.desks() == before, "and no desk has changed")
        # A network that comes back: etcd has forgotten all leases, and one agent is later to know it than the others.
        late = self.agents["b"].process
        for one in self.etcd.process, late:
            one.send_signal(signal.SIGSTOP)
        time.sleep(LEASE + 3)
        self.etcd.process.send_signal(signal.SIGCONT)
        time.sleep(2)
        late.send_signal(signal.SIGCONT)
        self.comes(knows, "etcd stood still for longer than a lease, and an agent for longer: all bridges are known")
        time.sleep(2)
        self.check(self.desks() == before, "and no desk has changed")
        self.told(self.join("a", self.one_on("b")), 200, "'bridge': 'b'", "who joins then is a member")

    def step_bodies(self):
        """Bodies of requests that aren't what they should be."""
        before = self.desks()
        good = {"room": 1, "address": "127.0.0.1:6000"}
        are_refused(self.check, self.agents["a"].post, "move", {"room": 1, "to": "b"}, "to")
        wanted = "has to be a whole number from 0 to 4294967295."
        for name, value in ("voice", "201"), ("voice", 2**32), ("camera", -1), ("camera", 1.5), ("voice", True):
            said = self.agents["b"].ask("join", **good | {name: value})
            self.told(said, 400, f"`{name}` of the request {wanted}", f"{name} = {value!r}")
        said = self.agents["b"].ask("drain", bridge="a", move="yes")
        self.told(said, 400, "`move` of the request has to be true or false.", "a drain that says `yes`")
        self.check(self.desks() == before, "no desk changes", before)
        said = self.agents["c"].ask("where", room="1", more=[{}])
        self.check(said[0] == 200, "a field that nobody asked for is passed over", said)

    def step_full_and_busy(self):
        here, desks = len(self.records()), self.desks().values()
        more = range(100, 100 + sum(ROOMS - len(rooms) for rooms, _ in desks))
        said = [self.joins("abc"[room % 3], room) for room in more]
        self.check({status for status, _ in said} == {200}, f"{len(more)} further rooms fit", said)
        self.told(self.joins("a", 400), 503, "12 Full: none of 3 bridges has a place", "a further one doesn't")
        self.check(400 not in self.records() and 400 not in self.places(), "and leaves nothing behind")
        for room, (_, joined) in zip(more, said):
            self.agents["a"].ask("leave", room=room, member=joined["member"])
        self.comes(lambda: len(self.places()) == here == len(self.records()), "rooms go with their last members")
        self.agents["c"].close()
        room, bridge = self.one_on("c"), self.bridges["c"]
        taken = [bridge.seated() for _ in range(2)]
        for one in taken:
            one.ask("remove-room 999")
        self.agents["c"].start()
        until(lambda: self.agents["c"].ask("")[0] == 200)
        self.told(self.join("a", room), 503, "The bridge is busy: all seats", "a bridge whose seats are taken")
        for one in taken:
            one.tell("quit")
        self.comes(lambda: self.join("a", room)[0] == 200, "a seat is free: it takes members again")
        said = self.join("a", room, address="10.0.0.1:5000 / remove-room 1")
        self.told(said, 400, "A member has an address", "a bad address")
        self.told(self.join("a", "x"), 404, "A room is a number", "a bad room")
        port = next(self.ports)
        said = self.join("a", 500, address=f"127.0.0.1:{port}", voice=1)
        self.told(said, 503, "8 SsrcTaken", "the bridge's own SSRC")
        self.comes(lambda: 500 not in self.places() and 500 not in self.records(), "nothing of them stays behind")

    def step_machine(self):
        """An agent and its bridge are killed at once, as with a machine."""

        def kill():
            self.agents["c"].process.send_signal(signal.SIGKILL)
            self.bridges["c"].close()

        self.lost("c", kill, MOST_OF_MACHINE, "a machine is gone")
        self.bridges["c"].start()
        self.agents["c"].close()
        self.agents["c"].start()
        self.comes(lambda: all(one.knows() == 3 for one in self.agents.values()), "it is started anew")

    def step_drain(self):
        rooms, gone = [*self.places()], self.bridges["a"]
        self.told(self.agents["b"].ask("drain", bridge="z"), 404, "There is no bridge z", "a drain of no bridge")
        on_a = len(self.desks()["a"][0])
        self.told(self.agents["b"].ask("drain", bridge="a"), 200, "'bridge': 'a'", "a bridge is drained")
        said = [self.join("a", room)[1]["bridge"] for room in (200, 201, 202)]
        good = "a" not in said and len(self.desks()["a"][0]) == on_a
        self.check(good, "it gets no new room, and keeps its own", said)
        self.told(self.agents["c"].ask("drain", bridge="a", move=True), 200, "'bridge': 'a'", "its rooms are to move")
        self.comes(lambda: not gone.is_up(), "the bridge ends once it has none")
        self.check(gone.process.poll() == 0, "with status 0", gone.process.poll())
        self.comes(lambda: self.stand_once([*rooms, 200, 201, 202]), "its rooms stand on the others, each on one")
        self.check(not self.etcd.store.known().draining, "the drain is over")
        statuses = [one.close() for one in self.agents.values()]
        self.check(statuses == [0, 0, 0], "the agents end when they are asked to", statuses)

    def close(self):
        for part in reversed(self.parts):
            part.close()
