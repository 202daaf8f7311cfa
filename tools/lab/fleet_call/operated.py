"""What operators did in a room, which travels with it: calls of their own on the bridge that has the room then."""

from lab.fleet_call.parts import groups_of

# The rooms that this uses, and how many of an operator's calls travel.
ROOM, OTHER, MOST = 71, 72, 64
# How many calls of a bridge are looked at.
HISTORY = 256
# The SSRC of a source that comes and goes in one room, while a member of another bridge has it.
TAKEN = 710_001


class Operated:
    """The steps of a fleet's check in which operators do something."""

    def talker(self, room, **more):
        """A member that joins a room: its number, its voice and its camera."""
        said = self.join("a", room, **more)
        self.check(said[0] == 200, f"a member joins room {room}", said)
        member = said[1]["member"]
        sources = [row.split(" ") for row in self.rows(room) if row.startswith("source ")]
        own = {kind: ssrc for _, ssrc, whose, kind in sources if whose == f"{member}"}
        voice, camera = own["audio"], own["video"]
        return member, voice, camera

    def calls(self, room):
        """The operators' calls that etcd has of a room, without their numbers."""
        kept = self.etcd.store.restored([room])[room]
        return [call for _, call in kept.calls] if kept else None

    def calls_are(self, room, calls, text):
        self.comes(lambda: self.are_kept() and self.calls(room) == calls, text)

    def bridge_of(self, room):
        return self.bridges[self.places()[room][0]]

    def past_of(self, room, count):
        """The last calls in force of a room's bridge, with their numbers."""
        lines = self.bridge_of(room).operator.shown(f"history {count}")[:-1]
        return [(int(number), call) for number, _, call in (line.split(" ", 2) for line in lines if line != "undone")]

    def arrives(self, room, calls, rows, text):
        """Checks what is on the bridge that a room has come to: the rows that it had, and its operators' calls last."""
        now = self.rows(room)
        self.check(self.same(now, rows), f"{text}: it has all its rows", (now, rows))
        past = self.past_of(room, HISTORY)
        # Where a lease has ended meanwhile, its agent has begun anew.
        begun = max(at for at, (_, call) in enumerate(past) if call.startswith(f"group add-room {room} "))
        past = past[begun:]
        first = next((at for at, (_, call) in enumerate(past) if call in calls), len(past))
        made = max(at for at, (_, call) in enumerate(past) if call.startswith("group add-room "))
        good = [call for _, call in past if call in calls] == calls and (made < first or not calls)
        words = f"{text}: {len(calls)} calls of its operators come after what an agent did, each by itself"
        self.check(good, words, past)
        told = [line.split(" ", 5) for line in self.bridge_of(room).operator.shown(f"calls {HISTORY}")[:-1]]
        since = past[first][0] if calls else 0
        names = {name for _, number, _, _, name, call in told if call in calls and int(number) >= since}
        good = names == ({"elsewhere"} if calls else set())
        self.check(good, f"{text}: to the page they are a person's, and what agents did is a program's", (names, told))
        return {call: number for number, call in past}

    def step_past(self):
        """A room whose operators have done something loses its bridge, twice."""
        members = [self.talker(ROOM) for _ in range(3)]
        self.goes_on(ROOM, "b")
        (one, voice, camera), (_, second, _), (_, third, _) = members
        bridge = self.bridges["b"]
        bridge.do(f"mute {voice}")
        removed, fourth, _ = self.talker(ROOM)
        bridge.do(f"group mute {second} / pin {ROOM} {camera}")
        bridge.do(f"mute {third}")
        bridge.do(f"undo {bridge.desk()[1]}")
        bridge.do(f"mute {fourth}")
        bridge.do(f"revert {bridge.desk()[1]}")
        bridge.do(f"remove-member {removed}")
        bridge.do(f"set-gain {one} {second} 100")
        # A newcomer doesn't get the number of one that an operator may bring back.
        leaves, fifth, _ = self.talker(ROOM)
        bridge.do(f"mute {fifth}")
        self.agents["c"].ask("leave", room=ROOM, member=leaves)
        calls = [f"mute {voice}", f"group mute {second} / pin {ROOM} {camera}", f"remove-member {removed}"]
        calls.append(f"set-gain {one} {second} 100")
        self.calls_are(ROOM, calls, "of what operators do is kept what is in force, and can be done again")
        rows, text = self.rows(ROOM), "its bridge is killed"
        self.falls(ROOM)
        numbers, bridge = self.arrives(ROOM, calls, rows, text), self.bridge_of(ROOM)
        bridge.do(f"undo {bridge.desk()[1]}")
        gone = [row for row in rows if row not in self.rows(ROOM) and row.startswith("gain ")]
        self.check(gone == [f"gain {one} {second} 100"], "an undo there takes back the last call of an operator", gone)
        bridge.do(f"revert {numbers[calls[2]]}")
        back = f"source {fourth} {removed} audio" in self.rows(ROOM)
        self.check(back, "a revert there brings a member back that an operator had removed before", self.rows(ROOM))
        bridge.do(f"revert {numbers[calls[0]]}")
        left = [row for row in self.rows(ROOM) if row.startswith(("mute ", "pin ", "gain "))]
        good = left == [f"mute {second}", f"pin {ROOM} {camera}"]
        self.check(good, "a revert there takes back a mute from before the failure, and nothing else", left)
        self.calls_are(ROOM, calls[1:2], "what is undone and reverted doesn't travel further")
        rows = self.rows(ROOM)
        self.falls(ROOM)
        self.arrives(ROOM, calls[1:2], rows, "the next bridge is killed")

    def falls(self, room):
        """Kills the bridge of a room, and starts it anew once the room is elsewhere."""
        (name,) = self.places()[room]
        self.bridges[name].close()
        self.comes(lambda: self.places().get(room, [name]) != [name], f"the bridge of room {room} is killed", 30)
        self.bridges[name].start()
        self.comes(lambda: all(one.knows() == 3 for one in self.agents.values()), "and started anew", 60)
        self.settles([*self.records()])

    def same(self, rows, others):
        """Whether rows are the same but for what a way to another bridge changes."""
        return self.without_firsts(rows) == self.without_firsts(others)

    def step_past_and_agent(self):
        """The agent of a room's bridge is killed, and started anew after an operator has done more. The room moves."""
        self.goes_on(ROOM, "a")
        bridge, before = self.bridges["a"], self.calls(ROOM)
        one, voice, _ = self.talker(ROOM)
        bridge.do(f"set-gain {one} {voice} 7")
        self.calls_are(ROOM, [*before, f"set-gain {one} {voice} 7"], "an operator does more")
        self.agents["a"].close()
        # Else the desk closes once the agent's lease has ended.
        bridge.operator.ask("lease off")
        bridge.do(f"mute {voice}")
        bridge.do(f"set-gain {one} {voice} 8")
        bridge.do(f"undo {bridge.desk()[1]}")
        self.agents["a"].start()
        calls = [*before, f"set-gain {one} {voice} 7", f"mute {voice}"]
        self.calls_are(ROOM, calls, "its agent is started anew, and knows what operators have done meanwhile")
        rows = self.rows(ROOM)
        self.goes(ROOM, "c", "it moves")
        self.settles([*self.records()])
        self.arrives(ROOM, calls, rows, "a move")

    def step_past_of_two(self):
        """An operator has a member go to another room."""
        one, voice, _ = self.talker(ROOM)
        other, _, _ = self.talker(OTHER)
        self.goes_on(ROOM, "b")
        self.goes_on(OTHER, "b")
        bridge, before = self.bridges["b"], self.calls(ROOM)
        bridge.do(f"mute {voice}")
        self.calls_are(ROOM, [*before, f"mute {voice}"], "an operator mutes a member")
        bridge.do(f"group move-member {one} {OTHER} / give-floor {OTHER} {other}")
        self.calls_are(ROOM, before, "and has it go to another room: the first one has no call of that any more")
        self.check(self.calls(OTHER) == [], "nor has the other one", self.calls(OTHER))
        rows = {room: self.rows(room) for room in (ROOM, OTHER)}
        self.check(f"mute {voice}" in rows[OTHER], "there the member is muted")
        for room in rows:
            self.goes(room, "a", f"room {room} moves")
        self.settles([*self.records()])
        for room, had in rows.items():
            self.check(self.same(self.rows(room), had), f"room {room} has all its rows", (self.rows(room), had))
        # Its number is that of another room's members.
        self.agents["b"].ask("leave", room=OTHER, member=one)

    def step_past_refused(self):
        """A call that can't be made again where the room goes, though its rows can."""
        one, _ = self.talker(ROOM)[0], self.talker(OTHER)
        self.goes_on(ROOM, "b")
        self.goes_on(OTHER, "a")
        bridge = self.bridges["b"]
        bridge.do(f"add-source {TAKEN} {one} audio")
        bridge.do(f"remove-source {TAKEN}")
        self.comes(lambda: f"remove-source {TAKEN}" in (self.calls(ROOM) or []), "a source comes and goes")
        self.join("a", OTHER, voice=TAKEN)
        rows = self.rows(ROOM)
        self.goes(ROOM, "a", f"it moves to a bridge that has {TAKEN} in another room")
        self.settles([*self.records()])
        self.check(self.same(self.rows(ROOM), rows), "it has all its rows", (self.rows(ROOM), rows))
        words = f"room {ROOM} is on a without its operators' calls, which can't be made again: `add-source {TAKEN}"
        self.check(words in self.agents["a"].log.read_text(), "and the agent says that the calls are gone", self.logs())
        self.calls_are(ROOM, [], "none travels further")

    def step_past_bounded(self):
        """An operator does more than travels."""
        (name,), one = self.places()[ROOM], self.talker(ROOM)
        calls = [f"set-gain {one[0]} {one[1]} {turn}" for turn in range(MOST + 6)]
        for call in calls:
            self.bridges[name].do(call)
        self.calls_are(ROOM, calls[-MOST:], f"of {len(calls)} calls the last {MOST} are kept")
        rows, to = self.rows(ROOM), "c" if name != "c" else "b"
        self.goes(ROOM, to, f"room {ROOM} moves to {to}")
        self.settles([*self.records()])
        numbers, bridge = self.arrives(ROOM, calls[-MOST:], rows, "a move"), self.bridges[to]
        for call in calls[-MOST:]:
            bridge.do(f"revert {numbers[call]}")
        left = [row for row in self.rows(ROOM) if row.startswith(f"gain {one[0]} ")]
        self.check(left == [f"gain {one[0]} {one[1]} {len(calls) - MOST - 1}"], "each can be reverted there", left)
        for room in ROOM, OTHER:
            for row in self.rows(room):
                if row.startswith("member "):
                    self.agents["b"].ask("leave", room=room, member=int(row.split(" ")[2]))
        self.comes(lambda: not {ROOM, OTHER} & self.records().keys(), "all leave")

    def given(self, rooms):
        """How many calls each of these rooms takes on another bridge."""
        kept = self.etcd.store.restored(rooms)
        return {room: len(groups_of(one.base)) + len(one.calls) for room, one in kept.items()}
