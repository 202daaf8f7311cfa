"""What travels with a room of what operators did, on desks of calls that are drawn by chance."""

import random

from lab.fleet_call.parts import by_room, commands_of, groups_of
from operators.models.desk import Log, made_line

from kept import MOST_OCTETS, change_of, further, lines_in, whole_of, with_changes  # noqa: E402
from known import restored_of  # noqa: E402
from lost import differing, lost_of, without_firsts  # noqa: E402
from made import after, key_of  # noqa: E402
from past import LOOKED_AT, MOST_CALL_OCTETS, MOST_CALLS, MOVING, History, Pasts, lines_of  # noqa: E402
from past import names_in, restored, settled  # noqa: E402
from seat import NAME, Call  # noqa: E402

# How many desks are drawn, how many looks an agent takes at each, and of how many of a hundred calls of operators that
# could travel so many have to. The desks are worse than any call: members come and go under one number all the time.
DESKS, LOOKS, LEAST = 20, 60, 30
ROOMS, AGENT, OPERATOR, OTHER = (1, 2), 0, 1, 2
# How many desks there are whose rooms are elsewhere, how much is done at each of them then, and how many of a hundred
# calls that are told as lost may be older.
LEFT, LATE, OLDER = 100, 30, 25
# What an operator does, as often as it stands here. A source, a member with its room, a slot and a number are drawn.
DONE = [
    *4 * ["mute {ssrc}"], *2 * ["set-gain {member} {ssrc} {q8}"], "unmute {ssrc}", "pin {room} {ssrc}",
    "unpin {room}", "give-floor {room} {member}", "take-floor {room}", "subscribe {slot} {ssrc}", "unsubscribe {slot}",
    "remove-source {ssrc}", "add-source {new} {member} audio", "remove-member {member}", "remove-slot {slot}",
    "move-member {member} {other}", "add-member {new} {room} 10.1.0.{host}:{new} pcmu 9{new} 7 7",
    "group mute {ssrc} / give-floor {room} {member}", "group add-source {new} {member} audio / mute {new}",
]  # fmt: skip


class Desk:
    """A desk, and what an agent knows of it."""

    def __init__(self, drawn):
        self.drawn, self.log, self.own, self.told, self.new = drawn, Log(), set(), [], 1000
        self.pasts, self.rooms, self.version, self.kept = Pasts(self), {}, 0, {}
        for room in ROOMS:
            self.call(f"add-room {room}", AGENT)

    def call(self, line, seat):
        said = self.log.call(line.split(" "), seat)
        if said.startswith("ok "):
            number = int(said[3:])
            self.told.append((number, seat, made_line(number, seat, line.split(" ")).split(" ", 2)[2]))
            if seat == AGENT:
                self.own.add(number)

    def row(self, kind):
        rows = [row.split(" ") for row in self.log.desk.shown(0) if row.startswith(f"{kind} ")]
        return self.drawn.choice(rows) if rows else None

    def acts(self):
        """Signalling joins or leaves, or an operator does something."""
        lot, version = self.drawn.random(), self.log.version
        source, member, slot = map(self.row, ("source", "member", "slot"))
        self.new += 10
        if lot < 0.25 or None in (source, member, slot):
            self.joins(self.drawn.choice(ROOMS))
        elif lot < 0.3:
            self.call(f"remove-member {member[2]}", AGENT)
        elif lot < 0.42:
            older = self.drawn.randrange(max(0, version - 30), version + 1)
            self.call(self.drawn.choice((f"undo {version}", f"redo {version}", f"revert {older}")), OTHER)
        else:
            names = {"ssrc": source[1], "member": member[2], "room": member[3], "slot": slot[1], "new": self.new}
            names |= {"q8": self.drawn.randrange(1025), "other": self.drawn.choice(ROOMS), "host": self.new % 250}
            self.call(self.drawn.choice(DONE).format(**names), OPERATOR)

    def joins(self, room):
        member, new = 1000 * room + self.drawn.randrange(8), self.new
        group = f"group add-member {member} {room} 10.0.0.{new % 250}:{new} pcmu {new} {self.drawn.randrange(2**16)} 0"
        group += f" / add-source {new + 1} {member} audio / add-source {new + 2} {member} video"
        self.call(f"{group} / add-slot {new + 3} {member} 0 65535 6", AGENT)

    def rows(self):
        """What makes each row."""
        return {key_of(one): str(without_firsts(one)) for one in commands_of(self.log.desk.shown(0)[:-1])}

    def in_force(self):
        lines = self.log.history(self.log.version + 1)[:-1]
        done = lines[: lines.index("undone")] if "undone" in lines else lines
        return {int(line.split(" ")[0]): line.split(" ", 2)[2] for line in done}

    def look(self):
        """An agent looks, and keeps what it sees. The first thing that is wrong then."""
        rooms, version = by_room(self.log.desk.shown(self.log.version)[:-1]), self.log.version
        calls = [one for one in self.told if one[0] > self.version and one[0] not in self.own]
        is_moved = any(call.startswith(MOVING) for _, _, call in calls) or self.drawn.random() < 0.1
        history = History(self.log.history(LOOKED_AT), version) if is_moved else None
        self.pasts.follow(self.rooms, rooms, calls, history)
        self.rooms, self.version, done = rooms, version, self.in_force()
        for room, past in self.pasts.of.items():
            if after(past.base, past.calls) != (commands_of(rooms[room]), past.calls):
                return "they make other rows", room, past
            gone = [call for number, call in past.calls if further(done.get(number, "")) != call]
            if gone or len(past.calls) > MOST_CALLS:
                return "they are too many, or not in force", room, past
            if not self.is_kept(room, lines_of(past)):
                return "etcd would have others", room, past
        return None

    def is_kept(self, room, lines):
        """Whether a change makes what etcd has of a room what it is to have."""
        change = change_of(self.kept[room], lines) if room in self.kept else None
        whole = with_changes(whole_of(self.kept[room]), [change]) if change else whole_of(lines)
        self.kept[room] = lines
        return restored_of(room, whole, []) == restored(room, lines_in(whole_of(lines)))

    def moves(self):
        """Makes both rooms on an empty desk: what is wrong there, how many calls there are, and how many could be."""
        log, rooms = Log(), {room: commands_of(rows) for room, rows in self.rooms.items()}
        lines = rooms | {room: lines_of(past) for room, past in self.pasts.of.items()}
        made = {room: restored(room, some) for room, some in lines.items()}
        calls = sorted((number, call) for one in made.values() for number, call in one.calls)
        lines = [group for one in made.values() for group in groups_of(one.base)] + [call for _, call in calls]
        refused = [said for line in lines if not (said := log.call(line.split(" "))).startswith("ok ")]
        after_all = by_room(log.desk.shown(0)[:-1])
        wrong = [room for room, had in rooms.items() if commands_of(after_all[room]) != [*map(further, had)]]
        done = [call for number, call in self.in_force().items() if number not in self.own]
        return refused or wrong, len(calls), sum(not one.startswith(("revert ", "move-member ")) for one in done)


class Drawn:
    """What operators do travels with a room."""

    def __init__(self, check, folder, program):
        self.check = check

    def step_drawn(self):
        wrong, travel, could = [], 0, 0
        for seed in range(DESKS):
            desk = Desk(random.Random(seed))
            for _ in range(LOOKS):
                for _ in range(desk.drawn.choice((0, 1, 1, 2, 5))):
                    desk.acts()
                fault = desk.look()
                wrong += [(seed, fault)] if fault else []
            fault, calls, all_calls = desk.moves()
            wrong += [(seed, fault)] if fault else []
            travel, could = travel + calls, could + all_calls
        text = f"{DESKS} desks of calls that were drawn: what is kept makes the rows that are there"
        self.check(not wrong, text, wrong[:1])
        text = f"of {could} calls of operators that are in force {travel} travel"
        self.check(travel * 100 >= could * LEAST, text, travel)

    def step_lost(self):
        """Rooms are elsewhere as they were, and somebody goes on at their desk: of each row the last call that has
        changed it is told."""
        wrong, count, older = [], 0, 0
        for seed in range(LEFT):
            desk, last = Desk(random.Random(1000 + seed)), {}
            for _ in range(LOOKS):
                desk.acts()
            kept, version = commands_of(desk.log.desk.shown(0)[:-1]), desk.log.version
            for _ in range(LATE):
                before = desk.rows()
                desk.acts()
                last |= {row: desk.log.version for row, _ in before.items() ^ desk.rows().items()}
            differ = differing(desk.log.desk.shown(0)[:-1], kept)
            calls = [Call(number, 0, seat, NAME if seat == AGENT else "-", words) for number, seat, words in desk.told]
            found = {one.number for one in lost_of(calls, {}, differ, {}, {})}
            missed = {row: last[row] for row in differ if last[row] not in found | desk.own}
            wrong += [(seed, missed)] if missed else []
            count, older = count + len(found), older + sum(number <= version for number in found)
        self.check(not wrong, f"on {LEFT} desks each call of a person that is lost is told", wrong[:1])
        text = f"of {count} calls that are told {older} are older than the rows elsewhere"
        self.check(count and older * 100 <= count * OLDER, text, (count, older))

    def step_bounds(self):
        """Calls that are too many, too large together, or too long alone once their streams begin further on."""
        base = ["add-room 1", "add-member 7 1 10.0.0.1:9 pcmu 8 0 0", "add-source 9 7 audio"]
        gains = [(at, f"set-gain 7 9 {at}") for at in range(MOST_CALLS + 10)]
        rows = lambda calls: after(base, calls)[0]
        past = settled(base, gains, rows(gains))
        good = past.calls == gains[10:] and past.base == rows(gains[:10])
        self.check(good, f"of {len(gains)} calls the last {MOST_CALLS} are kept, and the others are in the base", past)
        slots = lambda first: " / ".join(f"add-slot {first + at} 7 {at} 7 1000000000" for at in range(16))
        takes = lambda first: " / ".join(f"remove-slot {first + at}" for at in range(16))
        large = [(at, f"group {slots(at)} / {takes(at)}") for at in range(20)]
        past = settled(base, large, rows(large))
        octets = sum(len(call) for _, call in past.calls)
        good = past.calls == large[-len(past.calls) :] and octets <= MOST_CALL_OCTETS < octets + len(large[0][1])
        self.check(good, f"of {len(large)} large calls {len(past.calls)} are kept, of {octets} octets", past)
        adds = [f"add-member {10**9 + at} 1 10.0.0.{at}:5000 pcmu {2 * 10**9 + at} 9999 1" for at in range(64)]
        adds = adds[: MOST_OCTETS // (len(adds[-1]) + len(" / "))]
        long = f"group {' / '.join(adds)}"
        few, far = ([(1, one), (2, "mute 9")] for one in (long, further(long)))
        good = len(long) <= MOST_OCTETS < len(further(long)) and settled(base, few, rows(few)).calls == few
        past = settled(base, far, rows(far))
        self.check(good and past.calls == far[1:], "a call that no bridge would read isn't kept", (len(long), past))

    def close(self):
        pass
