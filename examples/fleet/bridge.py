"""A bridge of this agent: its desk, and the rooms on it as groups."""

import collections
import contextlib
import itertools
import secrets
import threading
import time

from desk import GONE
from kept import ROW, by_room, change_of, commands_of, further, groups_of, whole_of
from past import LOOKED_AT, MEMBERS, MOVING, History, Past, Pasts, added_by, lines_of
from printable import printable
from refused import Refused
from seat import ANSWERS, Seat, is_end

# After how many seconds a bridge that has told nothing is asked.
HEARTBEAT = 1
# How often the desk is read at once, where somebody calls between its rows and its history.
LOOKS = 5
# What is said where the desk is closed while rooms are brought.
ENDED = "This agent has lost its lease meanwhile. Try again in a second."
# A room's rows are put whole where there are so many changes to them, or where these have more octets than the rows,
# and than so many.
MOST_CHANGES, LEAST_OCTETS = 64, 2000
# What etcd has of a room: its rows and its past, the lines that make them, how many changes to the last whole there are,
# and their octets.
Kept = collections.namedtuple("Kept", "rows past lines count octets")


def drawn():
    """An SSRC. By their number no two of a fleet are the same, or one of them is refused where they meet."""
    return secrets.randbits(32)


def firsts():
    """The first numbers of a stream: sequence number, timestamp."""
    return f"{secrets.randbits(15)} {drawn()}"


class Bridge:
    def __init__(self, name, settings):
        self.name, self.settings, self.lock = name, settings, threading.Lock()
        host, _, port = settings["tcp"].rpartition(":")
        self.desk = Seat((host, int(port)), settings.get("answers", ANSWERS))
        # Whether it is another one than the last time.
        self.is_anew = False
        # The desk as it was last seen, and when that was; the rows of each room, and those that are kept.
        self.version, self.seen, self.rooms, self.kept = 0, 0.0, {}, {}
        # The rows of the last look, which have the form of rows.
        self.good = set()
        # Members that may have joined although no answer came, with their rooms.
        self.doubtful = set()
        # Since when rooms have no member; and whether somebody who may has asked this agent for a drain.
        self.empty, self.may_stop = {}, False
        # Up to which version of the desk etcd has each room, and how many rooms have left for other bridges.
        self.sure, self.left = {}, 0
        # What operators did last, and what tells of that at the first look: it takes the bridge, and answers what etcd
        # has of its rooms.
        self.pasts, self.remembered = Pasts(self.desk), lambda bridge: {}
        # Why rooms were brought by their rows alone.
        self.alone = {}

    def see(self):
        """Sees the desk as it is: it is read where a call was told."""
        self.desk.hears()
        if self.desk.stream is None or self.desk.is_new or self.desk.told > self.version:
            self.look()
        elif time.monotonic() - self.seen > HEARTBEAT:
            # Its last line says how many calls there were.
            version = self.desk.version()
            self.seen = time.monotonic()
            if version != self.version:
                self.look()

    def look(self):
        """Reads the desk, anew where somebody calls meanwhile."""
        for left in reversed(range(LOOKS)):
            rows, version = self.shown()
            rooms = by_room(rows)
            if self.follow(rooms, version, left == 0):
                break
        self.version, self.rooms, self.good, self.seen = version, rooms, set(rows), time.monotonic()
        self.desk.is_new = False
        for room, member in list(self.doubtful):
            self.doubtful.discard((room, member))
            if member in self.members(room) and self.desk.group([f"remove-member {member}"]) is None:
                self.look()

    def shown(self):
        """The rows of the desk, and its version."""
        try:
            lines = self.desk.ask("show", is_end)
        except Refused as why:
            if str(why) != GONE:
                raise
            # The connection has ended. The bridge may have been started anew.
            lines = self.desk.ask("show", is_end)
        rows, version = lines[:-1], int(lines[-1][4:])
        strange = next((row for row in rows if row not in self.good and not ROW.fullmatch(row)), None)
        if strange is not None:
            raise Refused(f"Bridge {self.name} says what is no row: {printable(strange[:80])}")
        return rows, version

    def follow(self, rooms, version, is_last):
        """Sees which calls of operators have led to these rows. Whether that is certain: a later history doesn't tell
        what was in force then."""
        if version < self.version:
            self.is_anew, self.kept, self.rooms, self.sure, self.pasts.of = True, {}, {}, {}, {}
        if self.remembered:
            self.pasts.of, self.remembered = self.remembered(self), None
        calls = None if version < self.version else self.desk.taken(self.version, version)
        history = None
        if calls is None or any(call.startswith(MOVING) for _, _, call in calls):
            told = self.desk.ask(f"history {LOOKED_AT}", is_end)
            if int(told[-1][4:]) != version and not is_last:
                return False
            history = History(told, version)
        self.pasts.follow(self.rooms, rooms, calls, history)
        return True

    def lines(self, room):
        """What etcd is to have of a room."""
        past = self.pasts.of.get(room)
        return lines_of(past) if past else commands_of(self.rooms[room])

    def is_kept(self, room):
        """Whether etcd has a room as it is. Its members' places are those of all rooms, and don't count."""
        kept, rows, past = self.kept.get(room), self.rooms[room], self.pasts.of.get(room)
        if kept is not None and (kept.rows != rows or kept.past is not past) and kept.lines == self.lines(room):
            kept = self.kept[room] = kept._replace(rows=rows, past=past)
        return kept is not None and kept.rows == rows and kept.past is past

    def changes_to_keep(self, room):
        """What etcd has to be told of a room: None and all lines that make it, or the number of a change and that. And
        what is kept then."""
        rows, past, lines = self.rooms[room], self.pasts.of.get(room), self.lines(room)
        kept = self.kept.get(room)
        change = kept and change_of(kept.lines, lines)
        if change:
            octets = kept.octets + len(str(change))
            if kept.count < MOST_CHANGES and octets < max(LEAST_OCTETS, sum(map(len, lines))):
                return kept.count, change, Kept(rows, past, lines, kept.count + 1, octets)
        return None, whole_of(lines), Kept(rows, past, lines, 0, 0)

    def rows(self, room, kind):
        """The words of a room's rows of a kind."""
        return [row.split(" ") for row in self.rooms.get(room, []) if row.startswith(f"{kind} ")]

    def members(self, room):
        return [int(row[2]) for row in self.rows(room, "member")]

    def bring(self, rooms):
        """Makes rooms as they were kept. The refusal of each, which leaves nothing behind, or None. Where the calls of
        operators can't be made again, `alone` says why: the room has its rows alone."""
        self.alone = {}
        for room in rooms:
            self.kept.pop(room, None)
            if room in self.rooms:
                # Half of a move that was cut.
                self.remove(room)
        refusals = self.make({room: one.base for room, one in rooms.items()})
        self.alone = {room: why for room, why in refusals.items() if why and rooms[room].calls}
        self.call_again({room: one for room, one in rooms.items() if refusals[room] is None})
        for room in self.alone.keys() & self.rooms.keys():
            self.remove(room)
        if self.alone:
            refusals |= self.make({room: rooms[room].rows for room in self.alone})
            self.look()
        return refusals

    def make(self, rooms):
        """Makes rooms by their commands. The refusal of each, or None."""
        # All at once: a bridge that has little of its processor would make each answer a wait.
        groups, refusals = {room: groups_of(commands) for room, commands in rooms.items()}, {}
        lines = [group for one in groups.values() for group in one]
        said = iter(self.desk.ask("\n".join(lines), count=len(lines)) if lines else ())
        for room, one in groups.items():
            answers = [next(said) for _ in one]
            refusals[room] = next((each for each in answers if not each.startswith("ok ")), None)
            if refusals[room] and any(each.startswith("ok ") for each in answers):
                self.remove(room)
        return refusals

    def call_again(self, rooms):
        """Carries the calls of operators out, on rooms that have just been made: the oldest one first, each by itself.
        Those of a room have to make the rows that it had."""
        calls = sorted((number, room, call) for room, one in rooms.items() for number, call in one.calls)
        said = self.desk.ask_again([call for _, _, call in calls])
        if len(said) < len(calls):
            # Once there is a lease again, these rooms are brought anew.
            raise Refused(ENDED)
        made = {room: [] for _, room, _ in calls}
        for (_, room, call), answer in zip(calls, said):
            if answer.startswith("ok "):
                made[room].append((int(answer[3:]), further(call)))
            else:
                self.alone.setdefault(room, f"`{call}` is answered `{answer}`")
        # They are operators' still.
        numbers = {number for some in made.values() for number, _ in some}
        self.desk.own -= numbers
        self.pasts.of |= {room: Past([*map(further, rooms[room].base)], some) for room, some in made.items()}
        self.look()
        for room in made.keys() - self.alone.keys():
            # Where somebody else has done something since, that is seen as at any look.
            if self.version == max(numbers) and commands_of(self.rooms[room]) != [*map(further, rooms[room].rows)]:
                self.alone[room] = "the desk has other rows then"

    def remove(self, room):
        self.desk.group([f"remove-room {room}"])
        self.forget(room)

    def forget(self, room):
        for one in self.rooms, self.kept, self.sure, self.empty, self.pasts.of:
            one.pop(room, None)

    def seconds_empty(self, room):
        """For how long a room has had no member."""
        if room not in self.rooms or any(row.startswith("member ") for row in self.rooms[room]):
            self.empty.pop(room, None)
            return 0
        return time.monotonic() - self.empty.setdefault(room, time.monotonic())

    def join(self, room, words):
        """Makes a member by one group. A refusal, or the member. Where an operator was faster, again on what is there
        now."""
        for _ in range(2):
            version = self.version
            group, joined = self.joining(room, words)
            # Where no answer comes, the bridge may have taken the group: the member goes once the desk is seen again.
            self.doubtful.add((room, joined["member"]))
            refusal = self.desk.group(group)
            self.doubtful.discard((room, joined["member"]))
            self.look()
            if refusal is None or self.version == version:
                break
        return refusal, joined

    def joining(self, room, words):
        """The commands that make a member, which sees others and is seen where slots are free; and its numbers."""
        # A newcomer doesn't get the number of one whose removal an operator may revert.
        past = self.pasts.of.get(room)
        taken = {*self.members(room), *(added_by(" / ".join(past.base)) if past else ())}
        member = next(one for one in itertools.count(room * MEMBERS + 1) if one not in taken)
        mix, slots = drawn(), [drawn() for _ in range(words.get("slots", 0))]
        group = [f"add-member {member} {room} {words['address']} {words.get('codec', 'pcmu')} {mix} {firsts()}"]
        sources = [(words[key], kind) for key, kind in (("voice", "audio"), ("camera", "video")) if key in words]
        group += [f"add-source {ssrc} {member} {kind}" for ssrc, kind in sources]
        group += [f"add-slot {slot} {member} {index} {firsts()}" for index, slot in enumerate(slots)]
        cameras = [row[1] for row in self.rows(room, "source") if row[3] == "video"]
        group += [f"subscribe {slot} {camera}" for slot, camera in zip(slots, cameras)]
        if "camera" in words:
            used = {row[1] for row in self.rows(room, "sub")}
            free = {row[2]: row[1] for row in self.rows(room, "slot") if row[1] not in used}
            group += [f"subscribe {slot} {words['camera']}" for slot in free.values()]
        return group, {"member": member, "mix": mix, "slots": slots}

    def leave(self, room, member):
        """Takes a member away by one group, and the room with its last one. A refusal, or None."""
        last = self.members(room) == [member]
        refusal = self.desk.group([f"remove-member {member}"] + [f"remove-room {room}"] * last)
        self.look()
        return refusal

    def stop(self):
        # A bridge that is stopped doesn't answer.
        with contextlib.suppress(Refused):
            self.desk.ask("stop")
