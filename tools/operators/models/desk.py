"""A plain desk: its rows stand in lists, and its commands do what docs/FORMATS.md says, one function each."""

import copy

from operators.models.reverts import MOST_PAST, base_of, in_force, is_far, is_idle, standing

MOST_PARTS = 64
TABLES = ("rooms", "members", "sources", "slots", "subs", "mutes", "gains", "pins", "floors")
LIMITS = {"rooms": 64, "members": 1024, "sources": 2048, "slots": 4096, "gains": 65536, "room-audio": 64}
# The clock rates of rooms, in Hz. A room for music has L16 alone.
USUAL, MUSIC = 8000, 44100
# The command that puts a row of each kind, and how many commands a group has that `groups` tells.
PUTS = {
    "room": "add-room", "member": "add-member", "source": "add-source", "slot": "add-slot", "sub": "subscribe",
    "mute": "mute", "gain": "set-gain", "pin": "pin", "floor": "give-floor",
}  # fmt: skip
MADE = 45


class Refused(Exception):
    """A refusal: its number, its name and what follows that."""


class Desk:
    """The rows of a desk, each kind in a list."""

    def __init__(self):
        self.rooms, self.members, self.sources, self.slots = [], [], [], []
        self.subs, self.mutes, self.gains, self.pins, self.floors = [], [], [], [], []
        # The SSRC of the bridge itself.
        self.bridge = 1

    def copied(self):
        """A desk with the same rows. A command puts a row in place of another one, and changes none."""
        other = copy.copy(self)
        for table in TABLES:
            setattr(other, table, [*getattr(self, table)])
        return other

    def one(self, table, **fields):
        """The first row with these fields, or None."""
        (name, value), *others = fields.items()
        for row in getattr(self, table):
            if row[name] == value and all(row[other] == each for other, each in others):
                return row
        return None

    def source(self, ssrc):
        return self.one("sources", ssrc=ssrc)

    def room_of(self, member):
        return self.one("members", member=member)["room"]

    def rate_in(self, room):
        return self.one("rooms", room=room)["rate"]

    def rate_of(self, member):
        """The clock rate of the room that a member is in."""
        return self.rate_in(self.room_of(member))

    def room_of_source(self, ssrc):
        return self.room_of(self.source(ssrc)["member"])

    def ssrcs(self):
        """All SSRCs in use, the bridge's own included."""
        return (
            [self.bridge]
            + [s["ssrc"] for s in self.sources]
            + [s["out"] for s in self.slots]
            + [m["out_audio"] for m in self.members]
        )

    def audio_in(self, room):
        rooms = {m["member"]: m["room"] for m in self.members}
        return sum(s["media"] == "audio" and rooms[s["member"]] == room for s in self.sources)

    def slots_of(self, member):
        return sorted((s for s in self.slots if s["member"] == member), key=lambda s: s["index"])

    def count(self):
        """How many rows there are."""
        tables = self.rooms, self.members, self.sources, self.slots, self.subs, self.mutes, self.gains
        return sum(map(len, (*tables, self.pins, self.floors)))

    def sweep(self):
        """Removes all rows that name a row which is gone, until none does."""
        before = None
        while before != self.count():
            before = self.count()
            rooms = {r["room"] for r in self.rooms}
            self.members = [m for m in self.members if m["room"] in rooms]
            members = {m["member"] for m in self.members}
            self.sources = [s for s in self.sources if s["member"] in members]
            self.slots = [s for s in self.slots if s["member"] in members]
            sources, slots = {s["ssrc"] for s in self.sources}, {s["out"] for s in self.slots}
            self.subs = [s for s in self.subs if s["out"] in slots and s["source"] in sources]
            self.mutes = [m for m in self.mutes if m["source"] in sources]
            self.gains = [g for g in self.gains if g["member"] in members and g["source"] in sources]
            self.pins = [p for p in self.pins if p["room"] in rooms and p["source"] in sources]
            self.floors = [f for f in self.floors if f["room"] in rooms and f["member"] in members]

    def shown(self, version):
        """The lines that answer `show`."""

        def lines(word, rows, fields, *keys):
            ordered = sorted(rows, key=lambda row: [row[key] for key in keys]) if keys else rows
            return [" ".join([word] + [str(row[field]) for field in fields.split()]) for row in ordered]

        rooms = [
            {"room": row["room"], "shown": f"{row['room']} {MUSIC}" if row["rate"] == MUSIC else row["room"]}
            for row in self.rooms
        ]
        members = [{"place": place, **row} for place, row in enumerate(self.members)]
        return [
            *lines("room", rooms, "shown", "room"),
            *lines("member", members, "place member room address codec out_audio seq ts"),
            *lines("source", self.sources, "ssrc member media", "ssrc"),
            *lines("slot", self.slots, "out member index seq ts", "out"),
            *lines("sub", self.subs, "out source", "out"),
            *lines("mute", self.mutes, "source", "source"),
            *lines("gain", self.gains, "member source q8", "member", "source"),
            *lines("pin", self.pins, "room source", "room"),
            *lines("floor", self.floors, "room member", "room"),
            f"end {version}",
        ]

    def groups(self, version):
        """The lines that answer `groups`."""
        commands = []
        for kind, *words in (row.split(" ") for row in self.shown(version)[:-1]):
            if kind == "member":
                words = words[1:]
            elif kind == "room" and len(words) == 1:
                words = [*words, str(USUAL)]
            commands.append(" ".join([PUTS[kind], *words]))
        parts = [commands[first : first + MADE] for first in range(0, len(commands), MADE)]
        return [*(f"group {' / '.join(part)}" for part in parts), f"end {version}"]

    def carry_out(self, words):
        """Carries a command out, or raises its refusal. Only what removes a row leaves others without what they
        name."""
        COMMANDS[words[0]](self, *(int(word) if word.isdigit() else word for word in words[1:]))
        if words[0].startswith("remove-"):
            self.sweep()


def desk_after(desk, words):
    """The desk after a command or a group, or a refusal. The desk itself stays as it is."""
    later = desk.copied()
    if words[0] != "group":
        later.carry_out(words)
        return later
    parts = parts_of(words)
    if len(parts) > MOST_PARTS:
        raise Refused(f"19 GroupTooLong {MOST_PARTS}")
    for number, part in enumerate(parts):
        try:
            later.carry_out(part)
        except Refused as why:
            raise Refused(f"20 PartRefused {number} {why}") from None
    return later


def desk_again(desk, calls):
    """The desk after these calls are carried out again, or the conflict of the first that stands in the way."""
    later = desk.copied()
    for number, _, words in calls:
        for place, part in enumerate(parts_of(words) if words[0] == "group" else [words]):
            try:
                later.carry_out(part)
            except Refused as why:
                if not is_idle(later, part, str(why)):
                    raise Refused(f"25 Conflict {number} {place} {why}") from None
    return later


def parts_of(words):
    """The words of each command of a group."""
    return [part.split(" ") for part in " ".join(words[1:]).split(" / ")]


class Log:
    """A desk with its version, and the desks that undo and redo lead to, each with the call that leads there: its
    number, operator, words."""

    def __init__(self):
        self.desk, self.version, self.done, self.undone = Desk(), 0, [], []

    def call(self, words, op=0):
        """The line that answers a call of an operator."""
        try:
            if words[0] == "undo":
                self.go_to(self.done, self.undone, int(words[1]), "15 NothingToUndo")
            elif words[0] == "redo":
                self.go_to(self.undone, self.done, int(words[1]), "16 NothingToRedo")
            else:
                revert = words[0] == "revert"
                later = self.without(int(words[1])) if revert else desk_after(self.desk, words)
                self.done.append(((self.version + 1, op, words), self.desk))
                self.desk, self.undone = later, []
        except Refused as why:
            return f"no {self.version} {why}"
        self.version += 1
        return f"ok {self.version}"

    def go_to(self, stack, other, version, empty):
        """Makes the last desk of one stack the present one, and puts the present one on the other."""
        if version != self.version:
            raise Refused(f"14 NewerCommand {self.version}")
        if not stack:
            raise Refused(empty)
        made, before = stack.pop()
        other.append((made, self.desk))
        self.desk = before

    def without(self, number):
        """The desk as if the call of this number had never been made."""
        calls = [made for made, _ in self.done]
        refuse(all(made[0] != number for made in calls), "23 NotInForce")
        refuse(is_far(calls, number), f"24 TooFar {MOST_PAST}")
        refuse(all(made[0] != number for made in in_force(calls)), "23 NotInForce")
        base = base_of(calls, number)
        plan = {made[0] for made in in_force([*calls, (self.version + 1, 0, ["revert", str(number)])])}
        again = [made for made in calls[base:] if made[0] in plan and made[2][0] != "revert"]
        later = desk_again(self.done[base][1], again)
        changed = set(standing(later)) ^ set(standing(self.desk))
        if changed:
            carried = {made[0] for made in again}
            loose = [place for place in range(base, len(calls)) if calls[place][0] not in carried]
            changed -= {row for place in loose for row in self.moved_by(place)}
        for row in [*standing(self.desk), *standing(later)]:
            refuse(row in changed, f"26 Elsewhere {row}")
        return later

    def moved_by(self, place):
        """The rooms, members, sources and slots that a call which is done brought or took."""
        after = self.done[place + 1][1] if place + 1 < len(self.done) else self.desk
        return set(standing(self.done[place][1])) ^ set(standing(after))

    def history(self, most):
        """The lines of the last calls in force, and of the last that can be redone: at most so many of each."""
        kept = {made[0] for made in in_force([made for made, _ in self.done])}
        done = last_lines([entry for entry in self.done if entry[0][0] in kept], most)
        undone = last_lines(self.undone, most)
        return [*done, *(["undone", *undone] if undone else []), f"end {self.version}"]


def last_lines(stack, most):
    """The lines of the last accepted calls of a stack, at most so many."""
    return [made_line(*made) for made, _ in stack[max(len(stack) - most, 0) :]]


def made_line(number, op, words):
    """The line of an accepted call in a history."""
    if words[0] != "group":
        return f"{number} {op} {' '.join(with_rate(words))}"
    return f"{number} {op} group {' / '.join(' '.join(with_rate(part)) for part in parts_of(words))}"


def with_rate(words):
    """The words of a command, with the rate of a room that names none."""
    return [*words, str(USUAL)] if words[0] == "add-room" and len(words) == 2 else words


# Refusals


def refuse(holds, text):
    if holds:
        raise Refused(text)


def refuse_full(rows, table):
    refuse(len(rows) >= LIMITS[table], f"12 Full {table} {LIMITS[table]}")


def need_room(d, room):
    refuse(not d.one("rooms", room=room), "2 NoRoom")


def need_member(d, member):
    refuse(not d.one("members", member=member), "3 NoMember")


def need_source(d, ssrc):
    refuse(not d.source(ssrc), "4 NoSource")


def need_slot(d, out):
    refuse(not d.one("slots", out=out), "5 NoSlot")


def need_media(d, ssrc, media):
    refuse(d.source(ssrc)["media"] != media, "6 WrongKind")


def need_one_room(one, other):
    refuse(one != other, "7 OtherRoom")


def refuse_taken(d, ssrc):
    refuse(ssrc in d.ssrcs(), "8 SsrcTaken")


def refuse_rate(holds):
    refuse(holds, "21 RateMismatch")


def refuse_already(d, table, **fields):
    refuse(d.one(table, **fields), "10 Already")


def remove_one(d, table, **fields):
    """Removes the row with these fields, or refuses."""
    row = d.one(table, **fields)
    refuse(not row, "11 NotThere")
    getattr(d, table).remove(row)


def replace(d, table, keys, **row):
    """Puts a row in the place of those with the same keys."""
    rows = getattr(d, table)
    rows[:] = [other for other in rows if any(other[key] != row[key] for key in keys)] + [row]


# Commands, each with its refusals in their order


def add_room(d, room, rate=USUAL):
    refuse(d.one("rooms", room=room), "1 Exists")
    refuse(rate not in (USUAL, MUSIC), "9 BadValue")
    refuse_full(d.rooms, "rooms")
    d.rooms.append({"room": room, "rate": rate})


def remove_room(d, room):
    need_room(d, room)
    d.rooms.remove(d.one("rooms", room=room))


def add_member(d, member, room, address, codec, out_audio, seq, ts):
    refuse(d.one("members", member=member) or d.one("members", address=address), "1 Exists")
    need_room(d, room)
    refuse_taken(d, out_audio)
    refuse(address.endswith(":0"), "9 BadValue")
    refuse_full(d.members, "members")
    refuse_rate(codec == "pcmu" and d.rate_in(room) != USUAL)
    d.members.append(dict(member=member, room=room, address=address, codec=codec, out_audio=out_audio, seq=seq, ts=ts))


def remove_member(d, member):
    need_member(d, member)
    d.members.remove(d.one("members", member=member))


def move_member(d, member, room):
    """The member keeps its sources and slots. Rows that tie them to the old room go."""
    own = [s for s in d.sources if s["member"] == member and s["media"] == "audio"]
    need_room(d, room)
    need_member(d, member)
    refuse(d.room_of(member) == room, "10 Already")
    refuse(d.audio_in(room) + len(own) > LIMITS["room-audio"], "12 Full room-audio 64")
    refuse_rate(d.rate_of(member) != d.rate_in(room))
    old, sources = d.room_of(member), {s["ssrc"] for s in d.sources if s["member"] == member}
    slots = {s["out"] for s in d.slots if s["member"] == member}
    d.members = [m | {"room": room} if m["member"] == member else m for m in d.members]
    d.floors = [f for f in d.floors if not (f["room"] == old and f["member"] == member)]
    d.pins = [p for p in d.pins if not (p["room"] == old and p["source"] in sources)]
    d.subs = [s for s in d.subs if (s["out"] in slots) == (s["source"] in sources)]
    d.gains = [g for g in d.gains if (g["member"] == member) == (g["source"] in sources)]


def add_source(d, ssrc, member, media):
    refuse(d.source(ssrc), "1 Exists")
    need_member(d, member)
    refuse_taken(d, ssrc)
    refuse_full(d.sources, "sources")
    refuse(media == "audio" and d.audio_in(d.room_of(member)) >= LIMITS["room-audio"], "12 Full room-audio 64")
    d.sources.append(dict(ssrc=ssrc, member=member, media=media))


def remove_source(d, ssrc):
    need_source(d, ssrc)
    d.sources.remove(d.source(ssrc))


def add_slot(d, out, member, index, seq, ts):
    refuse(d.one("slots", out=out) or d.one("slots", member=member, index=index), "1 Exists")
    need_member(d, member)
    refuse_taken(d, out)
    refuse(index > 15, "9 BadValue")
    refuse_full(d.slots, "slots")
    d.slots.append(dict(out=out, member=member, index=index, seq=seq, ts=ts))


def remove_slot(d, out):
    need_slot(d, out)
    d.slots.remove(d.one("slots", out=out))


def subscribe(d, out, source):
    need_source(d, source)
    need_slot(d, out)
    need_media(d, source, "video")
    need_one_room(d.room_of(d.one("slots", out=out)["member"]), d.room_of_source(source))
    refuse_already(d, "subs", out=out, source=source)
    replace(d, "subs", ["out"], out=out, source=source)


def unsubscribe(d, out):
    need_slot(d, out)
    remove_one(d, "subs", out=out)


def set_gain(d, member, source, q8):
    need_member(d, member)
    need_source(d, source)
    need_media(d, source, "audio")
    need_one_room(d.room_of(member), d.room_of_source(source))
    refuse(q8 > 1024, "9 BadValue")
    refuse_already(d, "gains", member=member, source=source, q8=q8)
    if not d.one("gains", member=member, source=source):
        refuse_full(d.gains, "gains")
    replace(d, "gains", ["member", "source"], member=member, source=source, q8=q8)


def mute(d, source):
    need_source(d, source)
    refuse_already(d, "mutes", source=source)
    d.mutes.append({"source": source})


def unmute(d, source):
    need_source(d, source)
    remove_one(d, "mutes", source=source)


def pin(d, room, source):
    need_room(d, room)
    need_source(d, source)
    need_media(d, source, "video")
    need_one_room(room, d.room_of_source(source))
    refuse_already(d, "pins", room=room, source=source)
    replace(d, "pins", ["room"], room=room, source=source)


def unpin(d, room):
    need_room(d, room)
    remove_one(d, "pins", room=room)


def give_floor(d, room, member):
    need_room(d, room)
    need_member(d, member)
    need_one_room(room, d.room_of(member))
    refuse_already(d, "floors", room=room, member=member)
    replace(d, "floors", ["room"], room=room, member=member)


def take_floor(d, room):
    need_room(d, room)
    remove_one(d, "floors", room=room)


COMMANDS = {
    made.__name__.replace("_", "-"): made
    for made in (
        add_room, remove_room, add_member, remove_member, move_member, add_source, remove_source, add_slot, remove_slot,
        subscribe, unsubscribe, set_gain, mute, unmute, pin, unpin, give_floor, take_floor,
    )
}  # fmt: skip
