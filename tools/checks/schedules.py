"""Schedules for the simulation: scripts for a bridge whose every line follows from a seed.

In a schedule two to five members send pictures, sound, reports, NACKs and PLIs, some of which are lost, come twice or
out of order, or are noise. In most of them one member sends nothing but PLIs. Three operators, one more than there are
seats, say lines in pieces, also in the middle of a round of the front. In the last schedule of some scripts one of them
stops the bridge. Lanes lag behind, or stop in the middle of what they send for an item. The front's clock stands still,
goes back, or jumps by up to 7 s.
"""

import random

# Where the numbers of outgoing streams begin, and those of members' own.
FIRST_SEQ, OWN_SEQ = 65_500, 65_530
MILLISECOND = 1_000_000
# The sequence numbers of RTP, and what of a stream a NACK asks for.
WORD = 1 << 16
NACKED = 80


class Cast:
    """The members of a schedule. No two schedules of a bridge have a room, a member, an address or an SSRC in
    common."""

    def __init__(self, number, members):
        self.base, self.number, self.members = 1200 * number, number, range(members)

    def room(self, index=0):
        return self.base + index

    def member(self, member):
        return self.base + 10 + member

    def video(self, member):
        return self.base + 100 + member

    def audio(self, member):
        return self.base + 200 + member

    def slot(self, member, index=0):
        return self.base + 300 + 2 * member + index

    def address(self, member):
        return f"10.{self.number // 256}.{self.number % 256}.{member}:5000"

    def add_member(self, member):
        codec = "l16" if member % 2 else "pcmu"
        mix = self.base + 500 + member
        return f"add-member {self.member(member)} {self.room()} {self.address(member)} {codec} {mix} {FIRST_SEQ} 7"

    def add_source(self, member, is_video):
        source, kind = (self.video(member), "video") if is_video else (self.audio(member), "audio")
        return f"add-source {source} {self.member(member)} {kind}"

    def add_slot(self, member, index=0):
        return f"add-slot {self.slot(member, index)} {self.member(member)} {index} {FIRST_SEQ} 9"

    def first_line(self):
        """Makes the rooms with all members, each of whom but the first sees the one before."""
        calls = [f"add-room {self.room()}", f"add-room {self.room(1)}"]
        for member in self.members:
            calls += [self.add_member(member), self.add_source(member, True), self.add_source(member, False)]
            calls.append(self.add_slot(member))
            if member:
                calls.append(f"subscribe {self.slot(member)} {self.video(member - 1)}")
        return "group " + " / ".join(calls)


class Operator:
    """What operators say."""

    def __init__(self, chance, cast):
        self.chance, self.cast = chance, cast

    def line(self):
        kind = self.chance.randrange(13)
        if kind == 0:
            return self.chance.choice(["add-room x", "remove-room", "nonsense", "quit", "show", "show"])
        if kind < 4:
            return "redo @" if kind == 3 else "undo @"
        if kind == 12:
            return f"revert @{self.chance.randrange(30)}"
        if kind == 4:
            return f"group {self.command()} / {self.command()}"
        return self.command()

    def command(self):
        cast, pick = self.cast, self.chance.choice
        member, other, index = pick(cast.members), pick(cast.members), pick([0, 1])
        slot, source = cast.slot(member, index), pick([cast.audio, cast.video])(member)
        subscribe = f"subscribe {slot} {cast.video(other)}"
        views = [subscribe] * 4 + [f"unsubscribe {slot}", f"pin {cast.room()} {cast.video(other)}"]
        views += [f"unpin {cast.room()}", f"give-floor {cast.room()} {cast.member(member)}"]
        gain = f"set-gain {cast.member(member)} {cast.audio(other)} {self.chance.randrange(1100)}"
        sounds = [f"mute {source}", f"unmute {source}", gain]
        rows = [f"remove-member {cast.member(member)}", cast.add_member(member), f"remove-source {source}"]
        rows += [cast.add_source(member, True), cast.add_source(member, False), f"remove-slot {slot}"]
        rows += [cast.add_slot(member, index)] * 2
        rows += [f"take-floor {cast.room()}", f"move-member {cast.member(member)} {cast.room(index)}"]
        return pick(pick([views, sounds, rows]))


class Traffic:
    """What members send."""

    def __init__(self, chance, cast):
        self.chance, self.cast = chance, cast
        self.seqs, self.times = {}, {}
        # A member who sends PLIs alone, if there is one.
        self.beggar = None

    def packet(self, ssrc, step, second, payload):
        """The next packet of a stream, so many timestamps after the last one."""
        seq, time = self.seqs.get(ssrc, OWN_SEQ), self.times.get(ssrc, 0) + step
        self.seqs[ssrc], self.times[ssrc] = (seq + 1) % WORD, time
        head = bytes([0x80, second]) + seq.to_bytes(2, "big") + time.to_bytes(4, "big") + ssrc.to_bytes(4, "big")
        return head + payload

    def frame(self, member):
        """A frame of 1 to 3 packets, some of which are lost, come twice or before the last one."""
        count, packets = self.chance.randrange(1, 4), []
        for at in range(count):
            second, payload = 0xE4 if at == count - 1 else 0x64, self.chance.randbytes(2)
            packet = self.packet(self.cast.video(member), 0 if at else 3000, second, payload)
            fate = self.chance.randrange(40)
            if fate > 1:
                packets.append(packet)
            if fate == 2:
                packets.append(packet)
            if fate == 3:
                packets.reverse()
        return packets

    def sound(self, member):
        level = self.chance.randrange(256)
        return [self.packet(self.cast.audio(member), 160, 0, bytes([level]) * 160)]

    def control(self, member):
        """A receiver report with a block, a NACK or a PLI about a slot of the member."""
        own, slot = (it.to_bytes(4, "big") for it in (self.cast.audio(member), self.cast.slot(member, 0)))
        first = (FIRST_SEQ + self.chance.randrange(NACKED)) % WORD
        nack = b"\x81\xcd\0\3" + own + slot + first.to_bytes(2, "big") + bytes([0, self.chance.randrange(16)])
        block = slot + b"\x09\0\0\2" + nack[:4] + b"\x81\xce\0\2" + bytes(8)
        report = b"\x80\xc9\0\1" + own
        picks = [report + nack, report + nack, self.pli(member), b"\x81\xc9\0\7" + own + block]
        return [self.chance.choice(picks)]

    def pli(self, member):
        own, slot = (it.to_bytes(4, "big") for it in (self.cast.audio(member), self.cast.slot(member, 0)))
        return b"\x80\xc9\0\1" + own + b"\x81\xce\0\2" + own + slot

    def begging(self, member):
        """PLIs, which cost the member more than they bring in."""
        return [self.pli(member)] * self.chance.randrange(1, 9)

    def noise(self, _member):
        length = self.chance.choice([0, self.chance.randrange(60), 8_193])
        return [self.chance.randbytes(length) if length < WORD // 8 else b"\x80" * length]

    def lines(self, count):
        """Lines for so many things."""
        makers = [self.frame] * 8 + [self.sound] * 7 + [self.control] * 4 + [self.noise]
        for _ in range(count):
            member, make = self.chance.choice(self.cast.members), self.chance.choice(makers)
            if member == self.beggar:
                make = self.begging
            stranger = make == self.noise and self.chance.randrange(3) == 0
            if stranger and self.chance.randrange(2):
                yield "other"
            for octets in make(member):
                yield f"rx {self.cast.address(member + 50 * stranger)} {octets.hex()}"


class Schedule:
    """A schedule on a bridge of so many lanes."""

    def __init__(self, seed, number, lanes, rounds, stops):
        self.chance, self.lanes = random.Random(seed), lanes
        self.cast = Cast(number, self.chance.randrange(2, 6))
        self.operator, self.traffic = Operator(self.chance, self.cast), Traffic(self.chance, self.cast)
        # Whether the lanes are held until the end, so that their rings of 1,024 places fill: a round reads at most 64
        # datagrams.
        self.is_held = self.chance.randrange(100) < 8
        if not self.is_held:
            self.traffic.beggar = self.chance.choice([None, *self.cast.members[1:]])
        self.rounds = 2 * rounds if self.is_held else rounds
        # In which round an operator stops the bridge, if one does.
        self.stop = self.chance.randrange(rounds) if stops else None

    def step(self):
        """How many nanoseconds pass before a round, and how many a look at the watch takes."""
        kind = self.chance.randrange(40)
        step = {0: self.chance.randrange(7_000), 1: 400, 2: 0, 3: 0, 4: 0}.get(kind, self.chance.randrange(40))
        return step * MILLISECOND, self.chance.choice([0, 500, 1_500, -700])

    def talk(self):
        """An operator says a line, or has a round of its connection."""
        who, kind = self.chance.randrange(3), self.chance.randrange(60)
        if kind < 2:
            yield f"{['hang', 'fail'][kind]} {who}"
        elif kind < 6:
            yield f"connect {who}"
        elif kind < 25:
            yield f"say {who} {self.operator.line()}"
        yield f"turn {who} {self.chance.choice([0, 3, 40, 400, 4_000])}"

    def alone(self, *lines):
        """All operators leave, and the first one connects anew, says these lines, and stays."""
        for who in range(3):
            yield from [f"hang {who}", *[f"turn {who} 9000"] * 4]
        yield "connect 0"
        yield from (f"say 0 {line}" for line in lines)
        yield from ["turn 0 9000"] * 4

    def most(self):
        """How many things members send in a round at most."""
        return 90 if self.is_held or self.chance.randrange(20) == 0 else 9

    def round(self, number):
        if self.chance.randrange(3) == 0:
            yield "begin {} {}".format(*self.step())
        for _ in range(self.chance.randrange(5)):
            yield from self.talk()
        if number == self.stop:
            who = self.chance.randrange(2)
            yield from [f"say {who} stop", *[f"turn {who} 4000"] * 3]
        yield from self.traffic.lines(self.chance.randrange(self.most()))
        if not self.is_held:
            for lane in range(self.lanes):
                stops = min(self.chance.randrange(9), self.chance.randrange(9))
                yield f"go {lane} {stops} {self.chance.randrange(6)}"
        yield "round {} {}".format(*self.step())

    def lines(self):
        yield from self.alone(self.cast.first_line())
        yield from ["connect 1", "connect 2"]
        for number in range(self.rounds):
            yield from self.round(number)
        yield from (f"go {lane} 2000 0" for lane in range(self.lanes))
        yield from self.alone(*(f"remove-room {self.cast.room(index)}" for index in range(2)))


def script(seed, schedules, lanes, rounds):
    """The lines of a script of so many schedules, by this seed and those after it."""
    chance = random.Random(seed)
    lines = [f"bridge {lanes} {chance.randrange(2000)} {chance.choice([0, 1, 1, 1]) * (seed + 1)}"]
    stops = chance.randrange(4) == 0
    for at in range(schedules):
        lines += Schedule(seed + at, at + 1, lanes, rounds, stops and at + 1 == schedules).lines()
    return lines
