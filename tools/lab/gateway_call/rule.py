"""The rule by which pictures follow who speaks, tried without a bridge: its desk is a model, and time passes by steps.

What has to hold at each step is seen by the desk's rows alone.
"""

import random
import sys

from operators.models.desk import Log
from operators.shared import ROOT

sys.path.insert(0, str(ROOT / "examples/gateway"))

from desk import MOST_COMMANDS, MOST_OCTETS, Rows, groups_of, line_of  # noqa: E402
from links import NONE  # noqa: E402
from stage import Stage  # noqa: E402

ROOM, STEP = 1, 0.25
# For how many seconds a slot has to keep a picture.
HOLD = 3
# The SSRCs of voices and cameras, and of slots, by a member's number.
VOICE, CAMERA, SLOT = 10_000, 20_000, 30_000


class Meeting:
    """Members who each have a camera, and so many slots beside the stage. `faults` has what should never be."""

    def __init__(self, members, pictures):
        self.log, self.stage, self.now, self.pictures = Log(), Stage(), 100.0, pictures
        self.faults, self.changes, self.commands, self.read, self.looked = [], 0, 0, Rows(), None
        # Since when each slot has its picture, which others each member has seen, and whose slots may change at once.
        self.since, self.met, self.at_once = {}, set(), set()
        self.do(f"add-room {ROOM}")
        for member in range(members):
            self.comes(member)

    def do(self, *lines):
        for line in lines:
            said = self.log.call(line.split(" "))
            if not said.startswith("ok "):
                self.faults.append((self.now, line, said))

    def rows(self):
        if self.read.version != self.log.version:
            self.read = Rows(self.log.desk.shown(self.log.version))
        return self.read

    def comes(self, member):
        self.do(f"add-member {member} {ROOM} 10.0.0.1:{5000 + member} pcmu {1000 + member} 0 0")
        self.do(f"add-source {VOICE + member} {member} audio", f"add-source {CAMERA + member} {member} video")
        for index in range(self.pictures + 1):
            self.do(f"add-slot {SLOT + 16 * member + index} {member} {index} 0 0")

    def steps(self, seconds, *speaking):
        """So many seconds in which these members speak."""
        for _ in range(int(seconds / STEP)):
            self.now += STEP
            rows = self.rows()
            if rows is not self.stage.rows:
                self.stage.see(rows, self.now)
            self.stage.speak({VOICE + one for one in speaking}, self.now)
            for group in groups_of(self.stage.change(ROOM, {*rows.members}, self.now)):
                if group:
                    self.do(line_of(group))
                    self.changes, self.commands = self.changes + 1, self.commands + len(group)
            self.look(rows)

    def sees(self, member, rows):
        """The cameras that a member sees, the stage's first, as the desk decides it."""
        seen = []
        for index in range(self.pictures + 1):
            slot = SLOT + 16 * member + index
            camera = rows.subs.get(slot, None if index else rows.pins.get(ROOM))
            if camera is not None and camera not in rows.mutes:
                seen.append(camera)
        return seen

    def look(self, before):
        rows = self.rows()
        if rows is self.looked:
            return
        self.looked = rows
        for member in rows.members:
            seen = self.sees(member, rows)
            own = CAMERA + member
            if own in [rows.subs.get(slot) for slot, (whose, index) in rows.slots.items() if whose == member and index]:
                self.faults.append((self.now, member, "sees itself"))
            others = [camera for camera in seen if camera != own]
            if len({*others}) < len(others):
                self.faults.append((self.now, member, "sees one twice", others))
            self.met |= {(member, camera - CAMERA) for camera in others}
        replaced = []
        for slot, (member, _) in rows.slots.items():
            was, camera = before.subs.get(slot), rows.subs.get(slot)
            if was == camera:
                continue
            # A picture that gives way to another one was there for a while, if it isn't on the stage now.
            gives_way = was is not None and was != rows.pins.get(ROOM) and member not in self.at_once
            replaced += [member] if gives_way else []
            if gives_way and self.now - self.since.get(slot, -HOLD) < HOLD:
                self.faults.append((self.now, slot, "has changed too soon", was, camera))
            self.since[slot] = self.now
        if len({*replaced}) < len(replaced):
            self.faults.append((self.now, replaced, "have several new pictures at once"))

    def shown(self, member):
        """Which others a member sees now."""
        own = CAMERA + member
        return {camera - CAMERA for camera in self.sees(member, self.rows()) if camera != own}


def try_rounds(check):
    """Each speaks once, while the others are silent. Who sees whom after that."""
    for members, pictures, seconds in (8, 3, 3), (12, 3, 3), (12, 1, 4), (16, 15, 1), (30, 5, 3):
        one = Meeting(members, pictures)
        one.steps(HOLD)
        begun = one.changes
        for speaker in range(members):
            one.steps(seconds, speaker)
        every = {(a, b) for a in range(members) for b in range(members) if a != b}
        text = f"{members} members with {pictures} pictures: after each has spoken once"
        check(one.met == every, f"{text} each has seen each other", sorted(every - one.met))
        words = "nobody has seen himself, nobody one twice, and each picture stayed"
        check(not one.faults, f"{text} {words}", one.faults[:3])
        if pictures >= members - 1:
            check(one.changes == begun, f"{text} no slot has changed", one.changes)
            check(all(len(one.shown(each)) == members - 1 for each in range(members)), f"{text} each sees all others")
        else:
            last = [members - 1 - at for at in range(pictures)]
            good = all(one.shown(each) == {*last} for each in range(members - pictures))
            check(good, f"{text} all see those who spoke last", [one.shown(each) for each in range(members)])
        print(f"      {one.changes} changes with {one.commands} commands")


def try_pin(check):
    """A picture that is pinned is sent once, and comes back to its slot."""
    one = Meeting(8, 3)
    one.steps(HOLD, 1)
    one.steps(HOLD, 2)
    one.do(f"pin {ROOM} {CAMERA + 1}")
    one.steps(STEP)
    rows = one.rows()
    subs = [each for each in rows.subs.values() if each == CAMERA + 1]
    check(not subs, "a picture that is pinned is in no other slot", rows.subs)
    for speaker in (4, 5, 6, 7, 3):
        one.steps(HOLD, speaker)
    holds = all(one.sees(each, one.rows())[0] == CAMERA + 1 for each in range(8))
    check(holds, "whoever speaks, a pin holds", [one.sees(each, one.rows()) for each in range(8)])
    one.do(f"unpin {ROOM}")
    one.steps(HOLD, 1)
    good = all(1 in one.shown(each) for each in range(8) if each != 1)
    check(good, "after that who speaks is seen in a slot", [one.shown(each) for each in range(8)])
    one.do(f"mute {CAMERA + 1}", f"mute {VOICE + 2}")
    one.steps(2 * HOLD, 2)
    one.steps(2 * HOLD, 2)
    check(not any(1 in one.shown(each) for each in range(8)), "a picture that is muted gives way to others")
    check(all(camera != CAMERA + 1 for camera in one.rows().subs.values()), "where there are others", one.rows().subs)
    check(not one.faults, "and no slot has changed too soon", one.faults[:3])


def try_steady(check):
    """What changes nothing: who speaks and is muted, and more who speak at once than there are slots."""
    one = Meeting(8, 3)
    one.steps(HOLD)
    one.do(f"mute {VOICE + 7}")
    one.steps(2 * HOLD, 7)
    check(not any(7 in one.shown(each) for each in range(8)), "who speaks and is muted is brought to nobody")
    one.steps(4 * HOLD, 4, 5, 6)
    seen = []
    for _ in range(10):
        one.steps(HOLD, 2, 3, 4, 5, 6)
        seen += [one.shown(each) for each in (0, 1, 2, 3, 7)]
    good = all(each == {4, 5, 6} for each in seen)
    check(good, "where three speak who are seen, two more who speak change nothing for the others", seen)


def try_turning(check):
    """Who pages by hand sees all others, whoever speaks meanwhile."""
    one = Meeting(12, 3)
    one.steps(HOLD)
    one.at_once.add(0)
    seen = []
    for page in 1, 2, 3, 4, 9:
        one.stage.pages[0] = page
        one.steps(2, page, page + 3)
        seen.append(one.shown(0))
    wanted = [{1, 2, 3}, {4, 5, 6}, {7, 8, 9}, {10, 11, 1}, {10, 11, 1}]
    check(seen == wanted, "who pages by hand sees all others by parts, whoever speaks", seen)
    check(one.stage.count(0) == 4, "of which there are four", one.stage.count(0))
    one.stage.pages[0] = 0
    one.steps(2 * HOLD, 8)
    check(8 in one.shown(0), "and then who speaks again", one.shown(0))
    one.stage.pages[0] = 1
    one.steps(HOLD + 1, 9, 10, 11)
    one.at_once.clear()
    one.stage.pages[0] = 0
    one.steps(STEP)
    seen = [len(one.shown(0) & {9, 10, 11})]
    one.steps(3 * STEP)
    seen.append(len(one.shown(0) & {9, 10, 11}))
    check(seen == [1, 3], "those who spoke last come back one after another", seen)
    check(not one.faults, "the others' slots have changed as ever", one.faults[:3])


def try_weak(check):
    """Whose way is weak gets fewer pictures, and those of who speaks."""
    one = Meeting(8, 3)
    one.steps(2 * HOLD, 5)
    one.do(f"pin {ROOM} {CAMERA + 4}")
    one.steps(2 * HOLD, 5)
    one.at_once.add(0)
    for left, wanted in (2, {4, 5}), (1, {4, 5}), (0, {4}), (NONE, set()), (0, {4}), (1, {4, 5}), (None, {4, 5}):
        one.stage.left = {} if left is None else {0: left}
        one.steps(STEP, 5)
        seen, count = one.shown(0), (3 if left is None else max(0, left)) + (left != NONE)
        good = wanted <= seen and len(seen) == count
        check(good, f"where {left} small pictures are left, the stage and who speaks are seen as far as they fit", seen)
    check(all(len(one.shown(each)) > 2 for each in range(1, 8)), "the others see as many as ever")
    check(not one.faults, "and no slot has changed too soon", one.faults[:3])


def try_anything(check, steps=150):
    """Members speak, come and go, are muted and pinned at random."""
    draw = random.Random(5)
    for members, pictures in (8, 3), (16, 4), (16, 15), (5, 0):
        one, speaking = Meeting(members, pictures), set()
        one.at_once |= {0}
        for _ in range(steps):
            there = [*one.rows().members]
            speaking = {each for each in speaking if draw.random() < 0.8} | ({draw.choice(there)} if there else set())
            random_call(one, draw, there)
            one.steps(draw.choice([STEP, 1]), *speaking)
        text = f"{members} members with {pictures} pictures who do anything for {one.now - 100:.0f} s"
        check(not one.faults, f"{text}: nobody sees himself or one twice, and each picture stays", one.faults[:3])
        print(f"      {one.changes} changes with {one.commands} commands")


def random_call(one, draw, there):
    """Has something happen now and then."""
    rows = one.rows()
    what = draw.randrange(60)
    member = draw.choice(there)
    camera = CAMERA + member
    if what == 0 and len(there) > 2:
        one.do(f"remove-member {member}")
    elif what == 1 and max(there) < 60:
        one.comes(max(there) + 1)
    elif what == 2 and rows.pins.get(ROOM) != camera:
        one.do(f"pin {ROOM} {camera}")
    elif what == 3 and rows.pins:
        one.do(f"unpin {ROOM}")
    elif what in (4, 5):
        one.do(f"{'unmute' if camera in rows.mutes else 'mute'} {camera}")
    elif what == 6:
        one.stage.pages[0] = draw.randrange(4)


def try_groups(check):
    """A long join goes in as few groups as a line of the desk holds."""
    most = 2**32 - 1
    lines = [f"add-slot {most} {most} {index} 32767 {most}" for index in range(16)] + [f"subscribe {most} {most}"] * 120
    groups = groups_of(lines)
    good = all(len(one) <= MOST_COMMANDS and len(line_of(one)) <= MOST_OCTETS for one in groups)
    check(good and sum(groups, []) == lines, "groups have at most 64 commands and 4,096 octets", [*map(len, groups)])
    check(len(groups) == 3, "and are as few as can be", len(groups))
    check(groups_of([]) == [[]], "nothing is one group without a command")


def try_all(check):
    for one in try_rounds, try_pin, try_steady, try_turning, try_weak, try_anything, try_groups:
        one(check)
