"""Which pictures the slots of pages show: a rule that asks nobody and changes nothing.

Slot 0 of a member is its stage: the desk shows there what operators pin, or who has the floor. The other slots follow
this rule. They show the cameras of the others in the room, each once, and none that the stage shows. Where there are
more cameras than slots, those come first whose members spoke last, and then the others as they joined. A camera that
is muted comes last. A screen that is shown is a camera, too, and comes before all others. Who pages by hand sees a part
of the others, as they joined, whoever speaks.

A slot that shows nothing is filled at once. One that shows a picture keeps it for `HOLD` seconds, and a change of a
room gives a member one new picture for one that goes. Pins, pages and a weak way to a member change its slots at once.
"""

import collections
import math

from links import NONE

# For how many seconds a slot keeps a picture.
HOLD = 3


def staged(room, rows, cameras):
    """The camera that a room's stages show, where it isn't muted: of the room's cameras. None where there is none."""
    floor = [one for one in cameras if rows.sources[one][0] == rows.floors.get(room)]
    camera = rows.pins.get(room, min(floor, default=None))
    return None if camera in rows.mutes else camera


class Stage:
    """What the rule goes by. All times are in seconds.

    `spoke` says when each member spoke last, `pages` on which page those are that page by hand, from 1, and `left` how
    many small pictures a member gets whose way is weak, as links.py has it.
    """

    def __init__(self):
        self.spoke, self.pages, self.left = {}, {}, {}
        # The desk when it was last seen, and since when each slot has what it shows.
        self.rows, self.since = None, {}
        # The cameras of each room as their members joined, and each member's slots by their index.
        self.cameras, self.slots = {}, {}

    def see(self, rows, now):
        """Takes the desk as it is."""
        before = self.rows.subs if self.rows else {}
        new = {slot for slot in rows.slots if rows.subs.get(slot) != before.get(slot)}
        self.since = {slot: now if slot in new else self.since.get(slot, now) for slot in rows.slots}
        self.rows, self.cameras, self.slots = rows, collections.defaultdict(list), collections.defaultdict(dict)
        places = {member: place for place, member in enumerate(rows.members)}
        videos = [(places[member], ssrc, member) for ssrc, (member, kind) in rows.sources.items() if kind != "audio"]
        for _, ssrc, member in sorted(videos):
            self.cameras[rows.members[member]].append(ssrc)
        for slot, (member, index) in rows.slots.items():
            self.slots[member][index] = slot
        for known in self.spoke, self.pages, self.left:
            for member in known.keys() - rows.members.keys():
                del known[member]

    def speak(self, ssrcs, now):
        """Takes who speaks now. Who is muted isn't heard, and so doesn't count."""
        for ssrc in ssrcs - self.rows.mutes:
            if ssrc in self.rows.sources:
                self.spoke[self.owner(ssrc)] = now

    def owner(self, ssrc):
        return self.rows.sources[ssrc][0]

    def on_stage(self, member):
        """The camera that a member's stage shows, None where it shows none."""
        rows, room, stage = self.rows, self.rows.members[member], self.slots[member].get(0)
        camera = rows.subs[stage] if stage in rows.subs else staged(room, rows, self.cameras[room])
        is_dark = stage is None or camera is None or camera in rows.mutes or self.owner(camera) == member
        return None if is_dark else camera

    def others(self, member):
        """The cameras that a member's slots may show, as their members joined."""
        stage = self.on_stage(member)
        return [one for one in self.cameras[self.rows.members[member]] if one != stage and self.owner(one) != member]

    def most(self, member):
        """How many pictures a member gets at most, beside its stage."""
        small = sum(index > 0 for index in self.slots[member])
        return max(0, min(small, self.left.get(member, small)))

    def count(self, member):
        """How many pages there are for who pages by hand."""
        return math.ceil(len(self.others(member)) / max(1, self.most(member)))

    def ranked(self, member, shown):
        """The cameras that a member may see. Those come first that it is to see; of equal ones those that it does."""
        others, page = self.others(member), self.pages.get(member, 0)
        if page:
            first = self.most(member) * (min(page, self.count(member)) - 1)
            return others[first:] + others[:first]
        spoke = lambda camera: self.spoke.get(self.owner(camera), -math.inf)
        is_last = lambda camera: (camera in self.rows.mutes, self.rows.sources[camera][1] != "screen")
        return sorted(others, key=lambda camera: (*is_last(camera), -spoke(camera), camera not in shown))

    def changes_of(self, member, now):
        """The commands by which a member's slots show what they are to show next."""
        slots = [slot for index, slot in sorted(self.slots[member].items()) if index]
        shown = {slot: self.rows.subs[slot] for slot in slots if slot in self.rows.subs}
        ranked, most = self.ranked(member, shown.values()), self.most(member)
        # Where each camera is seen, once.
        seen = {camera: slot for slot, camera in reversed(shown.items()) if camera in ranked}
        missing = [camera for camera in ranked[:most] if camera not in seen]
        # The slots whose pictures are to go, and of these the ones that get no other.
        old = [seen[camera] for camera in reversed(ranked[most:]) if camera in seen]
        surplus = max(0, len(seen) - most)
        free = [slot for slot in slots if slot not in seen.values()] + old[:surplus]
        old, added = old[surplus:], max(0, min(len(missing), most - len(seen)))
        if not self.pages.get(member):
            old = [slot for slot in old if now - self.since[slot] >= HOLD][:1]
        given = dict([*zip(free, missing[:added]), *zip(old, missing[added:])])
        group = [f"unsubscribe {slot}" for slot in free if slot in shown and slot not in given]
        return group + [f"subscribe {slot} {camera}" for slot, camera in given.items()] + self.darkens(member)

    def darkens(self, member):
        """The command by which a member's stage shows nothing where its way is too weak for that, or shows it again. A
        stage that is to show its own member's camera shows nothing."""
        stage = self.slots[member].get(0)
        own = next((one for one in self.cameras[self.rows.members[member]] if self.owner(one) == member), None)
        is_dark, wanted = self.rows.subs.get(stage) == own, self.left.get(member) == NONE
        if stage is None or own is None or is_dark == wanted:
            return []
        return [f"subscribe {stage} {own}" if wanted else f"unsubscribe {stage}"]

    def change(self, room, viewers, now):
        """The commands of a room's next change, for those of its members who are viewers. None where none is due."""
        members = [member for member, one in self.rows.members.items() if one == room and member in viewers]
        return [command for member in members for command in self.changes_of(member, now)]
