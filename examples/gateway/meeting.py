"""Who sees whom at once when somebody joins or leaves: free slots are filled. Then pictures follow who speaks."""

from desk import groups_of, in_words
from refused import Refused
from stage import staged


def shown(slots, cameras):
    """The commands by which cameras are seen in slots, as far as there are both."""
    return [f"subscribe {slot} {camera}" for slot, camera in zip(slots, cameras)]


class Meeting:
    """What `Calls` does for that."""

    def joining(self, call, member, rows):
        """The commands by which a call becomes a member, sees the others of its room, and they it."""
        group = [] if call.room in rows.rooms else [f"add-room {call.room}"]
        group += call.commands(member, call.address)
        return group + self.meeting(call, rows)

    def meeting(self, call, rows):
        """The commands by which a call sees the others of its room, and they it, where slots are free."""
        stage = self.staged(call.room, rows)
        others = [other for other in self.in_room(call.room, rows) if other is not call]
        weak = self.pictures.stage.left
        free = lambda one: [slot for slot in one.slots[1:] if slot not in rows.subs and one.member not in weak]
        sees = lambda one, camera: camera in {stage, *(rows.subs.get(slot) for slot in one.slots)}
        group = shown(free(call), [one for other in others for one in other.pictures() if not sees(call, one)])
        for other in others:
            group += shown(free(other), [one for one in call.pictures() if not sees(other, one)])
        return group

    def shares_screen(self, call, wanted):
        """Shows the others a page's screen, or doesn't any more: it is one more source of the same member."""
        with self.lock:
            rows = self.desk.rows()
            if call.screen is None or rows.mixes.get(call.member) != call.mix:
                raise Refused("Your screen can't be shown now.", 409)
            call.shares = wanted
            if wanted == (call.screen in rows.sources):
                return {}
            self.desk.screens.add(call.screen)
            group = [f"add-source {call.screen} {call.member} video"] if wanted else [f"remove-source {call.screen}"]
            refusal = self.desk.group(group)
            if refusal is not None:
                call.shares = call.screen in rows.sources
                raise Refused(in_words(refusal, group))
            self.seen = self.desk.rows()
            self.do_all(groups_of(self.meeting(call, self.seen)))
        return {}

    def parting(self, member, camera, rows):
        """The commands by which a member goes, and others are seen in the slots that showed it."""
        room, group = rows.members[member], [f"remove-member {member}"]
        others, stage = self.in_room(room, rows), self.staged(room, rows)
        for other in others:
            seen = {rows.subs.get(slot) for slot in other.slots} | {*other.pictures(), stage}
            unseen = [picture for one in others for picture in one.pictures() if picture not in seen]
            group += shown([slot for slot in other.slots if (slot, camera) in rows.subs.items()], unseen)
        if (room in self.own_rooms or self.fleet) and list(rows.members.values()).count(room) == 1:
            self.own_rooms.discard(room)
            group.append(f"remove-room {room}")
        return group

    def staged(self, room, rows):
        """The camera that the stages of a room show, if the pictures of its slots follow who speaks."""
        if not self.pictures.follows:
            return None
        members = {member for member, one in rows.members.items() if one == room}
        cameras = [ssrc for ssrc, (member, kind) in rows.sources.items() if kind != "audio" and member in members]
        return staged(room, rows, cameras)

    def in_room(self, room, rows):
        """The calls whose members are in a room, as they joined. An operator may have moved or removed a member."""
        return [one for one in self if rows.members.get(one.member) == room]
