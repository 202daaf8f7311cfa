"""Who mutes himself, by a key or by his page. The desk has a row for it, as for an operator's mute."""

import time

from refused import Refused

# A page mutes or unmutes once in so many seconds. One that is refused asks again, since it looks each second.
PAUSE = 1


class Mutes:
    """What `Calls` does for those who mute themselves."""

    def mutes_itself(self, call, wanted=None):
        """Mutes who calls, or unmutes him where he has muted himself: as he wants it, or else the other way round."""
        with self.lock:
            rows = self.desk.rows()
            if call.voice not in rows.sources:
                return
            is_muted = call.voice in rows.mutes
            if wanted is not False and not is_muted and self.desk.group([f"mute {call.voice}"]) is None:
                self.is_muted_by(call, True)
            elif wanted is not True and is_muted and self.has_muted_itself(call):
                self.desk.group([f"unmute {call.voice}"])

    def page_mutes(self, call, wanted):
        """Mutes or unmutes a page's voice, as it wants it."""
        now = time.monotonic()
        if now - call.muting < PAUSE:
            raise Refused("A page mutes or unmutes once a second.", 429)
        call.muting = now
        self.mutes_itself(call, wanted)
        return {}

    def is_muted_by(self, call, itself):
        """Who calls is muted now, by itself or by an operator."""
        call.muted = self.last_mute(call.voice) if itself else None
        call.is_own_mute, call.was_muted = itself, True

    def has_muted_itself(self, call):
        """Whether it was who calls that has muted its source last."""
        if call.muted is None:
            return False
        last = self.last_mute(call.voice)
        return call.is_own_mute if last == "" else last == call.muted

    def last_mute(self, ssrc):
        """The call of the desk that has muted or unmuted a source last."""
        return last_mute(self.desk.history(), ssrc)

    def note_mutes(self, rows):
        """Notes who of those that are muted now has muted himself."""
        for call in self:
            is_muted = call.voice in rows.mutes
            if is_muted != call.was_muted:
                call.is_own_mute = False
                call.is_own_mute = is_muted and self.has_muted_itself(call)
            call.was_muted = is_muted


def last_mute(history, ssrc):
    """The call that has muted or unmuted a source last, by the calls in force. None where the one before it did the
    same, as where the call between them was reverted: one of both may be an operator's. Empty where there is none."""
    last, did = "", None
    for line in reversed(history):
        number, _, words = line.split(" ", 2)
        for part in reversed(words.removeprefix("group ").split(" / ")):
            if part.startswith(f"add-source {ssrc} "):
                return last
            if part in (f"mute {ssrc}", f"unmute {ssrc}"):
                if last:
                    return None if part == did else last
                last, did = number, part
    return last
