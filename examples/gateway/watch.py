"""The watch: whether the bridge, rtpengine and who calls are still there, and what a page shows of it."""

import contextlib
import itertools
import time
import traceback

from call import log
from desk import Rows, in_words
from people import names_of, people
from refused import FAILED, Refused, words_of
from rtpengine import UnknownCall


# The seconds within which a phone's sound has to come after its INVITE, or a page's answer after its offer; or the PIN of
# a room.
UNHEARD, UNTYPED = 10, 45
# How often the bridge is asked for the SSRC that rtpengine has drawn for a phone, at most.
ASKED = 20


class Watch:
    def __init__(self, calls):
        self.calls, self.settings = calls, calls.settings
        # What is wrong in words, and when rtpengine last answered.
        self.trouble, self.answered = "", time.monotonic()
        # When the desk was last read.
        self.read = time.monotonic()

    def run(self):
        """Looks at all calls each second, and more often at phones whose sound hasn't come yet."""
        # Its first look is said in any case.
        said = None
        for turn in itertools.count():
            time.sleep(0.2)
            try:
                if turn % 5:
                    self.look_at_phones()
                    continue
                trouble = self.look()
            except Exception as why:
                # A fault of the agent ends the look, and not the watch.
                trouble = words_of(why)
                if trouble == FAILED != self.trouble:
                    traceback.print_exc()
            if trouble != said:
                log(trouble or "All is well again.")
            self.trouble = said = trouble

    def look_at_phones(self):
        """Sees whence phones send, and learns the SSRCs that they don't say. Where rtpengine doesn't answer, the next
        look says so."""
        with contextlib.suppress(Refused):
            for call in list(self.calls.phones.values()):
                if call.waits_at is not None or call.member is not None and call.voice is None:
                    self.look_at(call)

    def look(self):
        """Ends the calls that the bridge, rtpengine or the caller has left. What is wrong, in words."""
        try:
            rows = self.calls.rows()
        except Refused:
            if self.calls.fleet:
                # The bridge may have ended, and its rooms gone to others: who was in them is told where.
                self.follow(Rows())
            if time.monotonic() - self.read > self.settings["away"]:
                for call in list(self.calls.phones.values()):
                    self.calls.end(call, "The bridge doesn't answer any more.")
            raise
        self.read = time.monotonic()
        self.calls.end_empty_rooms(rows)
        if self.calls.fleet:
            self.follow(rows)
        try:
            self.calls.engine.ask("ping")
        except Refused as why:
            if time.monotonic() - self.answered > self.settings["silence"]:
                for call in self.calls:
                    self.calls.lost(call, str(why))
            raise
        self.answered = time.monotonic()
        for call in self.calls:
            if call.side == "phone" and self.is_removed(call, rows):
                self.calls.end(call, "An operator has taken it out of the call.")
            else:
                self.look_at(call)
        return self.calls.fleet.see() if self.calls.fleet else ""

    def follow(self, rows):
        """Ends the calls whose room has gone to another bridge of the fleet, which tells where it is."""
        for call in self.calls:
            call.room = rows.members.get(call.member, call.room)
            moved = call.member is not None and call.room not in rows.rooms and self.calls.fleet.moved(call.room)
            if moved:
                self.calls.lost(call, *moved)

    def look_at(self, call):
        """Asks rtpengine what comes from who calls. A page that asks how things stand is a sign of life too."""
        if not call.is_open:
            return
        try:
            came = self.calls.engine.received(call.id, call.side)
        except UnknownCall as why:
            self.calls.lost(call, str(why))
            return
        if came.packets > call.packets and call.ip in (None, came.ip):
            self.is_alive(call)
        # What rtpengine drops makes fewer of them.
        call.packets = came.packets
        silence = self.patience(call)
        if time.monotonic() - call.alive > silence:
            self.calls.end(call, f"Nothing has come from your {call.side} for {silence} s. Press Join to come back.")
        elif call.waits_at is not None:
            self.calls.heard(call, came)
        elif call.side == "phone" and call.member is not None:
            ssrc = self.ssrc_of(call, came)
            if ssrc not in (None, call.voice) and (call.voice is None or self.calls.is_certain(call)):
                self.learn(call, ssrc, came.ssrc)
            if self.calls.has_moved(call, came):
                self.calls.learn_anew(call)

    def is_removed(self, call, rows):
        """Whether a phone's member has been away from the desk for as long as an operator may bring it back. A fleet
        takes its time for a room that moves."""
        is_there = call.member in rows.members if self.calls.fleet else rows.mixes.get(call.member) == call.mix
        if call.member is None or is_there:
            call.gone = None
            return False
        call.gone = call.gone or time.monotonic()
        moves = self.calls.fleet and call.room not in rows.rooms
        return time.monotonic() - call.gone > self.settings["away" if moves else "removed"]

    def ssrc_of(self, call, came):
        """The SSRC that a phone has at the bridge. Where rtpengine draws it, the bridge says what comes. So it does
        where packets came from elsewhere, since rtpengine tells their SSRC too."""
        is_alone, call.strange = came.strange == call.strange, came.strange
        if came.ssrc is None or is_alone and not call.is_transcoded:
            return came.ssrc
        if call.is_transcoded and came.ssrc == call.sends:
            return call.voice
        seen, before = self.calls.desk.strangers(call.address), call.strangers
        call.strangers, call.asked = seen, call.asked + 1
        found = next((ssrc for ssrc, count in seen.items() if before and count > before.get(ssrc, 0)), None)
        if call.asked > ASKED and call.voice:
            # It has kept the one that it had.
            call.sends, call.strangers, call.asked = came.ssrc, None, 0
        return found or call.voice

    def is_alive(self, call):
        """A sign of life of who calls. Nothing but a join prolongs a call before it."""
        if call.member is not None:
            call.alive = time.monotonic()

    def patience(self, call):
        """For how many seconds nothing may come. A browser that is a member may be looking for another network."""
        if call.side == "browser":
            return UNHEARD if call.member is None else self.settings["away"]
        if call.member is None:
            return UNTYPED if call.room in self.calls.pins else UNHEARD
        return self.settings["hold" if call.is_held else "phone_silence"]

    def learn(self, call, ssrc, sends):
        """Gives the desk the SSRC of a phone at the bridge, and a new one where the phone changes that under which it
        `sends`."""
        with self.calls.lock:
            rows = self.calls.desk.rows()
            if call.why or call.member not in rows.members:
                return
            has_muted = self.calls.has_muted_itself(call)
            group = [] if call.voice is None else [f"remove-source {call.voice}"]
            group.append(f"add-source {ssrc} {call.member} audio")
            group += [f"mute {ssrc}"] if call.voice in rows.mutes else []
            refusal = self.calls.desk.group(group)
            if refusal is None:
                call.voice, call.sends, call.strangers, call.asked = ssrc, sends, None, 0
                call.muted = None
                if f"mute {ssrc}" in group:
                    self.calls.is_muted_by(call, has_muted)
            elif call.refused != ssrc:
                # Another member has the SSRC. Once that one leaves, this one is heard.
                call.refused = ssrc
                log(f"phone {call.name!r} isn't heard: {in_words(refusal, group)}")

    def state(self, call):
        """What a page shows: whose voices and pictures come, and what operators did to its own. Of the callers it names
        those of its room, and none before it is there."""
        self.is_alive(call)
        rows = self.calls.seen
        # What is undone of a call that came again brings back rows that aren't its own.
        room = rows.members.get(call.member) if rows.mixes.get(call.member) == call.mix else None
        others = [] if room is None else self.calls.in_room(room, rows)
        speaks = self.calls.pictures.speaks
        return {
            "names": {ssrc: name for one in others for ssrc, name in names_of(one).items()},
            "room": room,
            "muted": [ssrc for ssrc in (call.voice, call.camera, call.screen) if ssrc in rows.mutes],
            "people": [] if room is None else people(room, rows, self.calls, speaks, self.settings["silence"]),
            # Whether the bridge tells who speaks.
            "speech": speaks is not None,
            "view": self.calls.pictures.told(call),
            "trouble": self.trouble,
            "overloaded": self.calls.pictures.overloaded,
            "cut": bool(self.calls.fleet and self.calls.fleet.cut),
        } | self.calls.way_back(call)
