"""Pictures follow who speaks: what the bridge tells four times a second goes through the rule of stage.py."""

import threading
import time
import traceback

from call import log
from desk import groups_of
from links import Links
from overload import Overload
from refused import FAILED, Refused, words_of
from speaking import Speaking
from stage import Stage

# In seconds: how often the bridge is asked who speaks, and how often for reports; and after how long again where it
# doesn't answer, or doesn't know levels.
QUARTER, SECOND, AGAIN, LATER = 0.25, 1, 1, 10
# Who pages by hand has another page after so many seconds at the earliest.
TURN = 1
# A desk takes 1,048,576 calls in all (17 LogFull of docs/FORMATS.md). The last ones are for joins and operators.
MOST_CALLS = 800_000


class Pictures(threading.Thread):
    def __init__(self, calls):
        super().__init__(daemon=True)
        self.calls, self.stage, self.speaking, self.links = calls, Stage(), Speaking(), Links()
        # Whether the bridge is overloaded, in words.
        self.load, self.overloaded = Overload(), ""
        # The SSRCs of those who speak, None where the bridge doesn't say. And whether it is one that does, as far as it
        # is known.
        self.speaks, self.follows = None, True
        # The pages that members want, when each last got one, and which of how many each has.
        self.wanted, self.turned, self.views = {}, {}, {}
        # Until when nothing is asked, until when nothing is changed, since a change was refused, and when reports were
        # asked for.
        self.pause = self.rest = self.reported = 0.0
        self.was_over = False

    def run(self):
        trouble = ""
        while True:
            begun, before = time.monotonic(), trouble
            try:
                trouble = ""
                if begun >= self.pause:
                    self.look(begun)
            except Exception as why:
                self.speaks, self.overloaded, self.pause, trouble = None, "", begun + AGAIN, words_of(why)
                if trouble == FAILED != before:
                    traceback.print_exc()
            time.sleep(max(0, begun + QUARTER - time.monotonic()))

    def look(self, now):
        """Hears who speaks, and changes what is due."""
        lines = self.calls.desk.levels()
        self.follows = lines is not None
        if lines is None:
            self.speaks, self.pause = None, now + LATER
            return
        self.speaks = self.speaking.hears(lines, now)
        with self.calls.lock:
            version = self.calls.desk.version()
            if self.calls.seen.version < 0 or version < self.calls.seen.version:
                # The watch takes up the calls of an agent before this one, and brings calls to another bridge.
                return
            if self.stage.rows is None or version != self.stage.rows.version:
                self.see(now)
            self.stage.speak(self.speaks, now)
            self.turn_pages(now)
            if now - self.reported >= SECOND and self.stage.slots:
                self.reported = now
                lines, before = self.calls.desk.stats(), self.overloaded
                self.stage.left, self.overloaded = self.links.look(lines, self.stage.rows, now), self.load.look(lines, now)
                if self.overloaded and not before:
                    log(self.overloaded)
            if self.change(now):
                self.see(now)

    def see(self, now):
        """Reads the desk."""
        rows = self.calls.desk.rows()
        if rows.version < self.calls.seen.version:
            # It is another bridge's: the watch sees to that.
            return
        self.stage.see(rows, now)
        self.calls.seen = rows
        self.calls.note_mutes(rows)

    def change(self, now):
        """Makes the next change of each room. Whether there was one."""
        stage, members = self.stage, self.stage.rows.members
        viewers = {call.member for call in self.calls if call.slots and call.member in members}
        self.views = {one: (stage.pages.get(one, 0), stage.count(one)) for one in viewers}
        if now < self.rest or self.is_over(stage.rows.version):
            return False
        rooms = {members[one] for one in viewers}
        groups = [group for room in rooms for group in groups_of(stage.change(room, viewers, now)) if group]
        for group in groups:
            if self.calls.desk.group(group) is not None:
                # An operator has changed the desk meanwhile, or it is full.
                self.rest = now + SECOND
        return bool(groups)

    def is_over(self, version):
        """Whether the desk has taken so many calls that slots stay as they are."""
        if version >= MOST_CALLS and not self.was_over:
            log(f"the desk has taken {version} calls: from now on pictures stay as they are")
        self.was_over = version >= MOST_CALLS
        return self.was_over

    def turn_pages(self, now):
        self.turned = {one: at for one, at in self.turned.items() if now - at < TURN}
        for member in [one for one in list(self.wanted) if one not in self.turned]:
            self.turned[member] = now
            self.stage.pages[member] = self.wanted.pop(member)

    def turn(self, call, page):
        """Shows who asks a page of the others, and on page 0 who speaks. It comes within a second or so."""
        if call.member is not None:
            self.wanted[call.member] = page
        return {}

    def spare(self, call):
        """Ends the small pictures of a page that says that it loses most of what comes of pictures."""
        with self.calls.lock:
            if self.stage.rows is not None:
                self.stage.left = self.links.spare(call.member, self.stage.rows, time.monotonic())
                log(f"browser {call.name!r} loses most of its pictures: it gets no small ones for a while")

    def told(self, call):
        """What a page is told: which of its pages it has, of how many, whether its way is weak, and whether it gets small
        pictures. None where pictures stay as they are."""
        if self.speaks is None or call.member not in self.views:
            return None
        (page, count), left = self.views[call.member], self.stage.left.get(call.member)
        page = min(self.wanted.get(call.member, page), count)
        return {"page": page, "of": count, "weak": left is not None, "small": left is None or left > 0}
