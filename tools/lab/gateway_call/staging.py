"""Pictures follow who speaks, in a room of eight pages. A model of the desk tells how loud who is."""

import signal
import subprocess
import sys
import threading
import time

from lab.gateway_call import hearing, rule
from lab.gateway_call.again import CAMERA, SCREEN, Page
from lab.gateway_call.parts import GATEWAY, Parts
from lab.gateway_call.rule import HOLD
from lab.gateway_call.trial import Trial
from lab.models.served import Front
from operators.packets import rtp
from operators.serving import port_of, udp_socket

from desk import Rows  # noqa: E402

# The room, the first page's voice, and how many pages there are.
ROOM, FIRST, PAGES = 8, 8000, 8
# For how many seconds each speaks, and how much sooner than HOLD a slot may be seen to change.
SPEAKS, EARLY = 4, 0.5
# How often a member gets a packet, in seconds.
KEEPS = 5
# The energy of a quarter of a second: of speech, and of silence.
LOUD, SILENT = hearing.level(-20), hearing.level(-70)


class Sound(Front):
    """A bridge that is a model, at which voices are heard of whom a test says so."""

    def __init__(self, is_older=False):
        super().__init__(("127.0.0.1", 0), 4, 1)
        self.speaking, self.energy, self.begun = set(), {}, time.monotonic()
        self.answers["levels"] = (lambda: ["fault 1 3 UnknownWord"]) if is_older else self.levels
        self.udp, self.goes = udp_socket(), True
        for work in self.serve_forever, self.keeps:
            threading.Thread(target=work, daemon=True).start()

    def keeps(self):
        """Sends a packet to each member now and then: rtpengine gives up a call without any."""
        while self.goes:
            time.sleep(KEEPS)
            with self.lock:
                addresses = [one["address"].rpartition(":") for one in self.log.desk.members]
            for host, _, port in addresses:
                self.udp.sendto(rtp(1, 160, 1, b"\xff" * 160, pt=0), (host, int(port)))

    def ends(self):
        self.goes = False
        self.shutdown()
        self.server_close()

    def levels(self):
        samples, lines = int((time.monotonic() - self.begun) * 8000), []
        for source in self.log.desk.sources:
            if source["media"] == "audio":
                ssrc = source["ssrc"]
                before, energy = self.energy.get(ssrc, (samples, 0))
                power = (LOUD if ssrc in self.speaking else SILENT) / 2000
                self.energy[ssrc] = samples, energy + int((samples - before) * power)
                lines.append(f"level 127.0.0.1:5000 {ssrc} {samples} {self.energy[ssrc][1]}")
        return [*lines, "end"]

    def rows(self):
        with self.lock:
            return Rows(self.log.desk.shown(self.log.version))

    def do(self, line):
        with self.lock:
            return self.log.call(line.split(" "), 15)


class Seen:
    """What the members of a room see, looked at all the time."""

    def __init__(self, front):
        self.front, self.faults, self.met, self.since, self.goes, self.changes = front, [], set(), {}, True, 0
        self.before = front.rows()
        self.thread = threading.Thread(target=self.looks)
        self.thread.start()

    def looks(self):
        while self.goes:
            time.sleep(0.05)
            self.look(self.front.rows(), time.monotonic())

    def look(self, rows, now):
        for member, seen in shown(rows).items():
            owners = [rows.sources[camera][0] for camera in seen]
            self.met |= {(member, one) for one in owners}
            if member in owners or len({*owners}) < len(owners):
                self.faults.append((now, member, owners))
        for slot in rows.slots:
            was, camera = self.before.subs.get(slot), rows.subs.get(slot)
            if was != camera:
                is_early = was is not None and now - self.since.get(slot, -HOLD) < HOLD - EARLY
                if is_early and was not in rows.pins.values():
                    self.faults.append((now, slot, was, camera))
                self.since[slot], self.changes = now, self.changes + 1
        self.before = rows

    def end(self):
        self.goes = False
        self.thread.join()


def shown(rows):
    """The cameras that each member sees, as the desk decides it."""
    found = {member: [] for member in rows.members}
    for slot, (member, index) in rows.slots.items():
        camera = rows.subs.get(slot, None if index else rows.pins.get(rows.members[member]))
        if camera is not None and camera not in rows.mutes and rows.sources[camera][0] != member:
            found[member].append(camera)
    return found


def told_to(page):
    """What a page is told of its room: nothing while its agent isn't there."""
    status, said = page.state()
    return said if status == 200 else {"names": {}, "people": []}


class Staging(Trial):
    """The steps in which pictures follow who speaks."""

    def try_rule(self):
        """The rules by themselves."""
        hearing.try_speech(self.check)
        hearing.try_links(self.check)
        hearing.try_spared(self.check)
        hearing.try_overload(self.check)
        rule.try_all(self.check)

    def at_model(self, first_member, is_older=False, count=PAGES, pictures=3):
        """A model of the desk with a gateway of its own, and pages in a room of it."""
        front = Sound(is_older)
        ports = port_of(front.udp), front.server_address[1], self.parts.control
        parts = Parts(self.folder, *ports, first_member, pictures=pictures)
        self.others.append(parts)
        parts.start("agent")
        pages = [Page(parts, f"P{at}", FIRST + at, ROOM) for at in range(count)]
        said = [one.said for one in pages]
        self.check([status for status, _ in said] == [200] * count, f"{count} pages join", said)
        return front, parts, pages

    def go(self, front, parts, pages):
        """All leave."""
        for one in pages:
            one.goes_on = False
            parts.ask("leave", id=one.id)
        self.comes(lambda: not front.rows().members, "all leave, and nothing stays", front.rows)
        parts.stop("agent")
        front.ends()

    def try_eight(self):
        """Each of eight pages speaks once."""
        front, _, pages = self.model = self.at_model(800_000)
        members = [one.told["member"] for one in pages]
        three = lambda: all(len(seen) == 3 for seen in shown(front.rows()).values())
        self.comes(three, "each sees three of the others", lambda: shown(front.rows()))
        seen = Seen(front)
        for at, one in enumerate(pages):
            front.speaking = {one.ssrc}
            camera = one.ssrc + CAMERA
            sees = lambda: all(camera in each for who, each in shown(front.rows()).items() if who != members[at])
            self.comes(sees, f"{one.name} speaks: all others see it", lambda: shown(front.rows()), SPEAKS)
            self.is_told(pages, at)
            time.sleep(max(0, SPEAKS - 2))
        every = {(a, b) for a in members for b in members if a != b}
        self.check(seen.met == every, "after a round each has seen each other", sorted(every - seen.met))
        self.pin_among(front, pages)
        seen.end()
        self.check(not seen.faults, "nobody saw himself or one twice, and each picture stayed", seen.faults[:5])
        print(f"      {seen.changes} changes of slots by {front.log.version} calls of the desk")

    def try_by_hand(self):
        """The same pages mute themselves and page by hand, and one has a weak way."""
        front, parts, pages = self.model
        self.own_mutes(front, parts, pages)
        self.turns(front, parts, pages)
        self.screens(front, parts, pages)
        self.loses(front, pages)
        self.drops(front, parts, pages)
        self.go(front, parts, pages)

    def is_told(self, pages, at):
        """Whether pages are told who speaks."""
        wanted = [one is pages[at] for one in pages]
        said = lambda: [one["speaks"] for one in pages[at - 1].state()[1]["people"]]
        self.comes(lambda: said() == wanted, f"and pages are told so of {pages[at].name}", said, 5)

    def pin_among(self, front, pages):
        """A pin holds, is sent once, and an operator's mute before it is taken back beside what the gateway did."""
        pinned, muted = pages[2], pages[3]
        number = front.do(f"mute {muted.ssrc}").split()[1]
        version = front.log.version
        front.do(f"pin {ROOM} {pinned.ssrc + CAMERA}")
        once = lambda: pinned.ssrc + CAMERA not in front.rows().subs.values()
        self.comes(once, "a picture that is pinned is in no other slot", lambda: front.rows().subs, 3)
        for speaker in pages[5], pages[6], pages[7], pages[0], pages[1]:
            front.speaking = {speaker.ssrc}
            time.sleep(HOLD)
        pins = front.rows().pins
        self.check(pins == {ROOM: pinned.ssrc + CAMERA} and once(), "whoever speaks, a pin holds", pins)
        self.check(front.log.version > version + 1, "while slots change", front.log.version)
        before = front.rows()
        said = front.do(f"revert {number}")
        after = front.rows()
        good = said.startswith("ok ") and muted.ssrc not in after.mutes and after.subs == before.subs
        self.check(good, "an operator's mute is taken back beside these changes", said)
        lines = [line for line in front.log.history(50) if "subscribe " in line]
        by = {line.split()[1] for line in lines}
        self.check(by == {"0"}, "which are by the gateway's own seat", by)
        front.do(f"unpin {ROOM}")
        front.speaking = {pinned.ssrc}
        good = lambda: sum(pinned.ssrc + CAMERA in seen for seen in shown(front.rows()).values()) == PAGES - 1
        self.comes(good, "once the pin is taken, all see it again that speaks", lambda: shown(front.rows()), 5)

    def own_mutes(self, front, parts, pages):
        """Who mutes himself: the others see it, and he unmutes himself where no operator has muted him."""
        one, other = pages[0], pages[1]
        mutes = lambda wanted: parts.ask("mute", id=one.id, muted=wanted)
        said = lambda: next(each["muted"] for each in other.state()[1]["people"] if each["voice"] == one.ssrc)
        self.check(mutes(True)[0] == 200, "a page mutes itself")
        self.check(mutes(False)[0] == 429, "it asks once a second")
        self.comes(lambda: said() == "itself", "the others see it", said, 5)
        self.check(one.ssrc in front.rows().mutes, "and the desk has a row for it")
        time.sleep(1.1)
        self.check(mutes(False)[0] == 200 and one.ssrc not in front.rows().mutes, "it unmutes itself")
        self.comes(lambda: said() == "", "the others see that", said, 5)
        front.do(f"mute {one.ssrc}")
        self.comes(lambda: said() == "operator", "an operator mutes it: the others see that", said, 5)
        time.sleep(1.1)
        mutes(False)
        self.check(one.ssrc in front.rows().mutes, "which it can't take back")
        front.do(f"unmute {one.ssrc}")

    def turns(self, front, parts, pages):
        """Who pages by hand sees others, and is told of how many parts."""
        one, seen = pages[0], set()
        for page, text in (1, "the first part"), (2, "the second"), (3, "the last"):
            self.check(parts.ask("turn", id=one.id, page=page)[0] == 200, f"a page turns to {text}")
            view = lambda: one.state()[1]["view"]
            wanted = {"page": page, "of": 3, "weak": False, "small": True}
            self.comes(lambda: view() == wanted, "and is told so", view, 5)
            time.sleep(1.5)
            front.speaking = {pages[page].ssrc}
            seen |= {*shown(front.rows())[one.told["member"]]}
        others = {each.ssrc + CAMERA for each in pages if each is not one}
        self.check(seen == others, "it has seen all others by then", seen ^ others)
        for page in "1", -1, 100, None:
            status, said = parts.ask("turn", id=one.id, page=page)
            self.check(status == 400 and "`page`" in said, f"there is no page {page!r}", (status, said))

    def screens(self, front, parts, pages):
        """A page shows its screen: a second picture of its member, which all see, whoever speaks."""
        one, other = pages[6], pages[1]
        ssrc, member = one.ssrc + SCREEN, one.told["member"]
        parts.ask("turn", id=pages[0].id, page=0)
        shows = lambda shown, id=one.id: parts.ask("screen", id=id, shown=shown)
        seen = lambda: [who for who, each in shown(front.rows()).items() if ssrc in each]
        is_seen = lambda: len(seen()) == PAGES - 1 and member not in seen()
        self.check(shows(True)[0] == 200 and front.rows().sources.get(ssrc) == (member, "video"), "a screen is shown")
        self.comes(is_seen, "all others see it", seen, 2 * HOLD)
        for turn in range(3):
            front.speaking = {pages[turn].ssrc, pages[turn + 1].ssrc}
            time.sleep(HOLD)
        self.check(is_seen(), "whoever speaks", seen())
        parts.stop("agent", signal.SIGHUP)
        parts.start("agent")
        told = lambda: told_to(other)
        name = lambda: told()["names"].get(str(ssrc))
        self.comes(lambda: name() == f"{one.name}'s screen", "the next agent knows that it is a screen", told)
        of = lambda: next(each for each in told()["people"] if each["member"] == member)
        self.check(of()["screen"] == ssrc and of()["camera"] == one.ssrc + CAMERA, "and whose", of())
        number = front.do(f"remove-source {ssrc}").split()[1]
        self.comes(lambda: of()["screen"] is None, "an operator takes it away, and pages are told", of, 5)
        front.do(f"undo {number}")
        self.check(shows(True)[0] == 200 and ssrc in front.rows().sources, "it is there again", front.rows().sources)
        self.check(shows(False)[0] == 200 and ssrc not in front.rows().sources, "it is shown no more", seen())
        three = lambda: all(len(each) == 3 for each in shown(front.rows()).values())
        self.comes(three, "others are seen in its place", lambda: shown(front.rows()), 2 * HOLD)
        self.check(shows(True, "none")[0] == 410, "a call that nobody knows shows none")

    def loses(self, front, pages):
        """A page whose packets are lost gets fewer pictures, and is told so. The others don't."""
        member, begun = pages[4].told["member"], time.monotonic()
        slots = [slot for slot, (whose, _) in front.rows().slots.items() if whose == member]
        line = "stream {} fraction 0 lost {} highest 1 {} packets {} octets 9 resent 3 jitter 1 round-trip 3"
        sent = lambda: int((time.monotonic() - begun) * 100)
        said = lambda count: [*(line.format(slot, count // 3, count, count) for slot in slots), "end"]
        front.answers["stats"] = lambda: said(sent())
        left = lambda: len(shown(front.rows())[member])
        self.comes(lambda: left() == 0, "who loses packets gets fewer pictures, and then none", left, 20)
        self.comes(lambda: pages[4].state()[1]["view"]["weak"], "and is told so", pages[4].state, 5)
        front.answers["stats"] = lambda: ["end"]
        good = all(len(seen) == 3 for who, seen in shown(front.rows()).items() if who != member)
        self.check(good, "the others see as many as ever", shown(front.rows()))
        self.comes(lambda: left() > 0, "when none is lost, they come back", left, 40)

    def drops(self, front, parts, pages):
        """A lane of the bridge drops items: pages are told that it is overloaded, as long as it is."""
        begun, says = time.monotonic(), lambda: [one.state()[1]["overloaded"] for one in pages[:2]]
        counts = lambda: int((time.monotonic() - begun) * 10)
        front.answers["stats"] = lambda: [hearing.LANE.format(0, counts()), "end"]
        self.comes(lambda: all("overloaded" in one for one in says()), "the bridge drops items: pages say so", says, 5)
        self.check(hearing.WORDS in parts.log("agent"), "and the agent's log", parts.log("agent")[-500:])
        front.answers["stats"] = lambda: ["end"]
        self.comes(lambda: says() == ["", ""], "it drops no more: they don't", says, hearing.STANDS + 5)

    def try_sixteen(self):
        """Sixteen pages with fifteen pictures each: all see all, from the join of the last one on."""
        front, parts, pages = self.at_model(850_000, count=16, pictures=15)
        seen = [len(each) for each in shown(front.rows()).values()]
        self.check(seen == [15] * 16, "sixteen pages with 15 pictures see all others", seen)
        version = front.log.version
        front.speaking = {one.ssrc for one in pages[:5]}
        time.sleep(HOLD)
        self.check(front.log.version == version, "and no slot follows who speaks", front.log.history(1))
        self.go(front, parts, pages)
        words = [sys.executable, "-B", GATEWAY, "agent", Parts(self.folder, 1, 1, first_member=1, pictures=16).path]
        said = subprocess.run(words, capture_output=True, text=True, timeout=60, check=False)
        good = said.returncode and "`pictures` of [calls] has to be from 0 to 15" in said.stderr
        self.check(good, "16 pictures are a fault of the settings", said.stderr)

    def try_older(self):
        """A bridge that doesn't know levels: pictures stay as they are."""
        front, parts, pages = self.at_model(900_000, is_older=True)
        before = front.log.version
        front.speaking = {pages[7].ssrc}
        time.sleep(HOLD)
        self.check(front.log.version == before, "at an older bridge pictures stay as they are", front.log.version)
        state = pages[0].state()[1]
        good = state["speech"] is False and state["view"] is None and len(state["people"]) == PAGES
        self.check(good, "and pages are told that nobody knows who speaks", state)
        self.go(front, parts, pages)
