"""What ends in mid-call, and what comes again by itself: an agent, rtpengine or the bridge. No media pass here."""

import json
import pathlib
import signal
import subprocess
import threading
import time
import urllib.error
import urllib.request

from lab.gateway_call.parts import AWAY, LATE, Parts, until
from lab.gateway_call.refusals import RawPhone, answer_of, offer_of
from lab.gateway_call.trial import Trial
from operators.shared import ROOT

import sdp

# The room of this, the SSRCs of pages that come again under others, and that of a phone.
ROOM, FIRST, PHONE = 7, 7000, 7900
# A page's camera has an SSRC so much above its voice's.
CAMERA = 500
# The page's script beside gateways that it makes up, and how many checks that has.
COMING, COMINGS = pathlib.Path(__file__).with_name("coming.js"), 47
# The page's scripts, in the order in which it loads them.
SCRIPTS = "devices.js", "room.js", "way.js", "losses.js", "screen.js", "join.js"
# How often a page tries to come again.
TRIES = 5
# The SSRC of a page's screen, so much above its voice's.
SCREEN = 50_000
# How many small slots a page has, and what its offers say of ICE and DTLS beside a user fragment.
SLOTS, UFRAG = 3, "a=ice-ufrag:"
WAYS = ["sendrecv"] * 2 + ["sendonly"] * SLOTS + ["recvonly"]
TRANSPORT = ["a=ice-pwd:abcdefghijklmnopqrstuvwx", "a=fingerprint:sha-256 " + ":".join(["AB"] * 32)]
# For how many seconds a page is silent that is away then, and those after which an agent of a test gives it up.
QUIET, GIVEN_UP = 9, 14


class Page:
    """A browser's page as the agent sees it: it asks how things stand, each second, and comes again where it may."""

    def __init__(self, parts, name, ssrc, room=ROOM, **more):
        self.parts, self.name, self.room, self.ssrc, self.parted = parts, name, room, ssrc, None
        self.goes_on, self.said = True, self.connected(**more)
        threading.Thread(target=self.asks, daemon=True).start()

    def asks(self):
        while self.goes_on and self.said[0] == 200:
            time.sleep(1)
            self.state()

    def connected(self, **more):
        """Joins, or comes again. What it is answered."""
        status, told = self.parts.ask("offer", room=str(self.room), name=self.name, **more)
        if status != 200:
            return status, told
        own = {"camera": self.ssrc + CAMERA, "screen": self.ssrc + SCREEN, "slots": self.parts.pictures}
        status, said = self.parts.ask("answer", id=told["id"], sdp=answer_of(ssrc=self.ssrc, **own))
        if status == 200:
            self.id, self.told = told["id"], said
        return status, said

    def state(self):
        """What it is told of its call, 0 and why where nobody answers."""
        try:
            status, told = self.parts.ask("state", id=self.id)
        except OSError as why:
            return 0, str(why)
        if status == 200:
            self.told |= {"again": told["again"]}
        return status, told if status == 200 or not told.startswith("{") else json.loads(told)

    def may_come(self):
        """Whether it is told that its call has ended, and that it may come again."""
        status, told = self.state()
        self.parted = told if status == 410 else None
        return isinstance(self.parted, dict) and self.parted["again"]

    def restarts(self, way, sections=None, **more):
        """Restarts ICE by an offer whose user fragment is `way`. Its status, and the sections that it is answered."""
        voice = [f"a=ssrc:{self.ssrc} cname:x", "a=sendrecv", "a=rtcp-mux", "a=setup:actpass", *TRANSPORT, UFRAG + way]
        media = ["m=audio 9 UDP/TLS/RTP/SAVPF 0 8", *voice, "m=video 9 UDP/TLS/RTP/SAVPF 96 97"]
        media += [f"a=ssrc:{self.ssrc + CAMERA} cname:x", "a=sendrecv"]
        media += ["m=video 9 UDP/TLS/RTP/SAVPF 96", "a=recvonly"] * SLOTS
        media += ["m=video 9 UDP/TLS/RTP/SAVPF 96", "a=sendonly", f"a=ssrc:{self.ssrc + SCREEN} cname:x"]
        offer = offer_of(media[:sections])
        status, told = self.parts.ask("restart", **{"id": self.id, "sdp": offer} | more)
        return status, sdp.sections(told["sdp"]) if status == 200 else told

    def comes_again(self, ssrc):
        """Comes again, and tries that anew as a browser's page does: an rtpengine that is started anew may give it the
        port of a member who hasn't come again yet."""
        self.ssrc = ssrc
        for _ in range(TRIES):
            said = self.connected(again=self.told["again"])
            if said[0] != 503:
                break
            time.sleep(1)
        return said


class Again(Trial):
    """The steps in which a part ends."""

    def pages_join(self):
        """Two pages in a room and a phone, one of them muted, and what else operators do."""
        for one in getattr(self, "pages", []):
            one.goes_on = False
        self.pages = [Page(self.parts, name, FIRST + at) for at, name in enumerate(("first", "second"))]
        said = [one.said for one in self.pages]
        self.check([status for status, _ in said] == [200, 200], "two pages join", said)
        self.phone = RawPhone(self.parts, "again", offer_of(["m=audio 5000 RTP/AVP 0"]), PHONE, ROOM)
        self.phone_sends()
        self.comes(lambda: self.members() == 3, "a phone is a member", self.rows)
        first, second = (one.told["member"] for one in self.pages)
        pin = f"pin {ROOM} {FIRST + CAMERA}"
        self.do(f"group mute {FIRST} / set-gain {second} {FIRST} 128 / give-floor {ROOM} {first} / {pin}")
        muted = lambda: self.pages[0].state()[1]["muted"] == [FIRST]
        self.comes(muted, "an operator mutes one, and its page says so", self.rows)
        once = lambda: not any(row.startswith("sub ") and row.endswith(f" {FIRST + CAMERA}") for row in self.rows())
        self.comes(once, "what is pinned is sent once", self.rows)

    def phone_sends(self, seconds=1):
        """A phone's packets go on, whatever becomes of its call."""
        for _ in range(int(seconds * 20)):
            self.phone.send(int(time.monotonic() * 50))
            time.sleep(0.05)

    def stays(self, ssrc, text):
        """Whether what operators did is there for a page's member under this SSRC."""
        member, rows = self.pages[0].told["member"], self.rows()
        second = self.pages[1].told["member"]
        wanted = {f"mute {ssrc}", f"gain {second} {ssrc} 128", f"floor {ROOM} {member}", f"pin {ROOM} {ssrc + CAMERA}"}
        good = wanted <= {*rows}
        self.check(good, f"{text}: what an operator muted stays muted, and so do gains, pin and floor", rows)
        # The first one's picture is pinned, and so on the other one's stage.
        wanted = [[str(self.pages[1].ssrc + CAMERA)], []]
        self.comes(lambda: self.seen() == wanted, f"{text}: each sees the other one, once", self.rows, 3)

    def seen(self):
        """What the slots of each page show."""
        rows = [row.split(" ") for row in self.rows()]
        own = [[row[1] for row in rows if row[:3:2] == ["slot", str(one.told["member"])]] for one in self.pages]
        return [[row[2] for row in rows if row[0] == "sub" and row[1] in slots] for slots in own]

    def try_page_script(self):
        """The page by itself, beside gateways that aren't there."""
        words = ["node", COMING, *(ROOT / "examples/gateway" / one for one in SCRIPTS)]
        said = subprocess.run(words, capture_output=True, text=True, timeout=170, check=False)
        for line in said.stdout.splitlines():
            kind, _, text = line.partition(": ")
            self.check(kind == "ok", text)
        good = said.stdout.count("ok: ") == COMINGS
        self.check(good, f"all {COMINGS} ways of the page were tried", said.stderr[-500:])

    def try_sites(self):
        """A page of another gateway, which the settings name, may ask this one and read what it says."""
        for origin, wanted, how in (self.parts.page, 410, "reads"), ("http://evil.example", 403, "can't read"):
            request = urllib.request.Request(f"{self.parts.page}/state", b'{"id": "none"}', {"Origin": origin})
            try:
                said = urllib.request.urlopen(request, timeout=30)
            except urllib.error.HTTPError as why:
                said = why
            allowed = said.headers.get("Access-Control-Allow-Origin")
            good = said.status == wanted and allowed == (origin if wanted == 410 else None)
            self.check(good, f"a page of {origin} is answered {wanted}, and {how} what is said", (said.status, allowed))
        with urllib.request.urlopen(f"{self.parts.page}/", timeout=30) as said:
            policy = said.headers["Content-Security-Policy"]
        good = f"connect-src 'self' {self.parts.page} {self.parts.far_page};" in policy
        self.check(good, "the page may ask those sites, and no others", policy)

    def try_agent_again(self):
        self.pages_join()
        before = self.operator.show()
        for text, by in ("killed", signal.SIGKILL), ("ended by SIGHUP", signal.SIGHUP):
            self.parts.stop("agent", by)
            self.phone_sends(2)
            self.parts.start("agent")
            self.phone_sends(3)
            after = self.operator.show()
            self.check(after == before, f"an agent that is {text} and started anew changes no row", after)
        said = [one.state() for one in self.pages]
        self.check([one[0] for one in said] == [200, 200], "its pages go on, by the calls that they had", said)
        good = said[0][0] == 200 and said[0][1]["muted"] == [FIRST] and "second" in said[0][1]["names"].values()
        self.check(good, "with their names, and who was muted is", said)
        self.check(self.parts.calls() == 3, "rtpengine has three calls")
        number = self.pages[1].told["member"]
        self.pages[1].parts.ask("leave", id=self.pages[1].id)
        self.check(f" {number} " not in str(self.rows()), "one leaves by that agent", self.rows())
        self.phone.hang_up()
        self.comes(lambda: self.members() == 1, "and the phone hangs up", self.rows)
        self.pages[0].parts.ask("leave", id=self.pages[0].id)
        self.comes(lambda: not self.rows(), "the room goes with its last member", self.rows)
        self.check(self.parts.calls() == 0, "and rtpengine has no call")

    def try_restarts(self):
        """A page whose network changes restarts ICE, and is the member that it was. Away, it stays one for a while."""
        self.pages_join()
        one, other = self.pages
        self.phone.hang_up()
        self.comes(lambda: self.members() == 2, "the phone hangs up", self.rows)
        before, streams = self.kept(), {row.split()[6] for row in self.rows() if row.startswith("member ")}
        streams |= {row.split()[1] for row in self.rows() if row.startswith("slot ")}
        ways = set()
        for way in "next", "last":
            status, told = one.restarts(way)
            self.check(status == 200 and len(told) == 3 + SLOTS, "a page restarts ICE", told)
            ways |= {word for each in told for word in each.transport() if word.startswith("ice-ufrag")}
            good = all("setup:passive" in each.attributes for each in told)
            good = good and {str(each.ssrc) for each in told[:-1]} <= streams
            self.check(good, "and is answered by the streams that it had", [each.attributes for each in told])
            directions = [sdp.direction_of(each) for each in told]
            self.check(directions == WAYS, "in their directions", directions)
        self.check(len(ways) == 2, "each time by credentials of their own", ways)
        self.refuses_restarts(one)
        one.goes_on = False
        away = lambda: [each["away"] for each in other.state()[1]["people"]][:2]
        self.comes(lambda: away() == [True, False], "it is silent: the others are told that it is away", away, QUIET)
        time.sleep(2)
        status, told = one.restarts("back")
        self.check(status == 200 and one.state()[0] == 200, "it comes back by another network", told)
        self.comes(lambda: away() == [False, False], "and is away no more", away, 3)
        self.check(self.kept() == before, "meanwhile no row of the desk has changed", (before, self.kept()))
        self.leave()

    def kept(self):
        """The rows that stay: all but who is seen in small slots."""
        return [row for row in self.rows() if not row.startswith("sub ")]

    def refuses_restarts(self, one):
        """Offers that restart nothing, and change nothing."""
        for text, wanted, said in (
            ("an offer of few sections", 409, one.restarts("few", 10)),
            ("an offer without audio", 406, one.restarts("none", 0)),
            ("a call that nobody knows", 410, one.restarts("lost", id="none")),
        ):
            self.check(said[0] == wanted, f"{text} restarts nothing: {wanted}", said)
        status, told = self.parts.ask("offer", room=ROOM, name="early")
        said = one.restarts("early", id=told["id"])
        self.check(status == 200 and said[0] == 409, "nor does one before its answer: 409", said)
        self.parts.ask("leave", id=told["id"])

    def try_given_up(self):
        """A page that doesn't come back from its other network is a member for `away` seconds, and not for longer."""
        parts = Parts(self.folder, self.udp, self.tcp, self.parts.control, first_member=860_000, away=GIVEN_UP)
        self.others.append(parts)
        parts.start("agent")
        one = Page(parts, "gone", FIRST + 40)
        one.goes_on = False
        time.sleep(QUIET)
        self.check(self.members() == 1, "a page that is silent is a member", self.rows())
        self.comes(lambda: not self.rows(), f"for {GIVEN_UP} s", self.rows, GIVEN_UP - QUIET + LATE / 2)
        status, told = one.restarts("late")
        self.check(status == 410 and "Press Join" in str(told), "it comes too late, and is told so", told)
        parts.stop("agent")

    def try_rtpengine_again(self):
        self.pages_join()
        members = [one.told["member"] for one in self.pages]
        self.parts.stop("rtpengine", signal.SIGKILL)
        self.parts.start("rtpengine")
        status, told = self.pages[0].restarts("gone")
        good = status == 410 and json.loads(told)["again"]
        self.check(good, "rtpengine is started anew: who restarts ICE is told to come again", told)
        for one in self.pages:
            self.comes(one.may_come, f"and so is {one.name}", one.state, 30)
        rows, version = self.operator.show()
        kept = [member for member in members if f" {member} {ROOM} " in str(rows)]
        self.check(kept == members, "meanwhile both are members", rows)
        said = self.pages[0].comes_again(FIRST + 10)
        self.check(said[0] == 200 and said[1]["member"] == members[0], "it is the member that it was", said)
        self.check(self.operator.show()[1] == version + 1, "that is one call of the desk")
        self.stays(FIRST + 10, "rtpengine")
        self.strange_keys()
        said = self.pages[1].comes_again(FIRST + 11)
        self.check(said[0] == 200 and said[1]["member"] == members[1], "so is the other one", said)
        self.stays(FIRST + 10, "the other one comes later")
        self.comes(lambda: self.members() == 2, "the phone's member goes: it has to call again", self.rows, 30)
        self.leave()

    def strange_keys(self):
        """Pages that come again as a member that they weren't."""
        one, before = self.pages[1], self.rows()
        key = one.told["again"]
        member = self.pages[0].told["again"]["member"]
        for text, again in (
            ("a key that is wrong", key | {"key": "0" * 64}),
            ("the key of another member", key | {"member": member}),
            ("a key of the mix before", key | {"mix": key["mix"] + 1}),
        ):
            status, said = one.connected(again=again)
            self.check(status == 410 and "no member of this call" in str(said), f"{text} is refused", (status, said))
        for again in {}, [], {"member": "1", "mix": 1, "key": ""}, {"member": 1, "mix": 1}:
            status, said = one.connected(again=again)
            self.check(status == 400 and "`again`" in str(said), f"{again} is refused", (status, said))
        self.check(self.rows() == before, "and no row changes", self.rows())

    def try_bridge_again(self):
        self.pages_join()
        members = [one.told["member"] for one in self.pages]
        self.restart_bridge()
        for one in self.pages:
            self.comes(one.may_come, f"the bridge is started anew: {one.name} is told to come again", one.state, 30)
        self.phone_sends(2)
        sources = lambda: [row for row in self.rows() if row.startswith(f"source {PHONE} ")]
        self.comes(sources, "the phone is a member again, by itself", self.rows)
        for at, one in enumerate(self.pages):
            said = one.comes_again(FIRST + 20 + at)
            self.check(said[0] == 200 and said[1]["member"] == members[at], f"{one.name} is the member it was", said)
        self.stays(FIRST + 20, "the bridge")
        self.check(self.members() == 3, "all three are members", self.rows())
        self.leave()

    def try_nobody_comes(self):
        """A page doesn't come again, and one whose member an operator removes meanwhile."""
        self.pages_join()
        self.parts.stop("rtpengine", signal.SIGKILL)
        self.parts.start("rtpengine")
        for one in self.pages:
            self.comes(one.may_come, f"{one.name} is told to come again", one.state, 30)
        self.do(f"remove-member {self.pages[0].told['member']}")
        status, said = self.pages[0].comes_again(FIRST + 30)
        good = status == 410 and "no member of this call" in str(said)
        self.check(good, "who was removed meanwhile is no member by coming again", (status, said))
        took = self.comes(lambda: not self.rows(), "who doesn't come is a member no more", self.rows, AWAY + LATE)
        print(f"      after {took or 0:.0f} s")
        status, said = self.pages[1].comes_again(FIRST + 31)
        self.check(status == 410, "and can't come again then", (status, said))
        self.phone.hang_up()
        self.check(self.parts.calls() == 0, "nothing stays at rtpengine", self.parts.calls())

    def leave(self):
        for one in self.pages:
            one.parts.ask("leave", id=one.id)
        self.phone.hang_up()
        self.comes(lambda: not self.rows() and self.parts.calls() == 0, "all leave, and nothing stays", self.rows)

    def step_pages(self):
        """Chromium comes again without a click."""
        one = self.browser("A").join()
        member = one.joined["member"]
        number = self.do(f"mute {one.joined['voice']}")
        self.comes(lambda: "muted your voice" in one.says(), "a browser is muted", one.says)
        says = lambda: f"You are member {member} in room 1. An operator has muted your voice." in one.says()
        for text, ends, begins in (
            ("rtpengine is killed", lambda: self.parts.stop("rtpengine", signal.SIGKILL), self.engine_begins),
            ("the bridge is killed", lambda: self.bridge.kill(), self.restart_bridge),
        ):
            before = one.run("call.id")
            ends()
            time.sleep(1)
            begins()
            took = self.comes(lambda: one.run("!!call && call.id") != before and says(), text, one.says, 40)
            print(f"      {text}: its page is the same member again, and muted, {took or 0:.1f} s after that is back")
        before = one.run("call.id")
        self.parts.stop("agent", signal.SIGKILL)
        self.comes(lambda: "doesn't answer" in one.says(), "the agent is killed: its page says so", one.says)
        self.parts.start("agent")
        self.comes(says, "the agent is started anew: its page goes on", one.says)
        self.check(one.run("call.id") == before, "by the call that it had")
        rows = self.rows()
        self.check(f"mute {one.run('call.told.voice')}" in rows and number, "the operator's mute is there", rows)
        self.callers.pop("A").close()
        until(lambda: not self.rows(), 20)

    def engine_begins(self):
        self.parts.start("rtpengine")
