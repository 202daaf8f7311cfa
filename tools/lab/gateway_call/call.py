"""The call of browsers and phones in one room, and its steps."""

import signal
import socket
import statistics
import time

from lab.gateway_call.callers import RATE, PhoneCaller
from lab.gateway_call.four import Four
from lab.gateway_call.fronted import Fronted
from lab.gateway_call.inviting import Inviting
from lab.gateway_call.keying import Keying
from lab.gateway_call.lossy import Lossy
from lab.gateway_call.moving import Moving
from lab.gateway_call.naming import Naming
from lab.gateway_call.others import Others
from lab.gateway_call.parts import ACCOUNTS, AWAY, LATE, Parts, until
from lab.gateway_call.reading import Reading
from lab.gateway_call.recipes import Recipes
from lab.gateway_call.refusals import Refusals
from lab.gateway_call.sharing import Sharing
from lab.gateway_call.staging import Staging
from lab.gateway_call.strangers import Strangers
from lab.gateway_call.trial import BROWSERS
from lab.gateway_call.trunks import Trunks
from lab.gateway_call.turning import Turning
from operators.serving import free_port

SWITCHES = 12
# In ms: the most that a new picture may take, and the share of packets that is lost.
MOST_MS, LOST = 1000, 0.02


class Apart(Moving, Sharing, Naming, Inviting, Turning, Reading):
    """The steps of what is tried apart."""


class Call(Refusals, Strangers, Others, Apart, Staging, Four, Fronted, Keying, Trunks, Recipes):
    """The call of browsers and phones."""

    def gather(self, names):
        """Has these callers in room 1. Those that were there stay."""
        missing = [name for name in names if name not in self.callers]
        for name in missing:
            if name in BROWSERS:
                self.browser(name).join()
            else:
                self.rings(name, PhoneCaller)
        if missing:
            self.everyone_hears("in one room", show=True)
            for one in self.browsers():
                self.sees(one, "in one room")
            if len(self.browsers()) > 1:
                self.check_decoding(self.browsers(), range(2, 1 + len(self.browsers())))

    def rings(self, name, phone):
        """A phone joins."""
        before = self.members()
        port, password = free_port(socket.SOCK_DGRAM), ACCOUNTS[name]
        self.callers[name] = phone(name, self.folder, port, self.parts.sip, password=password)
        self.comes(lambda: self.members() > before, f"phone {name} is a member", self.rows, 20)
        self.callers[name].member = self.last_member()

    def source_of(self, name):
        """The SSRC of a phone's source, once it is known."""
        member = self.callers[name].member
        sources = lambda: [row.split() for row in self.rows() if row.startswith("source ")]
        found = lambda: [row[1] for row in sources() if row[2] == member]
        self.comes(found, f"the source of phone {name} is known", self.rows)
        return found()[0]

    def check_decoding(self, browsers, mids):
        """Whether browsers decode the pictures of these m-sections, and what they lose of the mix and of them."""
        count = lambda one: sum(one.counts("inbound-rtp", mid).get("framesDecoded", 0) for mid in mids)
        before = [count(one) for one in browsers]
        time.sleep(4)
        frames = [count(one) - old for one, old in zip(browsers, before)]
        text = f"{frames} frames of {len(mids)} pictures in 4 s are decoded"
        self.check(min(frames) > len(mids) * 4 * RATE / 2, text, frames)
        for one in browsers:
            got = [one.counts("inbound-rtp", mid) for mid in (0, *mids)]
            told = ", ".join(f"{each.get('packetsLost')} of {each.get('packetsReceived')}" for each in got)
            print(f"      {one.name} lost of its mix and {len(mids)} pictures: {told} packets")

    def step_phones(self):
        """A phone is muted, and another one hangs up."""
        number = self.do(f"mute {self.source_of('D')}")
        self.everyone_hears("phone D is muted", silent="D")
        self.revert(number)
        self.everyone_hears("the mute is reverted")
        self.is_held("E")
        self.callers["E"].offer_again()
        self.goes_on("E", "has sent a further INVITE")
        before = self.members()
        self.callers.pop("E").close()
        self.comes(lambda: self.members() == before - 1, "a phone that hangs up is no member", self.rows)
        self.everyone_hears("phone E has hung up")

    def step_mutes(self):
        a, b, c = self.browsers()
        number = self.do(f"mute {b.joined['voice']}")
        self.everyone_hears("B is muted", silent="B")
        self.check("muted your voice" in b.says(), "B's page says so", b.says())
        self.revert(number)
        self.everyone_hears("the mute is reverted")
        slots = {one: one.shows_now().index("B") for one in (a, c)}
        number = self.do(f"mute {b.joined['camera']}")
        for one in a, c:
            self.sees(one, "B's picture is muted", without="B")
        moment = time.time()
        self.revert(number)
        for one in a, c:
            self.sees(one, "the picture's mute is reverted")
            print(f"      B's picture is back at {one.name} after {one.shown_since(slots[one], 'B', moment)} ms")

    def step_pins(self):
        """Pins one picture after another. How long until each browser has decoded its first frame."""
        took, browsers = {one.name: [] for one in self.browsers()}, self.browsers()
        for turn in range(SWITCHES):
            shown = browsers[turn % 3]
            moment = time.time()
            number = self.do(f"pin 1 {shown.joined['camera']}")
            for one in browsers:
                if one is not shown:
                    until(lambda: one.shown_since(0, shown.name, moment) is not None, 8)
                    took[one.name].append(one.shown_since(0, shown.name, moment))
            time.sleep(1.5 + turn % 3 / 2)
        for name, times in took.items():
            good = None not in times and max(times) <= MOST_MS
            self.check(good, f"{name} decodes the new picture within {MOST_MS} ms of each pin", times)
        every = [one for times in took.values() for one in times if one is not None]
        print(f"      {len(every)} new pictures: median {statistics.median(every)} ms, maximum {max(every)} ms")
        self.revert(number)
        self.sees(browsers[0], "the last pin is reverted", stage=browsers[(SWITCHES - 2) % 3].name)
        self.do("unpin 1")
        self.sees(browsers[0], "nothing is pinned")

    def step_floor(self):
        a, b, _ = self.browsers()
        number = self.do(f"give-floor 1 {b.joined['member']}")
        for one in self.browsers():
            self.sees(one, "B has the floor", stage="B")
        self.take_pictures("floor")
        self.revert(number)
        self.sees(a, "the floor is reverted")

    def step_removals(self):
        a, b, _ = self.browsers()
        member = b.joined["member"]
        for line in f"remove-member {member}", f"group add-room 2 / move-member {member} 2":
            number = self.do(line)
            self.everyone_hears(f"`{line}`", gone="B")
            self.undo(number)
            self.everyone_hears("that is undone")
            self.sees(a, "that is undone")

    def step_history(self):
        """A join is one group: one undo takes it back, and one redo brings it again."""
        c, before, version = self.callers["C"], self.members(), self.operator.show()[1]
        c.leave()
        self.comes(lambda: self.members() == before - 1, "C leaves", self.rows)
        self.check(self.operator.show()[1] == version + 1, "a leave is one change")
        c.join()
        joined, version = self.operator.show()
        self.undo(version)
        self.comes(lambda: "taken you out" in c.says(), "one undo takes C's join back, and its page says so", c.says)
        self.everyone_hears("C's join is undone", gone="C")
        self.do(f"redo {version + 1}")
        self.check(self.rows() == joined, "one redo brings it again")
        self.everyone_hears("C is back")

    def step_losses(self):
        """Two browsers join again by an agent whose packets go over a network that loses some both ways."""
        lossy = Lossy(self.udp, self.tcp, 0.0)
        parts = Parts(self.folder, lossy.udp, lossy.tcp, self.parts.control, first_member=400_000)
        self.others.append(parts)
        parts.start("agent")
        pair = self.browsers()[:2]
        for one in pair:
            one.leave()
            one.at_page(parts.page, room=2)
            one.join()
        for one in pair:
            self.sees(one, "over another network", without="C")
        lossy.share = LOST
        before = [(one.counts("inbound-rtp", 2), one.counts("outbound-rtp", 1)) for one in pair]
        time.sleep(20)
        after = [(one.counts("inbound-rtp", 2), one.counts("outbound-rtp", 1)) for one in pair]
        lossy.share = 0.0
        rise = lambda at, way, key: after[at][way].get(key, 0) - before[at][way].get(key, 0)
        for at, one in enumerate(pair):
            decoded, made = rise(at, 0, "framesDecoded"), rise(1 - at, 1, "framesEncoded")
            nacks, resent = rise(at, 0, "nackCount"), rise(at, 1, "retransmittedPacketsSent")
            text = f"{LOST:.0%} lost: {one.name} decodes {decoded} of {made} frames in 20 s, sends {nacks} NACKs"
            self.check(decoded > made * 0.85 and nacks and resent, f"{text}, and sends {resent} packets again")
        print(f"      {lossy.count}")
        for one in pair:
            one.leave()
            one.at_page(self.parts.page)
            one.join()
        parts.stop("agent")

    def step_deaths(self):
        """A browser is killed, rtpengine too, and the bridge: who is in the call is told, and comes again."""
        a = self.callers["A"]
        self.kill_browser("B")
        killed, before = time.monotonic(), a.run("call.id")
        self.parts.stop("rtpengine", signal.SIGKILL)
        self.comes(lambda: "doesn't answer" in a.says(), "A's page says that rtpengine is gone", a.says)
        # A phone doesn't learn of it, and goes on to send.
        if "D" in self.callers:
            self.callers.pop("D").close()
        self.parts.start("rtpengine")
        before = self.is_back(a, before, "rtpengine is started anew")
        self.restart_bridge()
        self.is_back(a, before, "the bridge is started anew")
        alone = lambda: self.members() == 1
        self.comes(alone, "the browser that was killed is a member no more", self.rows, 2 * AWAY + LATE)
        print(f"      after {time.monotonic() - killed:.0f} s")
        a.leave()
        a.join()
        self.everyone_hears("A joins again")

    def is_back(self, one, before, text):
        """Whether a page comes again without a click, as the member that it was. The id of its call."""
        id, words = lambda: one.run("!!call && !call.isComing && call.id"), f"You are member {one.joined['member']} in"
        is_so = lambda: id() not in (False, before) and words in one.says()
        took = self.comes(is_so, f"{text}: {one.name}'s page comes again by itself, as the same member", one.says, 40)
        print(f"      after {took or 0:.1f} s")
        one.joined = one.run("call && call.told") or one.joined
        one.run("shown = {}; watchFrames()")
        self.everyone_hears(text)
        return id()

    def kill_browser(self, name):
        """A browser that is killed is away, as one is that has lost its network."""
        member, one = self.callers[name].joined["member"], self.callers["A"]
        self.callers.pop(name).close()
        self.everyone_hears(f"{name} is killed")
        away = lambda: f"{name}, " in one.people() and "away" in one.people()
        self.comes(away, f"{name} is killed: A's page says that it is away", one.people)
        self.check(f" {member} " in str(self.rows()), "it is a member for a while", self.rows())
