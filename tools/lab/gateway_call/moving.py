"""A browser whose network changes in mid-call: its address becomes another one, or its link is down for a while."""

import time

from lab.gateway_call import natted
from lab.gateway_call.again import Again
from lab.gateway_call.parts import Parts

# The most seconds until a browser is back whose address has changed, and for how many its link is down.
BACK, DOWN = 30, 12


class Moving(Again):
    """The step of such a browser."""

    def step_network_joins(self):
        """B is in a network of its own, and A isn't."""
        self.close_callers()
        self.comes(lambda: not self.rows(), "the call before is over", self.rows, 120)
        link = natted.Link()
        parts = Parts(self.folder, self.udp, self.tcp, first_member=510_000, outside=natted.HERE)
        self.others += [link, parts]
        parts.start("rtpengine")
        parts.start("agent")
        a = self.browser("A", parts.page).join()
        with link.within():
            b = self.browser("B", parts.far_page, [f"--unsafely-treat-insecure-origin-as-secure={parts.far_page}"])
        b.join()
        self.is_at(parts, b, link.address, "it joins")
        self.moved = parts, link, a, b

    def step_network(self):
        """What operators made of B stays with it."""
        parts, link, a, b = self.moved
        voice, camera, member = (b.joined[one] for one in ("voice", "camera", "member"))
        more = f"give-floor 1 {member} / set-gain {a.joined['member']} {voice} 128 / mute {camera}"
        number = self.do(f"group mute {voice} / pin 1 {camera} / {more}")
        before, id = self.kept(), b.run("call.id")
        self.moves(parts, b, link.moves, link, "its address changes")
        link.breaks()
        self.comes(lambda: "B, " in a.people() and "away" in a.people(), "its link is down: A sees it", a.people, DOWN)
        time.sleep(DOWN / 2)
        self.check(self.kept() == before, "meanwhile it is the member that it was", self.kept())
        self.moves(parts, b, link.heals, link, "its link is up again, at another address")
        good = b.run("call.id") == id and b.joined["member"] == b.run("call.told.member")
        self.check(good and self.kept() == before, "it is the same call, with mutes, gain, pin and floor", self.kept())
        self.comes(lambda: "muted your voice" in b.says(), "its page says so", b.says)
        self.revert(number)
        if not self.args.model:
            self.everyone_hears("B has another network")
            self.sees(a, "B has another network")
            self.sees(b, "it has another network")
        self.close_callers()

    def moves(self, parts, one, change, link, text):
        """Changes a browser's network. Whether media come from its new address then."""
        change()
        self.is_at(parts, one, link.address, text)

    def is_at(self, parts, one, address, text):
        """Whether a browser's media come from an address before long."""
        came = lambda: parts.engine.received(one.run("call.id"), "browser")
        first = came().packets
        is_so = lambda: (now := came()).ip == address and now.packets > first + 20
        took = self.comes(is_so, f"{text}: media come from {address}", lambda: (came(), one.says()), BACK)
        print(f"      after {took or 0:.1f} s")
