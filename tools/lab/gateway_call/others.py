"""Callers that join later than the call's own: Firefox, Linphone, and who is behind a NAT."""

from lab.gateway_call import natted
from lab.gateway_call.callers import FirefoxCaller, LinphoneCaller, PhoneCaller
from lab.gateway_call.holding import Holding
from lab.gateway_call.parts import ACCOUNTS, Parts
from lab.gateway_call.trial import lacking
from lab.sip import kamailio_lacks


class Others(Holding):
    """The steps of those who join later."""

    def step_firefox(self):
        """Firefox joins, is heard and seen by all, and leaves."""
        a = self.callers["A"]
        f = self.callers["F"] = FirefoxCaller("F", "firefox-esr", self.folder)
        f.at_page(self.parts.page)
        f.join()
        self.everyone_hears("Firefox joins", show=True)
        self.sees(f, "Firefox joins")
        self.sees(a, "Firefox joins")
        others = [one.name for one in self.browsers() if one is not f]
        self.check_decoding([f], range(2, 2 + len(others)))
        self.comes(lambda: all(name in f.names() for name in others), "its page names whom it hears and sees", f.names)
        number = self.do(f"group mute {f.joined['voice']} / pin 1 {f.joined['camera']}")
        self.everyone_hears("Firefox is muted", silent="F")
        self.sees(a, "Firefox is pinned", stage="F")
        self.revert(number)
        number = self.do(f"pin 1 {a.joined['camera']}")
        self.sees(f, "A is pinned", stage="A")
        self.revert(number)
        f.leave()
        self.callers.pop("F").close()
        self.sees(a, "Firefox leaves")

    def step_linphone(self):
        """Linphone joins, is heard by all and hears them, and hangs up."""
        before = self.members()
        self.rings("L", LinphoneCaller)
        self.everyone_hears("Linphone joins", show=True)
        source = next(row for row in self.rows() if row.startswith("source ") and row.split()[2] == self.last_member())
        number = self.do(f"mute {source.split()[1]}")
        self.everyone_hears("Linphone is muted", silent="L")
        self.revert(number)
        self.is_held("L")
        self.callers.pop("L").close()
        self.comes(lambda: self.members() == before, "Linphone hangs up, and is no member", self.rows)

    def step_nat(self):
        """Who is behind a NAT joins, and hears and is seen by who isn't. What they did before is over."""
        for name in [*self.callers]:
            if name != "A":
                self.callers.pop(name).close()
        a = self.callers["A"]
        a.leave()
        self.comes(lambda: not self.rows(), "the call before is over", self.rows, 40)
        nat = natted.Nat()
        self.others.append(nat)
        parts = Parts(self.folder, self.udp, self.tcp, first_member=500_000, outside=natted.OUTSIDE)
        self.others.append(parts)
        parts.start("rtpengine")
        parts.start("agent")
        a.at_page(parts.page)
        a.join()
        flags = [f"--unsafely-treat-insecure-origin-as-secure={parts.far_page}"]
        with nat.within():
            b = self.browser("B", parts.far_page, flags)
        b.join()
        if not (lacking("baresip") or kamailio_lacks()):
            parts.start("kamailio")
            before = self.members()
            (self.folder / "behind").mkdir()
            with nat.within():
                own = {"ip": natted.BEHIND, "password": ACCOUNTS["D"]}
                self.callers["D"] = PhoneCaller("D", self.folder / "behind", 5070, parts.sip, **own)
            self.comes(lambda: self.members() > before, "a phone behind a NAT is a member", self.rows, 20)
        self.everyone_hears("B and D are behind a NAT", show=True)
        self.sees(a, "B is behind a NAT")
        self.sees(b, "B is behind a NAT")
        self.check_decoding([a, b], (2,))
        print(f"      the NAT has {nat.flows()} flows of UDP")
        for one in self.browsers():
            one.leave()
        self.close_callers()
        self.comes(lambda: not self.rows(), "all leave: nobody is a member", self.rows, 40)
