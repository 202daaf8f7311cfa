"""Phones that hold a call, and take it up again."""

from lab.gateway_call.parts import SILENCE
from lab.gateway_call.refusals import port_in
from lab.gateway_call.sipping import HEARD, Sipping, hears, packets, talk
from lab.gateway_call.trial import Trial


class Holding(Trial):
    def try_holds(self):
        """A phone that holds the call says nothing for longer than a phone may that doesn't."""
        held, other = Sipping(self, 1, 7001), Sipping(self, 1, 7002, "other")
        # A further INVITE before anything has come.
        held.dialog.invite(held.offer)
        self.check(held.joins() and other.joins() and hears(held, other), "two phones talk", self.rows())
        before = self.rows()
        said = held.dialog.invite(held.offer + "a=inactive\r\n")
        good = said.status == 200 and "a=inactive" in said.body and port_in(said.body) == held.port
        self.check(good, "one holds the call, and is answered so", said.text)
        for _ in range(SILENCE + 3):
            talk(1, other)
        self.check(packets(held.media) <= HEARD and self.rows() == before, "it hears nothing, and is still a member")
        said = held.dialog.invite(held.offer)
        good = "a=sendrecv" in said.body and port_in(said.body) == held.port
        self.check(good, "it takes the call up again, and is answered so", said.text)
        self.check(hears(held, other) and self.rows() == before, "it hears again", self.rows())
        held.hang_up()
        self.comes(lambda: talk(0.2, other) == 0 and self.members() == 1, "one hangs up", self.rows)
        self.comes(lambda: not self.rows(), "who says nothing without a hold is gone", self.rows, SILENCE + 5)
        other.dialog.close()

    def is_held(self, name):
        """A phone holds the call, and takes it up again."""
        phone = self.callers[name]
        phone.hold()
        self.comes(lambda: not phone.gets(), f"phone {name} holds the call, and no sound comes")
        phone.resume()
        self.goes_on(name, "takes it up again")

    def goes_on(self, name, text):
        """Whether sound comes to a phone, and each other caller hears it."""
        self.comes(self.callers[name].gets, f"phone {name} {text}: sound comes")
        for other, one in self.callers.items():
            if other != name:
                good, levels = one.hears("".join(sorted(set(self.callers) - {other})))
                self.check(good, f"phone {name} {text}: {other} hears it", levels)
