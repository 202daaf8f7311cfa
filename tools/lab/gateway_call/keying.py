"""Phones that press keys: `*6` mutes who calls, and a PIN opens a room."""

import time

from lab.gateway_call.parts import LOCKED, PIN, SILENCE
from lab.gateway_call.phoning import Phoning
from lab.gateway_call.sounds import KEY_TYPE

# What a phone offers that has keys.
WITH_KEYS = "a=rtpmap:0 PCMU/8000", f"a=rtpmap:{KEY_TYPE} telephone-event/8000", f"a=fmtp:{KEY_TYPE} 0-15"


class Keying(Phoning):
    """The steps of keys."""

    def try_keys(self):
        """`*6` mutes who calls, and a PIN opens a room."""
        phone = self.sound(4050)
        types = f"0 {KEY_TYPE}"
        one = self.ringing(self.sipp(phone, types=types, lines=WITH_KEYS).waits(40).asks("BYE").waits(1), phone)
        self.is_in(4050)
        muted = lambda: "mute 4050" in self.rows()
        self.check("telephone-event/8000" in one.answer(), "a phone's keys are taken", one.answer())
        phone.press("*6")
        self.comes(muted, "*6 mutes it, and the desk shows so", self.rows)
        phone.press("*6")
        self.comes(lambda: not muted(), "*6 unmutes it", self.rows)
        self.do("mute 4050")
        phone.press("*6")
        time.sleep(1)
        self.check(muted(), "*6 doesn't undo an operator's mute", self.rows())
        self.do("unmute 4050")
        phone.press("*6")
        self.comes(muted, "*6 mutes it again", self.rows)
        unmute = self.do("unmute 4050")
        self.do("mute 4050")
        phone.press("*6")
        time.sleep(1)
        self.check(muted(), "nor the one by which an operator has taken its place", self.rows())
        self.do(f"revert {unmute}")
        phone.press("*6")
        time.sleep(1)
        self.check(muted(), "nor with its own, where the unmute between them is reverted", self.rows())
        self.answered_once(one, "a phone presses keys")
        phone.close()
        one.close()
        self.comes(lambda: not self.rows(), "it is gone", self.rows, SILENCE + 10)
        self.try_pins(types)

    def try_pins(self, types):
        phone = self.sound(4051)
        call = self.sipp(phone, LOCKED, types=types, lines=WITH_KEYS).waits(20).asks("BYE").waits(1)
        one = self.ringing(call, phone)
        time.sleep(2)
        self.check(not self.rows(), "without its PIN a room isn't joined", self.rows())
        phone.press("1111#")
        time.sleep(1)
        self.check(not self.rows(), "nor with a wrong one", self.rows())
        phone.press(f"{PIN}#")
        self.is_in(4051, "its PIN opens it")
        self.ends(one, "it hangs up", 40)
        two = self.ringing(
            self.sipp(phone, LOCKED, "other", types=types, lines=WITH_KEYS).gets("BYE", 30).waits(1), phone
        )
        time.sleep(1)
        for _ in range(3):
            phone.press("1357#")
        self.comes(lambda: two.counts("BYE "), "three wrong ones end a call by a BYE", two.said)
        self.check(not self.rows(), "and nobody is in the room", self.rows())
        self.ends(two, "its scenario is over")
        phone.close()
