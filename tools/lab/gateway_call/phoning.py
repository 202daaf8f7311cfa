"""Phones as people use them, by SIPp: each scenario says which messages have to come, and how many came is counted."""

import signal
import time

from lab.gateway_call.parts import NAME, NAMED, REMOVED, SILENCE, Parts, until
from lab.gateway_call.refusals import answer_of, port_in
from lab.gateway_call.sipps import Sipp, sdp
from lab.gateway_call.sounds import Sound
from lab.gateway_call.trial import Trial
from operators.models.desk import MOST_PARTS
from operators.shared import fail

# A 200 that isn't confirmed comes again after half a second, then after one and two more.
AGAIN = 5
# After how many seconds without an agent or a bridge the calls of a test are over.
SHORTLY = 6


class Phoning(Trial):
    """The steps of phones."""

    def ringing(self, scenario, sound=None):
        """Begins a scenario, and its sound once that knows where to."""
        self.others.append(scenario.run())
        self.comes(scenario.answer, f"{scenario.user} calls room {scenario.room}", scenario.said, 20)
        if sound and scenario.answer():
            sound.to = port_in(scenario.answer())
        return scenario

    def sipp(self, sound, room=1, user="test", more=(), types="0", lines=(), **words):
        """A phone's scenario that has begun with an INVITE."""
        one = Sipp(self.parts, self.folder, room, user, **words)
        return one.asks("INVITE", sdp(sound.port, types, lines), more=more)

    def answered_once(self, scenario, text):
        """Whether a call that goes on has its answer to the one INVITE, and no message else."""
        count = scenario.counts("SIP/2.0 200", "INVITE")
        self.check(count == 1, f"{text}: one 200 comes", count)
        self.no_others(scenario, text)

    def sound(self, ssrc, **more):
        one = Sound(ssrc, **more)
        self.others.append(one)
        return one

    def is_in(self, ssrc, text="its sound makes it a member"):
        self.comes(lambda: f"source {ssrc} " in " ".join(self.rows()), text, self.rows, 20)

    def ends(self, scenario, text, seconds=30):
        """Whether a scenario comes to its end, and each message came that it names, and no other one."""
        self.is_over(scenario, text, seconds)
        self.no_others(scenario, text)

    def is_over(self, scenario, text, seconds=30):
        """Whether a scenario comes to its end, and each message came that it names."""
        self.comes(lambda: scenario.process.poll() is not None, f"{text}: it comes to its end", seconds=seconds)
        self.check(scenario.is_done(), f"{text}: all messages come that have to", scenario.said())

    def no_others(self, scenario, text):
        """Whether no message came that a scenario doesn't name, and none more often than it does."""
        self.check(not scenario.surplus(), f"{text}: no others come", (scenario.surplus(), scenario.said()))

    def gets_bye(self, text, ssrc, end, seconds=20, room=1, parts=None):
        """Whether one BYE comes to a phone after something has ended its call."""
        sound = self.sound(ssrc)
        one = Sipp(parts or self.parts, self.folder, room).asks("INVITE", sdp(sound.port)).gets("BYE", 60).waits(2)
        self.ringing(one, sound)
        self.is_in(ssrc)
        begun = time.monotonic()
        end()
        self.comes(lambda: one.counts("BYE "), f"{text}: a BYE comes", one.said, seconds)
        print(f"      after {time.monotonic() - begun:.1f} s")
        self.ends(one, text)
        self.check(one.counts("BYE ") == 1, f"{text}: one BYE comes", one.counts("BYE "))
        sound.close()

    def try_goodbyes(self):
        """A BYE goes to a phone whose call is over, whoever ended it."""
        self.gets_bye("an operator removes a phone", 4001, lambda: self.do(f"remove-member {self.last_member()}"))
        self.gets_bye("its room ends", 4002, lambda: self.do("remove-room 3"), room=3)
        self.gets_bye("the agent is stopped", 4003, lambda: self.parts.stop("agent"))
        self.parts.start("agent")
        self.gets_bye("rtpengine is started anew", 4004, self.engine_anew)
        sound = self.sound(4005)
        one = self.ringing(self.sipp(sound).waits(REMOVED + 6).asks("BYE").waits(1), sound)
        self.is_in(4005)
        number = self.do(f"remove-member {self.last_member()}")
        time.sleep(1)
        self.undo(number)
        self.ends(one, "a removal is undone in time, and no BYE comes")
        self.check(one.counts("BYE ") == 0, "none is counted", one.said())
        sound.close()

    def try_kamailio_again(self):
        """Kamailio is killed in mid-call, and started anew: it sends a BYE to phones whose calls are over, also where
        they ended meanwhile."""
        self.gets_bye("Kamailio is killed, and an operator removes a phone later", 4008, self.kamailio_anew)
        self.gets_bye("an operator removes a phone while Kamailio is gone", 4009, lambda: self.kamailio_anew(True), 40)
        self.gets_bye("so is the agent before it", 4011, lambda: self.kamailio_anew(by_agent=True), 40)
        sound = self.sound(4012)
        one = self.ringing(self.sipp(sound).waits(6).asks("BYE").waits(8), sound)
        self.is_in(4012)
        self.comes(lambda: one.counts("SIP/2.0 200", "BYE"), "a phone hangs up", one.said, 20)
        self.parts.stop("kamailio", signal.SIGKILL)
        self.parts.start("kamailio")
        self.ends(one, "Kamailio is killed after a phone has hung up")
        self.check(one.counts("BYE ") == 0, "it gets no BYE", one.said())
        sound.close()

    def kamailio_anew(self, is_gone_first=False, by_agent=False):
        """Kamailio is killed and started anew, and an operator removes who joined last: before that, or after it."""
        if by_agent:
            self.parts.stop("agent", signal.SIGKILL)
            self.parts.start("agent")
        # The agent is told of a call within a second or two.
        time.sleep(3)
        self.parts.stop("kamailio", signal.SIGKILL)
        if not is_gone_first:
            self.parts.start("kamailio")
        self.do(f"remove-member {self.last_member()}")
        if is_gone_first:
            self.comes(lambda: self.parts.calls() == 0, "its call is over", self.parts.calls, REMOVED + 10)
            self.parts.start("kamailio")

    def engine_anew(self):
        self.parts.stop("rtpengine", signal.SIGKILL)
        self.parts.start("rtpengine")

    def try_gone_for_good(self):
        """An agent and a bridge that don't come back: after `away` a BYE goes to each phone."""
        parts = Parts(self.folder, self.udp, self.tcp, self.parts.control, first_member=800_000, away=SHORTLY)
        self.others.append(parts)
        for part in "agent", "kamailio":
            parts.start(part)
        kill = lambda: parts.stop("agent", signal.SIGKILL)
        self.gets_bye("the agent is killed", 4006, kill, SHORTLY + 20, parts=parts)
        parts.start("agent")
        self.comes(lambda: not self.rows(), "its member goes", self.rows, SHORTLY + SILENCE + 20)
        self.gets_bye("the bridge is killed", 4007, self.bridge.kill, SHORTLY + 20, parts=parts)
        parts.close()
        self.bridge.wait()
        self.start_bridge()

    def try_acks(self):
        """A 200 comes once where an ACK confirms it, and again where none does."""
        sound = self.sound(4010)
        one = self.ringing(self.sipp(sound).waits(AGAIN).asks("BYE").waits(1), sound)
        self.ends(one, "a call is confirmed")
        self.check(one.counts("SIP/2.0 200", "INVITE") == 1, "its 200 comes once", one.said())
        two = Sipp(self.parts, self.folder).asks("INVITE", sdp(sound.port), ack=False).waits(3)
        two.send("ACK").waits(3).asks("BYE").waits(1)
        self.is_over(self.ringing(two), "one is confirmed late")
        count = two.counts("SIP/2.0 200", "INVITE")
        self.check(count > 1, f"its 200 comes {count} times", two.said())
        sound.close()

    def try_music_on_hold(self):
        """Who is held isn't heard, whatever plays to the room meanwhile. An operator's mute stays after it."""
        held, other = self.sound(4020), self.sound(4021, hertz=700)
        hold, again = sdp(held.port, more=["a=sendonly"]), sdp(held.port)
        dead = sdp(held.port, more=["a=inactive"])
        one = self.sipp(held).waits(8).asks("INVITE", hold).waits(12).asks("INVITE", again).waits(12)
        one.asks("INVITE", dead).waits(6).asks("INVITE", again).waits(8).asks("BYE").waits(1)
        two = self.ringing(self.sipp(other, user="other").waits(80), other)
        self.ringing(one, held)
        self.is_in(4020)
        self.is_in(4021)
        self.check(other.hears(1000), "a phone is heard", other.level(1000))
        answers = lambda count: until(lambda: one.counts("SIP/2.0 200", "INVITE") == count, 30) is not None
        self.check(answers(2) and "a=recvonly" in one.answer(), "its sendonly is answered recvonly", one.answer())
        self.check(other.is_quiet(1000), "its music on hold isn't heard", other.level(1000))
        number = self.do("mute 4020")
        self.check(answers(3) and "a=sendrecv" in one.answer(), "it takes the call up again", one.answer())
        self.check(other.is_quiet(1000), "an operator has muted it meanwhile: it isn't heard", other.level(1000))
        self.revert(number)
        self.check(other.hears(1000), "that is reverted: it is heard", other.level(1000))
        self.check(answers(4) and "a=inactive" in one.answer(), "its inactive is answered inactive", one.answer())
        self.check(other.is_quiet(1000), "and nothing of it is heard", other.level(1000))
        self.check(answers(5) and other.hears(1000), "it is heard again", other.level(1000))
        self.ends(one, "it hangs up", 40)
        two.close()
        for sound in held, other:
            sound.close()
        self.comes(lambda: not self.rows(), "both are gone", self.rows, SILENCE + 10)

    def try_rebinding(self):
        """A NAT gives a phone another port. Who sends from elsewhere doesn't take its place."""
        moved, other = self.sound(4030), self.sound(4031, hertz=700)
        one = self.ringing(self.sipp(moved).waits(60).asks("BYE"), moved)
        two = self.ringing(self.sipp(other, user="other").waits(60), other)
        self.is_in(4030)
        self.check(moved.hears(700) and other.hears(1000), "two phones hear each other", self.rows())
        time.sleep(4)
        stranger = self.sound(4032, hertz=1500, ip="127.0.0.66")
        moved.sends, stranger.to = False, moved.to
        time.sleep(6)
        self.check(stranger.count == 0, "a stranger who sends while a phone is silent gets nothing", stranger.count)
        moved.opens("127.0.0.1")
        moved.sends = True
        begun = time.monotonic()
        self.check(moved.hears(700, 20), "at its new port the phone hears the other one", moved.level(700))
        print(f"      after {time.monotonic() - begun:.1f} s")
        self.check(other.hears(1000), "and is heard", other.level(1000))
        good = stranger.count == 0 and other.level(1500) < 0.01
        self.check(good, "the stranger gets nothing, and isn't heard", (stranger.count, other.level(1500)))
        self.answered_once(one, "a NAT gives it another port")
        for each in moved, other, stranger, one, two:
            each.close()
        self.comes(lambda: not self.rows(), "all are gone", self.rows, SILENCE + 10)

    def try_codecs(self):
        """Phones without PCMU: rtpengine makes that of what they send, and the other way."""
        other = self.sound(4040, hertz=700)
        two = self.ringing(self.sipp(other, user="other").waits(100), other)
        self.is_in(4040)
        for at, (encoding, type_, line) in enumerate(
            (("PCMA", 8, "PCMA/8000"), ("G722", 9, "G722/8000"), ("opus", 111, "opus/48000/2"))
        ):
            phone = self.sound(4041 + at, encoding=encoding)
            lines = [f"a=rtpmap:{type_} {line}", "a=rtpmap:18 G729/8000"]
            one = self.ringing(self.sipp(phone, types=f"{type_} 18", lines=lines).waits(25).asks("BYE").waits(1), phone)
            good = f"RTP/AVP {type_}\n" in one.answer()
            self.check(good, f"a phone with {encoding} is answered {encoding} alone", one.answer())
            self.check(other.hears(1000, 20), f"it is heard: {encoding}", (other.level(1000), self.rows()))
            self.check(phone.types() == {type_} and phone.count > 5, f"and {encoding} comes to it", phone.types())
            self.answered_once(one, f"a phone with {encoding}")
            phone.close()
            one.close()
            self.comes(lambda: self.members() == 1, "it is gone", self.rows, SILENCE + 10)
        other.close()
        two.close()
        self.comes(lambda: not self.rows(), "all are gone", self.rows, SILENCE + 10)

    def try_room_names(self):
        """A room by its name, of a phone and of a page."""
        phone = self.sound(4060)
        one = self.ringing(self.sipp(phone, NAME).waits(6).asks("BYE").waits(1), phone)
        self.is_in(4060)
        self.check(f"room {NAMED}" in self.rows(), f"sip:{NAME} is room {NAMED}", self.rows())
        status, told = self.parts.ask("offer", room=NAME.upper(), name="page")
        if status != 200:
            fail(f"a page can't join room {NAME}: {told}")
        said = self.parts.ask("answer", id=told["id"], sdp=answer_of(ssrc=4061))
        rooms = {row.split()[3] for row in self.rows() if row.startswith("member ")}
        good = said[0] == 200 and rooms == {str(NAMED)}
        self.check(good, "so it is for a page", (said, self.rows()))
        self.parts.ask("leave", id=told["id"])
        self.ends(one, "it hangs up")
        phone.close()

    def try_taken(self):
        """Who can't have an address is told so, and nothing of an SSRC."""
        self.do("add-room 98")
        parts = [f"add-member {5000 + at} 98 127.0.0.1:{self.parts.low + at} pcmu {900 + at} 0 0" for at in range(100)]
        for at in range(0, 100, MOST_PARTS // 2):
            self.do("group " + " / ".join(parts[at : at + MOST_PARTS // 2]))
        status, told = self.parts.ask("offer", room=1, name="late")
        said = self.parts.ask("answer", id=told["id"], sdp=answer_of(ssrc=4070))
        good = status == 200 and said[0] == 503 and "number or the address" in said[1] and "SSRC" not in said[1]
        self.check(good, "an address that another member has is told apart from an SSRC", said)
        sound, before = self.sound(4071), len(self.parts.log("agent"))
        one = Sipp(self.parts, self.folder).asks("INVITE", sdp(sound.port)).gets("BYE", 30).waits(1)
        self.ends(self.ringing(one, sound), "a phone that gets such an address is told by a BYE that its call is over")
        log = self.parts.log("agent")[before:]
        self.check("number or the address" in log and "SSRC" not in log, "and the agent's log says why", log)
        sound.close()
        self.do("remove-room 98")
