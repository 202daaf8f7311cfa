"""Calls that nobody held, each with a fault that is planted, and what has to be told of it."""

from checks.explain.made import ONE, OTHER, STRANGER, Made
from operators.demo import picture, tone
from operators.packets import rtp

# A call lasts so many ticks, and the fault begins at this one where it has a beginning.
TICKS, HERE = 150, 60
SILENCE = bytes([0xFF]) * 160
NEW = "127.0.0.1:6010"


class Call(Made):
    """A call of member 10, who sends the sound 201 and the video 101, and of member 11, who sends the sound 202. A
    `fault` may change what 11 sends. `says` has what an operator says, by the tick before which it does."""

    setup = [
        "add-room 1", "add-member 10 1 ONE pcmu 9001 0 0", "add-member 11 1 OTHER pcmu 9002 0 0",
        "add-source 201 10 audio", "add-source 202 11 audio", "add-source 101 10 video", "add-slot 501 11 0 0 0",
        "give-floor 1 10",
    ]  # fmt: skip

    def __init__(self, fault=None, ticks=TICKS, says=(), **named):
        self.fault, self.says, self.lost = fault, dict(says), []
        super().__init__(ticks, **named)

    def turn(self, tick, _shows):
        """20 ms of the call: what comes, then the tick, and what it brings."""
        moment = self.begin(tick)
        for line in self.says.get(tick, ()):
            self.call(line)
        first = self.moment
        self.comes(self.one, rtp(tick, tick * 160, 201, tone(440, tick), pt=0))
        for part, payload in enumerate(picture(tick)):
            self.comes(self.one, rtp(tick * 2 + part, tick * 1800, 101, payload, marker=part))
        self.moment = first + 1_000_000
        for after, address, octets in (self.fault or whole)(tick):
            self.moment = first + 1_000_000 + after
            self.comes(address, octets)
        self.end(moment, tick % 250 == 249)

    def comes(self, address, octets):
        """A datagram. In some ticks the bridge gets none of them, as where its receive buffer is full."""
        if (self.fault, self.tick // 5) != (overrun, HERE // 5):
            super().comes(address.replace(ONE, self.one).replace(OTHER, self.other), octets)
            return
        sends, self.bridge = self.bridge, Deaf()
        super().comes(address, octets)
        self.bridge = sends


class Deaf:
    """A bridge that gets nothing."""

    def answer(self, _line):
        return []


def one(tick, address=OTHER, ssrc=202, payload=None, pt=0, seq=None, ts=None):
    """A packet of member 11's."""
    payload = tone(1000, tick) if payload is None else payload
    return address, rtp(tick if seq is None else seq, tick * 160 if ts is None else ts, ssrc, payload, pt=pt)


def whole(tick):
    yield 0, *one(tick)


def pcma(tick):
    yield 0, *one(tick, payload=bytes([0xD5]) * 160, pt=8)


def opus(tick):
    frame = bytes([0xFC, *(tick * at % 251 for at in range(1, 60 + tick % 30))])
    yield 0, *one(tick, payload=frame, pt=111, ts=tick * 960)


def keys(tick):
    """Keys 4 and 2 are pressed."""
    yield 0, *one(tick, seq=tick + max(0, min(tick - HERE, 20)))
    if HERE <= tick < HERE + 20:
        key, begun = (4, HERE) if tick < HERE + 10 else (2, HERE + 10)
        event = bytes([key, 10 | 0x80 * (tick % 10 > 6)]) + ((tick - begun + 1) * 160).to_bytes(2, "big")
        yield 2_000_000, *one(tick, payload=event, pt=101, seq=2 * tick - HERE + 1, ts=begun * 160)


def noise(tick):
    """It speaks for half a second and is silent for half a second, in which comfort noise comes twice."""
    part, count = divmod(tick, 50)
    seq = part * 27 + (count if count < 25 else 25 + (count >= 40))
    if count < 25:
        yield 0, *one(tick, seq=seq)
    elif count in (25, 40):
        yield 0, *one(tick, payload=bytes([70]), pt=13, seq=seq)


def port(tick):
    yield 0, *one(tick, address=STRANGER)


def ssrc(tick):
    yield 0, *one(tick, ssrc=777)


def lost(tick):
    if tick % 9 != 4:
        yield 0, *one(tick)


def late(tick):
    """The packets come 120 ms later from a tick on."""
    if tick < HERE:
        yield 0, *one(tick)
    elif tick >= HERE + 6:
        yield 0, *one(tick - 6)


def silence(tick):
    yield 0, *one(tick, payload=SILENCE)


def slow(tick):
    """Each 33rd packet is left out: 3 percent."""
    yield 300_000 * (tick % 33) % 10_000_000, *one(tick - tick // 33)


def fast(tick):
    """Behind each 33rd packet comes a further one: 3 percent."""
    yield 300_000 * (32 - tick % 33), *one(tick + tick // 33)
    if tick % 33 == 32:
        yield 9_600_000, *one(tick + tick // 33 + 1)


def burst(tick):
    """Six packets come at once, and all later ones 100 ms before their time."""
    yield 0, *one(tick if tick < 10 else tick + 5)
    for more in range(5 if tick == 9 else 0):
        yield 1_000_000 + more * 100_000, *one(10 + more)


def scattered(tick):
    yield 0, *one(tick, seq=tick * 3)


def half(tick):
    """A packet holds 10 ms."""
    yield 0, *one(tick, payload=tone(1000, tick)[:80])


def seldom(tick):
    """A packet holds 10 ms, and timestamps go on by 10 ms."""
    yield 0, *one(tick, payload=tone(1000, tick)[:80], ts=tick * 80)


def nothing(_tick):
    yield from ()


def moved(tick):
    yield 0, *one(tick, address=OTHER if tick < HERE else NEW)


def anew(tick):
    """Its numbers jump."""
    yield 0, *one(tick, seq=tick if tick < HERE else tick + 20000)


def overrun(tick):
    yield 0, *one(tick)


def stranger(tick):
    yield 0, *one(tick)
    if tick % 2:
        yield 1_000_000, *one(tick, address=STRANGER, ssrc=77, pt=0, seq=tick // 2)


# Faults, with the kind of what is told of them, what it is about, and some words of it; and what an operator says.
FAULTS = {
    "PCMA": (pcma, ("type", 202), "SSRC 202 as type 8 (PCMA): 150 packets dropped BadPayload. Set PCMU"),
    "Opus": (opus, ("type", 202), "SSRC 202 as type 111 (Opus): 150 packets dropped BadPayload. Set PCMU"),
    "keys": (keys, ("events", 202), "type 101 (telephone events): 20 packets dropped BadPayload. It presses 4 2"),
    "comfort noise": (
        noise, ("events", 202), "type 13 (comfort noise): 6 packets dropped BadPayload. Its phone sends it",
    ),
    "another port": (port, ("address", 202), "SSRC 202 is a source of member 11, who sends from"),
    "another SSRC": (ssrc, ("ssrc", 777), "Member 11 has no such source: `add-source 777 11 audio`"),
    "a stranger": (stranger, ("stranger", 77), "No member has this address, and no source this SSRC"),
    "loss": (lost, ("lost", 202), "202: 17 packets of 150 (11 %) are lost before the bridge"),
    "a late path": (late, ("late", 202), "packets come more than 60 ms late"),
    "silence": (silence, ("silence", 202), "202 sends silence, or nearly so: -inf dBFS"),
    "a slow clock": (slow, ("clock", 202), "ppm slow, by its timestamps"),
    "a fast clock": (fast, ("clock", 202), "ppm fast, by its timestamps"),
    "scattered numbers": (scattered, ("probation", 202), "no two of its numbers follow one another"),
    "half packets": (half, ("spacing", 202), "each packet holds 10 ms of sound, and timestamps go on by 20 ms"),
    "seldom packets": (seldom, ("spacing", 202), "each packet holds 10 ms of sound, and one comes each 20 ms"),
    "nothing": (nothing, ("silent", 202), "no packet of 202 came: member 11 has to send from"),
    "another address": (moved, ("moved", 202), "Its sender's address changed, as behind a NAT"),
    "numbers that jump": (anew, ("restarted", 202), "202 begins anew once: its numbers jump"),
    "a full receive buffer": (overrun, ("overrun", None), "though packets came: its receive buffer ran over"),
}
SAID = {
    "a mute": ({HERE: ["mute 202"]}, ("muted", 202), "202 is muted since call 9 of operator 0"),
    "a gain of 0": ({HERE: ["set-gain 10 202 0"]}, ("gain", 202), "the gain of 202 for 10 is 0 since call 9"),
    "no floor": ({HERE: ["take-floor 1"]}, ("slot", 501), "it has no subscription, and its room no pin and no floor"),
    "a source that comes back": (
        {20: ["remove-source 202"], HERE: ["add-source 202 11 audio"]}, ("before", 202), ", while it was no source",
    ),
    "another room": ({HERE: ["add-room 2", "move-member 11 2"]}, ("alone", 11), "member 11 is alone in room 2"),
}
# Up to which second of a call it can be cut, so that the rest shows a fault; of the others up to this one.
SHOWS_UNTIL, USUAL = {
    "keys": 0.6, "a late path": 0.6, "another address": 0.6, "numbers that jump": 0.6, "a full receive buffer": 0.2,
    "a slow clock": 0.4, "a fast clock": 0.4, "a source that comes back": 0.4, "no floor": 2.2, "a mute": 2.2,
    "a gain of 0": 2.2, "another room": 2.2,
}, 1.2  # fmt: skip
# The second at which faults begin that have a beginning, and how near to it either may be told.
BEGINS, NEAR = HERE * 0.02, 0.15
# What is told where a capture begins behind a fault, if that is another thing; it can be cut up to this second. A
# source that comes from another address all the time is one whose member has to send from elsewhere.
BEHIND, LATEST = {("moved", 202): ("address", 202)}, 2
# From which second to which a clock that is set hides a fault, or the older part of it.
HIDDEN = {
    "a late path": (BEGINS - NEAR, BEGINS + 0.5), "another address": (BEGINS - NEAR, BEGINS + NEAR),
    "numbers that jump": (BEGINS - NEAR, BEGINS + NEAR),
}  # fmt: skip
# What else may be said of a fault, since it follows from it.
FOLLOWS = {
    ("clock", 202): {("late", 202), ("early", 202)},
    ("spacing", 202): {("late", 202), ("early", 202), ("clock", 202)},
    ("restarted", 202): {("lost", 202)},
    ("ssrc", 777): {("silent", 202)},
    ("alone", 11): {("alone", 10), ("slot", 501)},
    ("overrun", None): {("still", 101)},
}


def wanted(name, begin, broken=None):
    """What has to be told of a fault by a capture that begins at a second of a call, and what may be: kinds, and what
    these are about. At a second its clock may be set."""
    fault = (FAULTS | SAID)[name][1]
    later, until = BEHIND.get(fault), SHOWS_UNTIL.get(name, USUAL)
    first, last = HIDDEN.get(name, (0, 0))
    is_hidden = broken is not None and first < broken < last
    may = {fault, *FOLLOWS.get(fault, ())}
    if later and (begin > BEGINS - NEAR or is_hidden):
        may.add(later)
    if later and begin > BEGINS + NEAR:
        return ({later} if begin < LATEST else set()), {later}
    return (set() if is_hidden or begin > until else {fault}), may
