"""A member whose sound tells how old it is, and another member who hears it."""

import time

from operators.packets import is_rtcp, number, payload_of, rtp, ssrc_of
from operators.serving import come_to, port_of, udp_socket, with_room

VOICE, MIX = 1000, 100001
# A packet of sound has one of so many samples, by its number.
TONES = 96
# A packet goes out each so many seconds, with so many samples.
EACH, SAMPLES = 0.02, 160


def sized(octets):
    """A UDP socket with a receive buffer of this size."""
    one = udp_socket()
    with_room(one, octets)
    one.setblocking(False)
    return one


def members(sockets):
    """The commands that put members with these sockets into a room. The first one speaks."""
    yield "add-room 1"
    for number, one in enumerate(sockets):
        yield f"add-member {number} 1 127.0.0.1:{port_of(one)} pcmu {MIX - 1 + number} 0 0"
    yield f"add-source {VOICE} 0 audio"


class Voice:
    """The members 0 and 1: when each packet of sound was sent, and what came to the listener, with the moments."""

    def __init__(self, port):
        self.speaker, self.listener = sized(1 << 20), sized(1 << 26)
        self.to = ("127.0.0.1", port)
        self.begun, self.sent, self.got = None, [], {MIX: []}

    def step(self):
        """Sends the sound that is due, and reads what has come."""
        now = time.monotonic()
        self.begun = self.begun or now
        while now - self.begun >= EACH * len(self.sent):
            at = len(self.sent)
            self.sent.append(now)
            self.speaker.sendto(rtp(at, SAMPLES * at, VOICE, bytes([0x80 + at % TONES]) * SAMPLES, pt=0), self.to)
        for one, keep in (self.listener, True), (self.speaker, False):
            for octets in come_to(one):
                if keep and not is_rtcp(octets) and ssrc_of(octets) in self.got:
                    self.got[ssrc_of(octets)].append((time.monotonic(), octets))

    def talk(self, seconds, until=lambda: False):
        """Goes on for so long, or until something is so. The moments at which it began and ended."""
        begin = time.monotonic()
        while time.monotonic() < begin + seconds and not until():
            self.step()
            time.sleep(0.002)
        return begin, time.monotonic()

    def count(self, span, stream=MIX):
        """How many packets of a stream came in a time."""
        return sum(span[0] <= moment < span[1] for moment, _ in self.got[stream])

    def delays(self, span):
        """How long after it was sent each packet of sound was heard that came in a time, sorted."""
        last = [(moment, payload_of(octets)[-1]) for moment, octets in self.got[MIX] if span[0] <= moment < span[1]]
        return sorted(self.age(moment, sample) for moment, sample in last if 0x80 <= sample < 0x80 + TONES)

    def lateness(self, span):
        """When each packet of sound came, by its timestamp, that came in a time: the lower, the earlier. Sorted."""
        return sorted(
            moment - number(octets[4:8]) / SAMPLES * EACH
            for moment, octets in self.got[MIX] if span[0] <= moment < span[1]
        )

    def age(self, moment, sample):
        """How long before a moment the latest packet with this sample was sent."""
        return next(
            (
                moment - sent
                for at, sent in reversed(list(enumerate(self.sent))) if sent <= moment and 0x80 + at % TONES == sample
            ),
            0,
        )


def heard_worse(before, behind, seconds, allowed=0.04):
    """What is wrong with the delays of what was heard in the last so many seconds, by those from before."""
    if not before:
        return "no sound is heard from the beginning"
    if len(behind) < 0.9 * seconds / EACH:
        return f"{len(behind)} packets of sound are heard in {seconds} s"
    was, now = before[len(before) // 2], behind[len(behind) // 2]
    if now > was + allowed:
        return f"sound is heard {now * 1e3:.0f} ms after it was sent, and {was * 1e3:.0f} ms before"
    return None
