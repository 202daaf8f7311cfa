"""Phones that call by SIP, without a program: each sends a sample, and counts what comes."""

import socket
import time

from lab.gateway_call.parts import until
from lab.gateway_call.refusals import offer_of, port_in, sends
from operators.packets import is_rtcp
from operators.serving import come_to
from operators.shared import fail


# More packets than these in a second are sound. On a loaded machine a bridge sends fewer than 50, and begins late.
HEARD, PATIENCE = 5, 10


def media_at(ip):
    """A socket for media at an address, and an offer that names it."""
    one = socket.socket(socket.AF_INET, socket.SOCK_DGRAM)
    one.bind((ip, 0))
    one.setblocking(False)
    return one, offer_of([f"m=audio {one.getsockname()[1]} RTP/AVP 0"]).replace("127.0.0.1", ip)


def packets(one):
    """How many packets of sound have come to a socket since this was last asked."""
    return sum(not is_rtcp(octets) for octets in come_to(one))


class Sipping:
    """A phone that calls by SIP, and sends from an address."""

    def __init__(self, trial, room, ssrc, user="test", ip="127.0.0.1"):
        self.trial, self.ssrc, self.begun, self.at = trial, ssrc, time.monotonic(), 0
        self.dialog, (self.media, self.offer) = trial.parts.dialog(room, user, ip=ip), media_at(ip)
        answer = self.dialog.invite(self.offer)
        if answer.status != 200:
            fail(f"{user} can't call room {room}: {answer.first}")
        self.port = port_in(answer.body)

    def send(self):
        """Sends what is due: numbers and timestamps go on while nothing is sent."""
        self.at = max(self.at + 1, int((time.monotonic() - self.begun) * 50))
        sends(self.ssrc, self.at, self.media, self.port, b"\x80")

    def joins(self):
        before = self.trial.members()
        for _ in range(25):
            talk(0.2, self)
            if self.trial.members() > before:
                return True
        return False

    def hang_up(self):
        self.dialog.ask("BYE")
        self.dialog.close()
        self.media.close()


def talk(seconds, *phones):
    """All send for some seconds. How many packets of sound have come to the first one meanwhile."""
    packets(phones[0].media)
    end = time.monotonic() + seconds
    while time.monotonic() < end:
        for one in phones:
            one.send()
        time.sleep(0.02)
    return packets(phones[0].media)


def hears(*phones):
    """Whether the first one hears the others before long, while all send."""
    return until(lambda: talk(1, *phones) > HEARD, PATIENCE) is not None
