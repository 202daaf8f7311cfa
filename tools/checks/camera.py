"""A sender of its own: a tone as PCMU, and frames that begin as those of VP8 do. It answers NACKs and PLIs."""

import collections
import math
import time

from operators.models.mix import compressed
from operators.packets import number, rtp, seq_of

# A turn is 20 ms: a packet of sound, and in each second turn a frame.
TURN, SAMPLES = 0.02, 160
TONE, LOUDNESS = 1000, 8000
VIDEO_PT, AUDIO_PT = 100, 0
# The timestamps of a frame and of the next one differ by this much.
FRAME = 3600
SIZE, HISTORY = 1000, 1000
# A key frame has so many times the packets of another frame.
KEY = 3


def tone():
    """20 ms of the tone, which has a whole number of periods in them."""
    return bytes(compressed(round(LOUDNESS * math.sin(2 * math.pi * TONE * at / 8000))) for at in range(SAMPLES))


def head(picture, is_first, is_key):
    """What a packet of a frame begins with: a VP8 payload descriptor with a picture number of 15 bits (RFC 7741 section
    4.2), and at the first one the frame header (RFC 6386 section 9.1)."""
    descriptor = bytes([0x90 if is_first else 0x80, 0x80, 0x80 | picture >> 8 & 127, picture & 255])
    if not is_first:
        return descriptor
    return descriptor + (bytes.fromhex("1002009d012a4001f000") if is_key else bytes.fromhex("110200"))


def asked_numbers(octets):
    """The sequence numbers that the NACKs of a compound ask for, and whether there is a PLI."""
    numbers, has_pli, at = [], False, 0
    while at + 4 <= len(octets):
        size = 4 * number(octets[at + 2 : at + 4]) + 4
        packet = octets[at : at + size]
        if packet[1] == 205 and packet[0] & 31 == 1:
            for word in range(12, size, 4):
                pid, blp = number(packet[word : word + 2]), number(packet[word + 2 : word + 4])
                numbers += [pid] + [(pid + bit + 1) % 65536 for bit in range(16) if blp >> bit & 1]
        has_pli = has_pli or packet[1] == 206 and packet[0] & 31 == 1
        at += size
    return numbers, has_pli


class Camera:
    """The sender. It answers NACKs if it is told to, and each PLI by a key frame at the next turn."""

    def __init__(self, loop, send, ssrcs, size, answers=True):
        self.loop, self.send, self.size, self.answers = loop, send, size, answers
        self.video, self.audio = ssrcs
        self.seq, self.turn, self.wants_key, self.sound = 0, 0, True, tone()
        self.history = collections.OrderedDict()
        self.begun = time.monotonic()
        loop.at(self.begun, self.turns)

    def turns(self):
        """Sends what is due in a turn."""
        self.send(rtp(self.turn, SAMPLES * self.turn, self.audio, self.sound, pt=AUDIO_PT))
        if self.turn % 2 == 0:
            self.sends_frame(self.turn // 2)
        self.turn += 1
        self.loop.at(self.begun + TURN * self.turn, self.turns)

    def sends_frame(self, picture):
        is_key, self.wants_key = self.wants_key, False
        count = self.size * KEY if is_key else self.size
        for at in range(count):
            payload = head(picture, at == 0, is_key).ljust(SIZE, b"\x5a")
            packet = rtp(self.seq, FRAME * picture, self.video, payload, at + 1 == count, VIDEO_PT)
            self.history[seq_of(packet)] = packet
            self.send(packet)
            self.seq += 1
        while len(self.history) > HISTORY:
            self.history.popitem(last=False)

    def hears(self, octets):
        """Answers a compound."""
        numbers, has_pli = asked_numbers(octets)
        self.wants_key = self.wants_key or has_pli
        for seq in numbers if self.answers else []:
            if seq in self.history:
                self.send(self.history[seq])
