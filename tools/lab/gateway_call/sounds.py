"""The media of a phone, in a thread: it sends a tone and keys, and keeps what comes."""

import collections
import math
import socket
import subprocess
import threading
import time

from checks.sound import LEVEL, amplitude
from lab.gateway_call.parts import until
from lab.waits import ended
from operators.models.mix import compressed, expanded
from operators.packets import is_rtcp, payload_of, rtp
from operators.serving import port_of, udp_socket

# The payload type of keys, and the number of each (RFC 4733 section 3.2).
KEY_TYPE, KEYS = 101, {key: number for number, key in enumerate("0123456789*#")}
RATE, STEP = 8000, 160
# How long a tone may take to come, in seconds, on a loaded machine.
PATIENCE = 15
# What ffmpeg is told for each encoding: its encoder, payload type, rate, channels, and the octets of a packet at most.
ENCODERS = {
    "PCMA": ("pcm_alaw", 8, 8000, 1, 172),
    "G722": ("g722", 9, 16000, 1, 172),
    "opus": ("libopus", 111, 48000, 2, 1200),
}


class Sound(threading.Thread):
    """Sends a tone to `to` once that is set, and what ffmpeg encodes where an encoding is named."""

    def __init__(self, ssrc, hertz=1000, ip="127.0.0.1", encoding=None):
        super().__init__(daemon=True)
        self.ssrc, self.hertz, self.ip, self.to, self.goes, self.keys = ssrc, hertz, ip, None, True, ""
        self.at, self.got, self.sends = 0, collections.deque(maxlen=50), True
        self.count, self.encoder, self.relay = 0, None, None
        wave = [LEVEL * 32767 * math.sin(2 * math.pi * hertz * at / RATE) for at in range(STEP)]
        self.tone = bytes(compressed(round(one)) for one in wave)
        self.opens(ip)
        if encoding:
            self.encodes(encoding)
        self.start()

    def opens(self, ip):
        """Sends and gets by a socket of its own from now on, as behind a NAT that gives a phone another port."""
        one = socket.socket(socket.AF_INET, socket.SOCK_DGRAM)
        one.bind((ip, 0))
        one.setblocking(False)
        self.socket, self.port = one, one.getsockname()[1]

    def encodes(self, encoding):
        encoder, type_, rate, channels, most = ENCODERS[encoding]
        self.relay = udp_socket()
        self.relay.settimeout(1)
        words = ["ffmpeg", "-v", "error", "-re", "-f", "lavfi", "-i", f"sine=frequency={self.hertz}:sample_rate=48000"]
        words += ["-ac", str(channels), "-ar", str(rate), "-c:a", encoder, "-payload_type", str(type_)]
        to = f"rtp://127.0.0.1:{port_of(self.relay)}?pkt_size={most}"
        words += ["-ssrc", str(self.ssrc), "-f", "rtp", to]
        self.encoder = subprocess.Popen(words, stdin=subprocess.DEVNULL, stdout=subprocess.DEVNULL)

    def run(self):
        begun = time.monotonic()
        while self.goes:
            if self.relay:
                self.passes_on()
            elif self.sends and self.to:
                self.sends_next()
            self.takes()
            if not self.relay:
                self.at = max(self.at + 1, int((time.monotonic() - begun) * 50))
                time.sleep(max(0, begun + self.at / 50 - time.monotonic()))

    def sends_next(self):
        if self.keys:
            key, self.keys = self.keys[0], self.keys[1:]
            self.presses(KEYS[key])
        else:
            self.tells(rtp(self.at, self.at * STEP, self.ssrc, self.tone, pt=0))

    def presses(self, number):
        """A key of 100 ms, whose end is said three times."""
        begun = self.at * STEP
        for turn in range(7):
            is_last, length = turn > 3, STEP * min(turn + 1, 5)
            event = bytes([number, 0x80 * is_last | 10]) + length.to_bytes(2, "big")
            self.tells(rtp(self.at, begun, self.ssrc, event, marker=int(turn == 0), pt=KEY_TYPE))
            self.at += 1
            time.sleep(0.02)
        time.sleep(0.1)

    def passes_on(self):
        try:
            packet = self.relay.recv(65536)
        except OSError:
            return
        if self.to and self.sends and not is_rtcp(packet):
            self.tells(packet)

    def tells(self, packet):
        self.socket.sendto(packet, ("127.0.0.1", self.to))

    def takes(self):
        try:
            while True:
                packet = self.socket.recv(65536)
                if not is_rtcp(packet):
                    self.count += 1
                    self.got.append((time.monotonic(), packet))
        except OSError:
            pass

    def level(self, hertz):
        """The level of a tone in what came last, if it came in the last second. Of PCMU alone."""
        now = time.monotonic()
        packets = [packet for at, packet in [*self.got] if now - at < 1 and packet[1] & 127 == 0]
        sound = [expanded(octet) for packet in packets for octet in payload_of(packet)]
        return amplitude(sound, hertz, RATE) / 32767

    def hears(self, hertz, seconds=PATIENCE):
        """Whether a tone comes before long."""
        return until(lambda: self.level(hertz) > LEVEL / 4, seconds) is not None

    def is_quiet(self, hertz, seconds=PATIENCE):
        """Whether a tone ends before long, and stays away."""
        quiet = lambda: self.level(hertz) < LEVEL / 20
        if until(quiet, seconds) is None:
            return False
        time.sleep(2)
        return quiet()

    def types(self):
        """The payload types that came last."""
        return {packet[1] & 127 for _, packet in [*self.got]}

    def press(self, keys):
        self.keys += keys
        until(lambda: not self.keys, 10)
        time.sleep(0.3)

    def close(self):
        self.goes = False
        if self.encoder:
            self.encoder.kill()
            ended(self.encoder)
