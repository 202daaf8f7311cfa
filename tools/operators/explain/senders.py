"""What came of each source: packets, loss, jitter, level, how late its sound came, and what became of its datagrams."""

import collections
import functools
import math

from operators.explain.tracks import EVENTS, came_of, kind_of
from operators.models.bridge import VIDEO_RATE
from operators.models.mix import expanded, samples_of
from operators.packets import number

# The payload types that are known by their numbers (RFC 3551), and what the bridge takes 97 for.
TYPES = {
    0: "PCMU",
    3: "GSM",
    4: "G723",
    8: "PCMA",
    9: "G722",
    11: "L16 at 44100 Hz",
    13: "comfort noise",
    18: "G729",
    97: "L16",
}
AUDIO = {0: 8000, 97: 8000, 11: 44100}
NOISE = 13
# Sound of over -40 dBFS counts as speech.
SPEECH = (32768 / 100) ** 2


# What becomes of a datagram where the desk isn't known.
UNKNOWN = "desk not known"


def type_name(pt, kind=None):
    """A type with what it is, where its number or its packets say it."""
    kind = kind or TYPES.get(pt)
    return f"type {pt} ({kind})" if kind else f"type {pt}"


def is_rtp(octets):
    return len(octets) >= 12 and octets[0] >> 6 == 2 and not 192 <= octets[1] <= 223


def source_key(address, octets):
    """What packets of one source have alike: their sender, their SSRC and their type."""
    return address, number(octets[8:12]), octets[1] & 127


@functools.cache
def squares():
    """The squares of the samples of mu-law octets."""
    return [expanded(octet) ** 2 for octet in range(256)]


def power_of(pt, payload):
    """The sum of the squares of a payload's samples, and how many there are."""
    if pt == 0:
        return sum(map(squares().__getitem__, payload)), len(payload)
    samples = samples_of(pt, payload[: len(payload) // 2 * 2])
    return sum(sample * sample for sample in samples), len(samples)


def decibels(power, count):
    """A level in dBFS: 0 is a square wave of the greatest samples."""
    return 10 * math.log10(power / count / 32768**2) if count and power else -math.inf


class Source:
    """The packets of one SSRC that come from one address with one payload type."""

    def __init__(self, address, ssrc, pt):
        self.address, self.ssrc, self.pt = address, ssrc, pt
        self.rate = AUDIO.get(pt, VIDEO_RATE)
        self.packets = self.octets = self.swapped = self.speaking = 0
        self.first = self.last = self.least = self.greatest = None
        self.jitter, self.transit, self.power, self.samples = 0.0, None, 0, 0
        # What became of the packets; how far ahead of the next sample they came, in units of 8000 Hz; the longest time
        # without one. How often its jitter buffer began anew.
        self.outcomes, self.far, self.pause, self.renewed = collections.Counter(), [], 0, 0
        # When sound of it was last put to a jitter buffer that there was.
        self.heard = 0
        # The packets themselves, where they are kept, and what they seem to be.
        self.track, self.kind = [], None
        # How many packets of other types from there have numbers between its own.
        self.shared = 0

    def name(self):
        return type_name(self.pt, self.kind)

    def is_events(self):
        return self.kind == EVENTS

    def is_beside(self):
        """Whether its packets come beside the sound itself: keys that are pressed, or comfort noise."""
        return self.is_events() or self.pt == NOISE

    def take(self, moment, octets, kept=None):
        """Counts a packet (RFC 3550 sections A.3 and A.8). Of one that the capture cut, `kept` octets are known."""
        seq, ts = number(octets[2:4]), number(octets[4:8])
        if self.greatest is None:
            self.first, self.least, self.greatest = moment, seq, seq
        else:
            self.pause = max(self.pause, moment - self.last)
            ahead = (seq - self.greatest + 32768) % 65536 - 32768
            if abs(ahead) > 3000:
                # It began anew.
                self.least += seq - self.greatest - 1
                self.greatest = seq
            self.greatest = max(self.greatest, self.greatest + ahead) if abs(ahead) <= 3000 else seq
            self.swapped += -3000 <= ahead < 0
        self.packets, self.octets, self.last = self.packets + 1, self.octets + len(octets), moment
        transit = moment * self.rate / 10**9 % 2**32 - ts
        if self.transit is not None:
            far = abs((transit - self.transit + 2**31) % 2**32 - 2**31)
            self.jitter += (far - self.jitter) / 16
        self.transit = transit
        if self.pt in AUDIO:
            power, samples = power_of(self.pt, octets[12 + 4 * (octets[0] & 15) : kept])
            self.power, self.samples = self.power + power, self.samples + samples
            self.speaking += bool(samples) and power / samples > SPEECH

    def expected(self):
        return self.greatest - self.least + 1

    def lost(self):
        return self.expected() - self.packets - self.shared

    def jitter_ms(self):
        return self.jitter / self.rate * 1000

    def level(self):
        return decibels(self.power, self.samples) if self.pt in AUDIO else None

    def lateness(self):
        """By how many milliseconds each packet came behind what the first one of its jitter buffer promised, sorted."""
        return sorted(60 - far / 8 for far in self.far)

    def late(self):
        """How many packets came too late to be heard in whole."""
        return sum(far < 0 for far in self.far)


class Senders:
    """All sources of a capture, and what is no RTP by its sender and its outcome."""

    def __init__(self, forgotten=()):
        self.sources, self.others = {}, collections.Counter()
        # The moments at which the model has forgotten what waits in buffers.
        self.forgotten = forgotten

    def take(self, moment, address, octets, outcome=None, far=None, kept=None):
        """Counts a datagram and what became of it. The source that it is of, if it is of one."""
        if not is_rtp(octets):
            kind = "RTCP" if len(octets) > 1 and 192 <= octets[1] <= 223 else "neither RTP nor RTCP"
            self.others[address, kind, outcome] += 1
            return None
        key = source_key(address, octets)
        if key not in self.sources:
            self.sources[key] = Source(*key)
        source = self.sources[key]
        source.take(moment, octets, kept)
        if outcome:
            source.outcomes[outcome] += 1
        if far is not None:
            source.far.append(far)
            source.heard = moment
        elif outcome == "accepted" and source.far and not any(source.heard < one <= moment for one in self.forgotten):
            source.renewed += 1
        return source


def outcome_of(said):
    """The name of a datagram's outcome, without the number of its packet."""
    words = said[0].split(" ")[1:]
    if words[0] == "unknown":
        return UNKNOWN
    return words[0] if words[0] not in ("dropped",) else " ".join(words)


def senders_of(explained, between):
    """The senders of a capture in a time, with their packets."""
    run = explained.run
    senders = Senders([end for _, end in run.unknown] if run else ())
    told = [(datagram, UNKNOWN if run else None, None) for datagram in explained.wire.into]
    if run:
        told = [one for one in told if one[0].moment < explained.begin]
        told += [
            (done.event.what, outcome_of(done.said), done.far)
            for done in run.done if done.said and done.event and done.line.startswith(("rx ", "# rx"))
        ]
    for it, outcome, far in told:
        if between[0] <= it.moment <= between[1]:
            source = senders.take(it.moment, it.peer, it.octets, outcome, far, it.kept)
            if source:
                source.track.append(came_of(it))
    # The payload types of one SSRC from one address share its numbers.
    together = collections.defaultdict(list)
    for source in senders.sources.values():
        source.kind = kind_of(source.track)
        together[source.address, source.ssrc].append(source)
    for some in together.values():
        for source in some:
            source.shared = sum(
                (one.seq - source.least) % 65536 <= source.greatest - source.least
                for other in some if other is not source for one in other.track
            )
    return senders
