"""What a receiver hears: in which ticks of 20 ms the tone is there."""

import itertools
import math
import operator

from checks.camera import LOUDNESS, SAMPLES, TONE, TURN
from lab.network.seen import nearest
from operators.models.mix import expanded
from operators.packets import number, payload_of

ANGLES = [2 * math.pi * TONE * at / 8000 for at in range(SAMPLES)]
WAVES = [list(map(wave, ANGLES)) for wave in (math.sin, math.cos)]
DECODED = [expanded(octet) for octet in range(256)]


def loudness(payload):
    """The amplitude of the tone in a tick of PCMU."""
    samples = [DECODED[octet] for octet in payload]
    return 2 / SAMPLES * math.hypot(*(sum(map(operator.mul, samples, wave)) for wave in WAVES))


class Heard:
    """The receiver's sound. A tick has the tone if that is half as loud as the loudest one before packets are lost. It
    knows how late a mix was at worst behind the one of the tick before."""

    def __init__(self):
        self.ticks, self.ts, self.begun, self.latest, self.last = {}, None, None, 0.0, (None, 0)

    def takes(self, octets, moment):
        """Takes a mix that came at a moment."""
        ts = number(octets[4:8])
        if self.ts is None:
            self.ts, self.begun = ts, moment
        ts = nearest(ts, 2**32, self.ts + round((moment - self.begun) * 8000))
        tick, (last, before) = round((ts - self.ts) / SAMPLES), self.last
        self.ticks[tick], self.last = loudness(payload_of(octets)), (tick, moment)
        if last is not None and tick == last + 1:
            self.latest = max(self.latest, moment - before - TURN)

    def has_begun(self):
        """Whether the tone was heard."""
        return any(loud > LOUDNESS / 8 for loud in self.ticks.values())

    def gaps(self, begin, end):
        """How long each row of ticks without the tone is, in seconds."""
        if self.begun is None:
            return [end - begin]
        first, behind = (math.ceil((moment - self.begun) / TURN) for moment in (begin, end))
        enough = max((loud for at, loud in self.ticks.items() if at < first), default=0) / 2
        has_tone = [self.ticks.get(at, 0) > enough for at in range(first, behind)]
        return [len(list(row)) * TURN for is_there, row in itertools.groupby(has_tone) if not is_there]
