"""Who speaks, by the levels that the bridge tells (docs/FORMATS.md, Levels).

A source speaks from two quarters of a second over -45 dBov in a row on. It ceases with four in a row that were under
-52 dBov or had no sample. A quarter between the two changes nothing, but it ends a row. The bridge's numbers only rise,
so a quarter is the difference of two answers.
"""

import typing

# The energy of the loudest sample, and how much less energy than those sound at -45 and -52 dBov has.
LOUDEST, LOUD, QUIET = 1_048_576, 31_623, 158_489
# After so many loud quarters in a row one speaks, and after so many quiet ones one doesn't.
LOUD_ROW, QUIET_ROW = 2, 4
# After how many seconds a source is forgotten of which nothing comes.
FORGOTTEN = 10


class Voice(typing.NamedTuple):
    """What is known of a source: its numbers when they were last told, and when that was; whether it speaks; and how
    many of its last quarters in a row were loud, and how many quiet."""

    samples: int
    energy: int
    told: float
    speaks: bool = False
    loud: int = 0
    quiet: int = 0

    def after(self, samples, energy):
        """The same after a quarter with so many samples more, and their energy."""
        loud = min(self.loud + 1, LOUD_ROW) if LOUD * energy > LOUDEST * samples else 0
        is_quiet = samples == 0 or QUIET * energy < LOUDEST * samples
        quiet = min(self.quiet + 1, QUIET_ROW) if is_quiet else 0
        speaks = loud == LOUD_ROW or (quiet < QUIET_ROW and self.speaks)
        return self._replace(speaks=speaks, loud=loud, quiet=quiet)


class Speaking:
    """Who speaks, as it is heard each quarter of a second."""

    def __init__(self):
        # By address and SSRC.
        self.voices = {}

    def hears(self, lines, now):
        """Takes an answer to `levels`. The SSRCs of those who speak."""
        told = {}
        for _, address, ssrc, samples, energy in (line.split() for line in lines if line != "end"):
            told[address, int(ssrc)] = int(samples), int(energy)
        for key, before in list(self.voices.items()):
            if key not in told and now - before.told > FORGOTTEN:
                del self.voices[key]
            elif key not in told:
                self.voices[key] = before.after(0, 0)
        for key, (samples, energy) in told.items():
            before = self.voices.get(key)
            if before and samples >= before.samples and energy >= before.energy:
                voice = before.after(samples - before.samples, energy - before.energy)
            else:
                # It comes for the first time, or the bridge counts it from 0 again.
                voice = before.after(samples, energy) if before else Voice(samples, energy, now)
            self.voices[key] = voice._replace(samples=samples, energy=energy, told=now)
        return {ssrc for (_, ssrc), voice in self.voices.items() if voice.speaks}
