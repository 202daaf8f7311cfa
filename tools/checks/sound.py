"""Tones in sound: one that is written to a file, and how strong one is."""

import math
import struct
import wave

# The share of full sound that a tone has which is written. Seven together are no full sound, which would be clamped.
LEVEL = 0.15


def write_tone(path, hertz, rate, seconds):
    """Writes a file with a tone."""
    turn = 2 * math.pi * hertz / rate
    second = b"".join(struct.pack("<h", round(LEVEL * 32767 * math.sin(turn * at))) for at in range(rate))
    with wave.open(str(path), "wb") as file:
        file.setparams((1, 2, rate, 0, "NONE", ""))
        file.writeframes(second * seconds)


def strength(sound, hertz, rate):
    """The square of a sound's Fourier sum at a frequency, as Goertzel adds it up."""
    w, a, b = 2 * math.cos(2 * math.pi * hertz / rate), 0.0, 0.0
    for v in sound:
        a, b = v + w * a - b, a
    return max(0.0, a * a + b * b - w * a * b)


def amplitude(sound, hertz, rate):
    """The amplitude of the tone of a frequency among samples."""
    return 2 * math.sqrt(strength(sound, hertz, rate)) / max(1, len(sound))
