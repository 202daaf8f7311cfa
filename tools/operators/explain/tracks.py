"""What the packets of a sender say beside their outcomes: its clock, how much sound they hold, what they seem to be."""

import collections
import dataclasses
import statistics

from operators.packets import number

# The clock rates of audio types that the bridge takes, and the octets of a sample.
RATES, WIDTHS = {0: 8000, 97: 8000, 11: 44100}, {0: 1, 97: 2, 11: 2}
# The clock rates that types may have (RFC 3551, RFC 7587 for Opus), and how near one has to be.
KNOWN_RATES, NEAR = (8000, 16000, 24000, 32000, 44100, 48000, 90000), 0.12
OPUS = 48000
# What is sent for keys that are pressed (RFC 4733).
EVENTS = "telephone events"
# The longest packet of Opus (RFC 6716 section 3.2.1), two frames.
MOST_OPUS = 2552
# A clock is judged over so long, in nanoseconds, and over so many packets, in so many parts.
LONG, MANY, PARTS = 1_500_000_000, 30, 6
# Packets whose way takes longer or shorter by so much, in milliseconds, are no longer of one run.
JUMP = 200
# So much has a clock to have gone astray to be told, and what may lie beside a line, in milliseconds.
ASTRAY, BESIDE = 15, 2


@dataclasses.dataclass(frozen=True)
class Came:
    """A packet: its moment, number, timestamp, marker and type, the octets of its payload and the first of these."""

    moment: int
    seq: int
    ts: int
    marker: bool
    pt: int
    size: int
    first: bytes


def came_of(datagram):
    """A packet of a datagram that is RTP."""
    octets = datagram.octets
    head = 12 + 4 * (octets[0] & 15)
    if octets[0] & 0x10:
        head += 4 + 4 * number(octets[head + 2 : head + 4])
    last = len(octets) - (octets[-1] if octets[0] & 0x20 else 0)
    return Came(
        datagram.moment, number(octets[2:4]), number(octets[4:8]), octets[1] > 127, octets[1] & 127,
        max(0, last - head), octets[head : head + 4],
    )  # fmt: skip


def ahead(one, other, bits):
    """By how much a number or a timestamp is ahead of another one, modulo a power of 2."""
    half = 1 << (bits - 1)
    return (other - one + half) % (2 * half) - half


def in_row(packets):
    """The pairs of packets with numbers that follow one another."""
    return [(a, b) for a, b in zip(packets, packets[1:]) if ahead(a.seq, b.seq, 16) == 1]


def clock_rate(packets):
    """The clock rate that timestamps show, as a known one, or None."""
    pairs = [(a, b) for a, b in in_row(packets) if 0 < ahead(a.ts, b.ts, 32) and b.moment > a.moment]
    steps = collections.Counter(ahead(a.ts, b.ts, 32) for a, b in pairs)
    if len(pairs) < 5:
        return None
    step, count = steps.most_common(1)[0]
    spacing = statistics.median(b.moment - a.moment for a, b in pairs)
    if count * 2 < len(pairs) or spacing <= 0:
        return None
    rate = step * 10**9 / spacing
    nearest = min(KNOWN_RATES, key=lambda one: abs(rate / one - 1))
    return nearest if abs(rate / nearest - 1) < NEAR else None


def kind_of(packets):
    """What packets of a type without a fixed meaning seem to be, in words, or None."""
    pt = packets[0].pt
    if pt < 96 or pt == 97 and not packets[0].size % 2:
        return None
    if all(one.size == 4 and one.first[0] <= 16 and not one.first[1] & 0x40 for one in packets):
        return EVENTS
    sizes = [one.size for one in packets]
    if clock_rate(packets) == OPUS and max(sizes) <= MOST_OPUS and statistics.median(sizes) < OPUS // 50 * 2 // 3:
        return "Opus"
    return None


def keys_of(packets):
    """The keys that telephone events name (RFC 4733 section 3.2), in the order in which they were pressed."""
    found = []
    for one in packets:
        key = "0123456789*#ABCD"[one.first[0]] if one.first[0] < 16 else "flash"
        if not found or found[-1] != (one.ts, key):
            found.append((one.ts, key))
    return [key for _, key in found]


# Clocks


def runs_of(packets, rate):
    """The way of each packet in milliseconds, less a constant, as (moment, way), in runs without a jump."""
    runs, ts, before = [[]], 0, None
    for one in packets:
        ts = one.ts if before is None else ts + ahead(before.ts, one.ts, 32)
        way = one.moment / 10**6 - ts * 1000 / rate
        if runs[-1] and abs(way - runs[-1][-1][1]) > JUMP:
            runs.append([])
        runs[-1].append((one.moment, way))
        before = one
    return runs


def astray(packets, rate):
    """By which share of the time a sender's clock is slow (or fast, below 0), or None where it isn't told."""
    run = max(runs_of(packets, rate), key=len)
    begin, end = run[0][0], run[-1][0]
    if len(run) < MANY or end - begin < LONG:
        return None
    parts = [[] for _ in range(PARTS)]
    for moment, way in run:
        parts[min(PARTS - 1, (moment - begin) * PARTS // (end - begin))].append((way, moment))
    points = [(moment / 10**6, way) for way, moment in (min(part) for part in parts if part)]
    if len(points) < PARTS - 1:
        return None
    slope, base = statistics.linear_regression(*zip(*points))
    total = abs(slope) * (points[-1][0] - points[0][0])
    beside = max(abs(way - base - slope * moment) for moment, way in points)
    return slope if total > ASTRAY and beside < max(BESIDE, total * 0.15) else None


# Sound


@dataclasses.dataclass(frozen=True)
class Sound:
    """How much sound a packet holds as a rule, by how much timestamps go on, and how often one comes, in
    milliseconds."""

    holds: float
    step: float
    spacing: float


def sound_of(packets):
    """What packets of sound hold, or None where no rule is seen."""
    rate, width = RATES[packets[0].pt], WIDTHS[packets[0].pt]
    pairs = [(a, b) for a, b in in_row(packets) if not b.marker and ahead(a.ts, b.ts, 32) > 0]
    if len(pairs) < MANY // 2:
        return None
    step, count = collections.Counter(ahead(a.ts, b.ts, 32) for a, b in pairs).most_common(1)[0]
    size, often = collections.Counter(one.size for one in packets).most_common(1)[0]
    if count * 2 < len(pairs) or often * 2 < len(packets) or not size:
        return None
    # The time from end to end, since single packets may be late.
    spacing = statistics.mean(b.moment - a.moment for a, b in pairs)
    return Sound(size // width * 1000 / rate, step * 1000 / rate, spacing / 10**6)


# Gaps


def gaps_of(packets, least):
    """The times in which so many packets or more are missing by their numbers: (begin, end, how many)."""
    found = []
    for a, b in zip(packets, packets[1:]):
        lost = ahead(a.seq, b.seq, 16) - 1
        if least <= lost <= 3000:
            found.append((a.moment, b.moment, lost))
    return found
