"""When the bridge ticked, by the mixes that it sent and by its sender reports."""

import bisect
import collections

from operators.packets import is_rtcp, number, ssrc_of

GAP = 20_000_000
SECONDS_TO_1970 = 2208988800
# The samples of a tick by payload type. Types that are left out have 160.
SAMPLES = {11: 882}
# A bridge is no later than this; else its clock is another one, in nanoseconds.
OTHER_CLOCK = 5_000_000_000
# A mix leaves about so long after its tick, and a tick comes so late at most where nothing wakes the bridge, in
# nanoseconds.
ANSWERED, LONGEST = 150_000, 5_000_000


def samples_at(octets):
    return SAMPLES.get(octets[1] & 127, 160)


def moment_of_ntp(octets):
    """The moment of an NTP timestamp, to the nanosecond above."""
    return (number(octets[:4]) - SECONDS_TO_1970) * 10**9 - (-number(octets[4:8]) * 10**9 >> 32)


class Grid:
    """The ticks of a bridge. `base` is the moment of tick 0, and `mixes` has the first and the last mix of each tick on
    the wire."""

    def __init__(self, base, mixes):
        self.base, self.mixes = base, mixes

    def moment(self, tick):
        return self.base + GAP * tick

    def lateness(self):
        """How late the last mixes left, in nanoseconds."""
        return max((min(self.mixes[tick]) - self.moment(tick) for tick in sorted(self.mixes)[-25:]), default=0)


def unwrapped(before, ts):
    """The timestamp nearest to another one, modulo 2^32."""
    return before + (ts - before + 2**31) % 2**32 - 2**31


def counted(packets):
    """Each mix of a stream with its tick, counted from that of the first one, or None where timestamps aren't whole
    ticks apart."""
    found, ts, place = [], None, 0
    for datagram in packets:
        now = number(datagram.octets[4:8])
        if ts is not None:
            ahead = unwrapped(ts, now) - ts
            if ahead % samples_at(datagram.octets):
                return None
            place += ahead // samples_at(datagram.octets)
        ts = now
        found.append((datagram, place))
    return found


def earliest(found):
    """The moment of a stream's tick 0, by the mix that came soonest after its tick."""
    return min(datagram.moment - GAP * place for datagram, place in found)


def report_bounds(reports, found):
    """The bounds of the moment of a stream's first mix that its sender reports give. A sender report's RTP timestamp is
    that of the last tick, and the time since (docs/MEDIA.md, Reports)."""
    first, rate = found[0][0].octets, 44100 if found[0][0].octets[1] & 127 == 11 else 8000
    for octets in reports:
        units = (number(octets[16:20]) - number(first[4:8])) % 2**32
        since = moment_of_ntp(octets[8:16])
        yield since - (units + 1) * 10**9 // rate, since - units * 10**9 // rate


def narrowed(base, bounds):
    """The moment of tick 0 that as many bounds allow as possible, as late as they allow. A bridge whose clock isn't
    that of the capture gives its place within 20 ms alone, and so it is near the moment by the mixes."""
    if not bounds:
        return base - ANSWERED
    if any(abs(base - high) > OTHER_CLOCK for _, high in bounds):
        bounds = [
            (bound[0] + ahead, bound[1] + ahead) for bound in bounds for ahead in [round((base - bound[1]) / GAP) * GAP]
        ]
    lows, highs = (sorted(one) for one in zip(*bounds))
    tries = sorted({*highs, *(low + 1 for low in lows)}, reverse=True)
    # As many allow a moment as begin before it and haven't ended before it.
    return max(tries, key=lambda moment: bisect.bisect_left(lows, moment) - bisect.bisect_left(highs, moment))


def grid_of(wire, outs):
    """The ticks of a capture, by the streams of these SSRCs that it has."""
    streams, reports = collections.defaultdict(list), collections.defaultdict(list)
    for datagram in wire.out:
        octets = datagram.octets
        if len(octets) >= 12 and not is_rtcp(octets) and ssrc_of(octets) in outs:
            streams[ssrc_of(octets)].append(datagram)
        elif len(octets) >= 28 and octets[1] == 200 and number(octets[4:8]) in outs:
            reports[number(octets[4:8])].append(octets)
    base, places, bounds = None, {}, []
    for out, packets in streams.items():
        found = counted(packets)
        if not found:
            wire.notes.add(f"the timestamps of stream {out} aren't whole ticks apart")
            continue
        begin = earliest(found)
        base = begin if base is None else base
        ahead = round((begin - base) / GAP)
        base = min(base, begin - GAP * ahead)
        bounds += [(low - GAP * ahead, high - GAP * ahead) for low, high in report_bounds(reports[out], found)]
        places |= {(out, number(datagram.octets[2:4]), datagram.moment): place + ahead for datagram, place in found}
    if base is None:
        return Grid((wire.begin // GAP) * GAP, {}), {}
    mixes = collections.defaultdict(list)
    for (_, _, moment), place in places.items():
        mixes[place].append(moment)
    return Grid(narrowed(base, bounds), mixes), places


def position(grid, tick, arrival, latency):
    """When a tick was given, as it seems, and at the latest: shortly before its first mix. Where that leaves late, or
    there is none, it was behind the first datagram that woke the bridge, after 5 ms at most. `arrival` is that of the
    first datagram from the tick's moment on, or None. The bridge takes it so much later."""
    moment = grid.moment(tick)
    woken = min(arrival + latency if arrival else moment + LONGEST, moment + LONGEST)
    if tick not in grid.mixes:
        return woken, woken
    sent = min(grid.mixes[tick])
    is_prompt = sent - moment < LONGEST + ANSWERED
    return max(moment, sent - ANSWERED) if is_prompt else woken, max(moment, sent)
