"""Causes that the packets of senders show, whatever the desk says: clocks, how much sound packets hold, addresses that
change, packets of all senders that are missing at once."""

import collections
import dataclasses

from operators.explain.tracks import RATES, ahead, astray, clock_rate, gaps_of, keys_of, sound_of

# What a sender has to be set to, by the type that it sends instead.
SET_PCMU = (
    "Set PCMU at the sender: type 0 (`RTP/AVP 0`) in its SDP, `mulawenc ! rtppcmupay` in GStreamer, `-c:a pcm_mulaw` "
    "in ffmpeg"
)
# The type of comfort noise (RFC 3389).
NOISE = 13
# Packets hold less or more sound than their spacing where the two differ by such a share.
UNLIKE = 0.2
# No clock is by such a share slow or fast, but a sender that gets too little of a processor is.
NO_CLOCK = 0.05
# A source is the same one at another address where its numbers go on by so many at most, and so soon, in nanoseconds.
GOES_ON, SOON = 1000, 2_000_000_000
# Packets of all senders are missing at once where each lacks so many in a row.
AT_ONCE = 3
# A source of fewer packets says nothing of gaps, and one that loses such a share of them all the time.
MANY_PACKETS, MOST_LOST = 20, 0.3
# The bridge passes on nothing of so many sources, in so many ticks in a row.
SOURCES, TICKS, TICK = 2, 2, 20_000_000
# Sound is heard so long after it came, in nanoseconds.
HEARD = 60_000_000


@dataclasses.dataclass(frozen=True)
class Moved:
    """A source whose packets come from another address from some moment on."""

    ssrc: int
    old: object
    new: object
    until: int
    since: int


def moved_in(sources, desks):
    """The sources of the desk whose packets come from an address of no member, once those from their own end."""
    found, elsewhere = [], collections.defaultdict(list)
    for one in sources:
        if one.ssrc in desks.sources and desks.member_at(one.address) is None:
            elsewhere[one.ssrc, one.pt].append(one)
    for old in sources:
        row = desks.sources.get(old.ssrc)
        if not row or desks.member_at(old.address) != row["member"]:
            continue
        last = max((one for one in old.track), key=lambda one: one.moment)
        for new in elsewhere[old.ssrc, old.pt]:
            first = min((one for one in new.track), key=lambda one: one.moment)
            is_soon = -SOON < first.moment - last.moment < SOON
            if 0 < ahead(last.seq, first.seq, 16) < GOES_ON and is_soon:
                found.append(Moved(old.ssrc, old, new, last.moment, first.moment))
    return found


def clock_text(source, rate):
    """What is to be said of the clock of a source, or None."""
    share = astray(source.track, rate)
    if share is None:
        return None
    sound = sound_of(source.track) if source.pt in RATES else None
    if sound and (abs(sound.spacing / sound.holds - 1) > UNLIKE or abs(sound.step / sound.holds - 1) > UNLIKE):
        return None
    name, words = "slow", "later and later"
    if share < 0:
        name, words = "fast", "sooner and sooner, and waits longer and longer"
    if abs(share) > NO_CLOCK:
        text = f"{source.ssrc}: its sound is {100 * abs(share):.0f} % too {name}, by its timestamps: it comes {words}"
        return f"{text}. Its sender's machine is busy, or its clock is another one"
    clock = f"its sender's clock is {abs(share) * 10**6:,.0f} ppm {name}, by its timestamps"
    return f"{source.ssrc}: {clock}: its sound comes {words}"


def sound_text(source):
    """What is to be said of how much sound a source's packets hold, or None."""
    sound = sound_of(source.track)
    if not sound:
        return None
    holds = f"{source.ssrc}: each packet holds {sound.holds:g} ms of sound, and"
    if abs(sound.step / sound.holds - 1) > UNLIKE:
        what = "silence is heard between them" if sound.step > sound.holds else "sound is lost where they overlap"
        return f"{holds} timestamps go on by {sound.step:g} ms: {what}. Set one packet time (ptime) at the sender"
    if abs(sound.spacing / sound.holds - 1) > UNLIKE:
        rate = "too little" if sound.spacing > sound.holds else "too much"
        return f"{holds} one comes each {sound.spacing:.0f} ms: it is {rate} sound. Set one packet time at the sender"
    return None


def payload_text(source, rate):
    """What a sender has to be set to whose payload the bridge doesn't take."""
    if source.is_events():
        keys = " ".join(keys_of(source.track))
        return f". It presses {keys}: the bridge passes no telephone events on, and the sound itself goes on"
    if source.pt == NOISE:
        return ". Its phone sends it while nobody speaks: silence is heard then, and the sound itself goes on"
    if source.pt in RATES:
        wanted = "type 11" if rate == 44100 else "type 0 (PCMU) or 97 (L16)"
        return f". In its room audio has to be {wanted}, whole samples of 200 ms at most"
    if rate == 44100:
        return ". In a room of 44100 Hz audio has to be type 11 (L16, one channel)"
    seen = clock_rate(source.track)
    shown = f" Its timestamps go on by {seen} Hz." if seen and not source.kind and source.pt >= 96 else ""
    return f".{shown} {SET_PCMU}"


# Gaps


@dataclasses.dataclass(frozen=True)
class Lack:
    """A time in which packets of several senders are missing at once: of which sources, and how many packets."""

    begin: int
    end: int
    sources: tuple
    packets: int


def lacks_in(sources):
    """The times in which all senders whose packets are taken lack some at once."""
    tracks = [
        (source, gaps_of(source.track, AT_ONCE)) for source in sources
        if source.outcomes["accepted"] >= MANY_PACKETS and source.lost() < MOST_LOST * source.expected()
    ]
    end = 0
    for moment in sorted({begin for _, gaps in tracks for begin, _, _ in gaps}):
        here = [(source, gap) for source, gaps in tracks for gap in gaps if gap[0] <= moment + TICK < gap[1]]
        sending = {source.address for source, _ in tracks if source.first <= moment < source.last}
        lacking = {source.address for source, _ in here}
        if moment >= end and len(lacking) > 1 and lacking >= sending:
            end = max(gap[1] for _, gap in here)
            yield Lack(moment, end, tuple(sorted({s.ssrc for s, _ in here})), sum(gap[2] for _, gap in here))


def unheard_in(found, desks, is_whole):
    """The times in which the bridge passed on nothing of what came of several sources at once, though the capture has
    it. Where the capture itself lost packets, fewer ticks than these may be by chance."""
    least = TICKS if is_whole else 2 * TICKS
    ticks = collections.defaultdict(set)
    for one in found:
        if one.kind in ("octets", "unsent"):
            is_mix = desks.outs.get(one.stream, ("",))[0] == "mix"
            ticks[(one.moment - (HEARD if is_mix else 0)) // TICK].update(one.lacking)
    run = []
    for tick in sorted(ticks):
        owners = {desks.sources[ssrc]["member"] for ssrc in ticks[tick] if ssrc in desks.sources}
        if len(owners) < SOURCES:
            continue
        if run and tick > run[-1] + 2:
            if len(run) >= least:
                yield told_run(run, ticks)
            run = []
        run.append(tick)
    if len(run) >= least:
        yield told_run(run, ticks)


def told_run(run, ticks):
    sources = set.union(*(ticks[tick] for tick in run))
    return Lack(run[0] * TICK, (run[-1] + 1) * TICK, tuple(sorted(sources)), 0)
