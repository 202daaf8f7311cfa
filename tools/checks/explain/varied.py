"""A capture made worse: begun in mid-call, with packets lost, out of order or cut short, a clock that is set, another
bridge beside."""

import dataclasses

from checks.captures.writing import pcap

# How many percent are lost, by how long packets move, how many octets are kept, and by how long a clock is set, in
# nanoseconds.
LOST, MOVED, KEPT, SET = 2, 5_000_000, 96, 3600 * 10**9


@dataclasses.dataclass(frozen=True)
class Varied:
    """A capture made worse: how, its octets, what options it takes, from which moment on it tells of the call, and at
    which one its clock is set."""

    how: str
    octets: bytes
    named: dict
    begin: int
    broken: int = None


def written(packets, **named):
    return pcap(sorted(packets, key=lambda one: one[0]), units=10**9, **named)


def begun_at(packets, moment):
    return [one for one in packets if one[0] >= moment]


def lossy(draw, packets):
    return [one for one in packets if draw.random() * 100 >= LOST]


def disordered(draw, packets):
    return [(moment + draw.randrange(MOVED), octets) for moment, octets in packets]


def set_at(packets, at, by):
    """The capture in its order, with a clock that is set at a place."""
    packets = sorted(packets, key=lambda one: one[0])
    return pcap([(moment + by * (n >= at), octets) for n, (moment, octets) in enumerate(packets)], units=10**9)


def beside(packets, others):
    """The packets of two bridges in one capture, which begin at once."""
    first, second = min(packets)[0], min(others)[0]
    return packets + [(moment - second + first, octets) for moment, octets in others]


def variations(draw, packets, cuts, desk, others, named):
    """The worse captures of one. `desk` are the rows at some moment and that moment, and `named` the bridge's
    addresses."""
    begin, end = min(packets)[0], max(packets)[0]
    for _ in range(cuts):
        at = begin + draw.randrange((end - begin) * 3 // 4)
        yield Varied(f"from {(at - begin) / 1e9:.2f} s on", written(begun_at(packets, at)), {}, at)
    yield Varied(f"with {LOST} % lost", written(lossy(draw, packets)), {}, begin)
    yield Varied("out of order", written(disordered(draw, packets)), {}, begin)
    rows, moment = desk
    yield Varied("cut short", written(begun_at(packets, moment), most=KEPT), {"given": rows}, moment)
    at = draw.randrange(len(packets) // 4, len(packets) * 3 // 4)
    broken = sorted(packets, key=lambda one: one[0])[at][0]
    yield Varied("with a clock that is set ahead", set_at(packets, at, SET), {}, begin, broken)
    yield Varied("with a clock that is set back", set_at(packets, at, -SET), {}, begin, broken)
    yield Varied("beside another bridge", written(beside(packets, others)), named, begin)


def wrong(found, may, must):
    """What is wrong with what is told, by kinds and what they are about: a fault that isn't told though it has to be,
    or what is told and may not be."""
    told = {(one.kind, one.about) for one in found}
    lacking = [f"it isn't told: {kind} of {about}" for kind, about in sorted(must - told, key=str)]
    return lacking + [f"it is told: {one.text}" for one in found if (one.kind, one.about) not in may]
