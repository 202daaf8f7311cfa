"""The compounds of a bridge on the wire, beside those of the model: reports, what senders are asked for, and
pictures."""

import collections
import dataclasses

from operators.explain.changes import by_call
from operators.explain.events import RX, Event
from operators.models.codec import Dropped, nack_numbers, read_rtcp
from operators.packets import number

# A picture is asked for so soon behind the call that gave a slot its source, in nanoseconds; where nothing had come
# yet, later.
SOON = 700_000_000
# The same behind the datagram that ended a source's probation.
AT_ONCE = 70_000_000
# Reports are equal but for the moment of reading a clock, if their numbers differ by no more than so much: units of
# jitter, of 1/65,536 s and of timestamps.
JITTER, DELAY, UNITS = 200, 3300, 9000
# So many packets may a sender report count that left in its round, and so late may a compound leave, in nanoseconds.
PACKETS, LATEST = 8, 2_000_000_000


@dataclasses.dataclass
class Compared:
    """How compounds compare: equal ones, those that differ by moments alone, pictures by themselves, and others, in
    words."""

    equal: int = 0
    near: int = 0
    pictures: list = dataclasses.field(default_factory=list)
    others: list = dataclasses.field(default_factory=list)


def told_of(octets):
    """What a compound is, in words."""
    try:
        packets = read_rtcp(octets)
    except Dropped as why:
        return f"no compound ({why})"
    parts = []
    for pt, count, body in packets:
        if pt == 205 and count == 1:
            asked = nack_numbers(body[8:])
            parts.append(
                f"NACK of {number(body[4:8])} for {', '.join(map(str, asked[:8]))}{' ..' if len(asked) > 8 else ''}"
            )
        elif pt == 206 and count == 1:
            parts.append(f"PLI of {number(body[4:8])}")
        elif pt == 200:
            parts.append(f"sender report of {number(body[:4])}")
        elif pt == 201 and count:
            parts.append(
                f"receiver report of {', '.join(str(number(body[at : at + 4])) for at in range(4, 4 + 24 * count, 24))}"
            )
    return " and ".join(parts) or "an empty receiver report"


def picture_of(octets):
    """The source of which a compound asks for a picture, and nothing else."""
    told = told_of(octets)
    return int(told.removeprefix("PLI of ")) if told.startswith("PLI of ") and "and" not in told else None


def is_close(wire, model, in_middle):
    """Whether two reports are equal but for moments, and in mid-call but for what was counted before."""
    if wire[:8] != model[:8] or len(wire) != len(model):
        return False
    if in_middle:
        return True
    if wire[1] == 200:
        ahead = (number(wire[16:20]) - number(model[16:20]) + 2**31) % 2**32 - 2**31
        return abs(ahead) <= UNITS and abs(number(wire[20:24]) - number(model[20:24])) <= PACKETS
    for at in range(8, 8 + 24 * (wire[0] & 31), 24):
        one, other = wire[at : at + 24], model[at : at + 24]
        if one[:12] != other[:12] or one[16:20] != other[16:20]:
            return False
        if (
            abs(number(one[12:16]) - number(other[12:16])) > JITTER
            or abs(number(one[20:]) - number(other[20:])) > DELAY
        ):
            return False
    return True


def model_compounds(run):
    """The compounds that the model sends, by receiver, with their moments."""
    found = collections.defaultdict(list)
    for done in run.done:
        for line in done.said:
            words = line.split(" ")
            if words[0] in ("up", "ct"):
                found[words[1] if words[0] == "up" else words[3]].append(
                    (done.event.place if done.event else 0, bytes.fromhex(words[-1]))
                )
    return found


def ended_probations(run):
    """When sources were accepted for the first time, by their addresses and SSRCs."""
    found, on_probation = collections.defaultdict(list), set()
    for done in run.done:
        # The rows that a capture begins with are no event.
        if isinstance(done.event, Event) and done.event.kind == RX and done.said:
            source = done.event.what.peer, number(done.event.what.octets[8:12])
            if done.said[0] == "rx probation":
                on_probation.add(source)
            elif source in on_probation and done.said[0].startswith("rx accepted "):
                on_probation.remove(source)
                found[source].append(done.event.moment)
    return found


def cause_of_picture(desks, ssrc, moment):
    """The call by which a slot was given a source shortly before."""
    near = [
        c
        for c in desks.changes
        if c.ssrc == ssrc and c.is_there and c.moment <= moment + SOON // 10 and desks.outs[c.out][0] != "mix"
    ]
    return near[-1] if near else None


def compare(explained, desks):
    """Compares the compounds on the wire with those of the model."""
    compared, model, in_middle = Compared(), model_compounds(explained.run), explained.run.shown is not None
    ended = ended_probations(explained.run)
    for datagram in explained.streams.control:
        if datagram.moment < explained.begin:
            continue
        mine = model[datagram.peer]
        far = [abs(place - datagram.moment) for place, _ in mine]
        same = next((n for n, (_, octets) in enumerate(mine) if octets == datagram.octets and far[n] < LATEST), None)
        close = next(
            (n for n, (_, octets) in enumerate(mine) if far[n] < SOON and is_close(datagram.octets, octets, in_middle)),
            None,
        )
        ssrc = picture_of(datagram.octets)
        change = cause_of_picture(desks, ssrc, datagram.moment) if ssrc is not None else None
        if same is not None:
            compared.equal += 1
            del mine[same]
        elif close is not None:
            compared.near += 1
            del mine[close]
        elif ssrc is not None and any(abs(moment - datagram.moment) < AT_ONCE for moment in ended[datagram.peer, ssrc]):
            why = f"{datagram.peer} is asked for a picture of {ssrc}, which was accepted for the first time"
            compared.pictures.append((datagram.moment, why))
        elif change:
            stream = f"which stream {change.out} shows since {by_call(change.call)}"
            compared.pictures.append((datagram.moment, f"{datagram.peer} is asked for a picture of {ssrc}, {stream}"))
        else:
            why = f"to {datagram.peer}: {told_of(datagram.octets)}; the model sends no such compound"
            compared.others.append((datagram.moment, why))
    for peer, left in model.items():
        compared.others += [
            (place, f"to {peer}: {told_of(octets)}, by the model alone: the limit on control, or the capture lacks it")
            for place, octets in left
            if place < explained.wire.end - 30_000_000
        ]
    return compared
