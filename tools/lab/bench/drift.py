"""Measures an hour of a voice whose clock is slow or fast: how much of it is missing, for how long at once, and its
delay.

A member sends sound to another through `replay`, with `renew`, over a path of 50 ms with jitter and no losses. Jitter
is none, up to 30 ms with all values alike, or half of a normal distribution. Packets don't overtake one another. Each
10 ms of sound are told by their value, so that what is heard shows when it was sent. The delay is that of the sound of
a tick, from the sending of its packet to the tick. A beginning is a place where the sound that is heard goes on with
another delay: with a longer one because too much sound was late, with a shorter one because too much waited.
--beginnings tells each.

With --rule the tool runs no program. It simulates the buffer by playout's definitions, with other numbers for the sound
that waits.

The first second is left out. The status is 1 where a goal is missed: at most 0.1 percent missing, 1 percent from 300
millionths on, never over 0.7 s at once, and a delay of at most 250 ms.
"""

import itertools
import random
import subprocess
import threading
from dataclasses import dataclass

from operators.packets import rtp
from operators.shared import add_program, fail, release_program

NEEDS = "the program, four minutes"

P, Q, SSRC, OUT = "10.0.0.1:5000", "10.0.0.2:5000", 201, 9002
BEGIN, MILLI = 10**18, 10**6
# The mu-law values that sound, and how many pieces of 10 ms pass until one comes again.
CODES = [code for code in range(256) if code & 127 != 127]
PIECE, TICK = 10 * MILLI, 20 * MILLI
PATH = 50 * MILLI
# So many pieces are left out at the beginning.
SKIPPED = 100
# The rule's other numbers, in pieces: how much waits where a buffer begins, how much late sound begins it anew, and a
# late piece's weight.
WAIT, LATE, LATE_WEIGHT = 6, 30, 1000
JITTERS = {
    "none": lambda r: 0,
    "up to 30 ms": lambda r: r.randrange(30 * MILLI),
    "half-normal, 10 ms": lambda r: int(abs(r.gauss(0, 10 * MILLI))),
    "half-normal, 30 ms": lambda r: int(abs(r.gauss(0, 30 * MILLI))),
}
DRIFTS = (0, -50, 50, -100, 100, -300, 300)


@dataclass(frozen=True)
class Call:
    """A call: by how many millionths the clock is fast, the jitter, the clock rate, and how long a packet's sound
    is."""

    fast: int
    jitter: str
    rate: int = 8000
    packet: int = 20

    def __str__(self):
        return f"{self.fast:+5} ppm, {self.jitter}, packets of {self.packet} ms, {self.rate} Hz"


def calls():
    """The calls of the table."""
    yield from (Call(fast, jitter) for jitter in JITTERS for fast in DRIFTS)
    yield from (Call(fast, "up to 30 ms", packet=packet) for packet in (10, 30, 40) for fast in (-300, 300))
    yield from (Call(fast, "up to 30 ms", 44100) for fast in (-100, 100))


def piece_of(rate, n):
    """The octets of the nth 10 ms of sound."""
    code = CODES[n % len(CODES)]
    return bytes([code]) * 80 if rate == 8000 else (1 + n % len(CODES)).to_bytes(2, "big") * 441


def sent_at(call, n):
    """When the sender has the nth 10 ms of sound, in nanoseconds since the beginning."""
    return n * PIECE * 1_000_000 // (1_000_000 + call.fast)


def packets(call, minutes):
    """When each packet comes, and its line."""
    r, last, each = random.Random(str(call)), 0, call.packet // 10
    samples = call.rate // 100
    for k in range(minutes * 60_000 // call.packet):
        sent = sent_at(call, each * (k + 1))
        last = max(last + 1000, sent + PATH + JITTERS[call.jitter](r))
        octets = b"".join(piece_of(call.rate, n) for n in range(each * k, each * (k + 1)))
        packet = rtp(k, each * k * samples, SSRC, octets, pt=0 if call.rate == 8000 else 11)
        yield last, f"rx {BEGIN + last} {P} {packet.hex()}\n"


def lines(call, minutes):
    """The lines of the script of a call."""
    codec, room = ("pcmu", "1") if call.rate == 8000 else ("l16", "1 44100")
    yield f"bridge 1 bridge renew\ndesk 0 add-room {room}\n"
    yield f"desk 0 add-member 10 1 {P} {codec} 9001 0 0\ndesk 0 add-member 11 1 {Q} {codec} {OUT} 0 0\n"
    yield f"desk 0 add-source {SSRC} 10 audio\n"
    at = 0
    for came, line in packets(call, minutes):
        while at <= came:
            yield f"tick {BEGIN + at}\n"
            at += TICK
        yield line


def told(call, minutes, program):
    """What the program tells of a call, line by line."""
    with subprocess.Popen([program, "replay"], stdin=subprocess.PIPE, stdout=subprocess.PIPE, text=True) as run:

        def write():
            with run.stdin:
                run.stdin.writelines(lines(call, minutes))

        writer = threading.Thread(target=write)
        writer.start()
        yield from run.stdout
        writer.join()
    if run.returncode:
        fail(f"the program ended with status {run.returncode}")


def heard(call, minutes, program):
    """Each 10 ms of the receiver's time: the number among the values of what is heard in it, or None."""
    known = {piece_of(call.rate, n): n for n in range(len(CODES))}
    size, ticks, before = len(piece_of(call.rate, 0)), 0, None
    for line in told(call, minutes, program):
        words = line.split()
        if words[0] != "tx" or words[4] != str(OUT):
            continue
        octets = bytes.fromhex(words[6])
        number = int.from_bytes(octets[4:8], "big") // (call.rate // 50)
        # A tick in which nothing is heard sends nothing.
        while before is not None and ticks < number:
            yield from (None, None)
            ticks += 1
        before, ticks = number, number + 1
        payload = octets[12 + 4 * (octets[0] & 15) :]
        yield from (known.get(payload[at : at + size]) for at in (0, size))


def is_overdue(position, place, tally, rule):
    """Whether a buffer begins anew: by the tallies of late sound and of too much, or a second from what comes."""
    return abs(place - position) > 100 or tally[0] >= LATE_WEIGHT * LATE or tally[1] >= 100 * rule[1]


def tallied(tally, late, ahead, each, rule):
    """The tallies after a packet of which so many pieces are late, and before which so many wait."""
    return max(0, tally[0] + LATE_WEIGHT * late - (each - late)), tally[1] + each if 10 * ahead > rule[0] else 0


def simulated(call, minutes, rule):
    """As `heard`, by playout's definitions in pieces of 10 ms.

    A buffer begins anew where more than so many ms wait for so many seconds.
    """
    position, pieces, tally, at, each = None, {}, (0, 0), 0, call.packet // 10
    for k, (came, _) in enumerate(packets(call, minutes)):
        while at <= came:
            if position is not None:
                yield from (pieces.pop(position, None), pieces.pop(position + 1, None))
                position += 2
            at += TICK
        # The first packet is on probation.
        place = each * k
        if k and position is not None:
            tally = tallied(tally, min(each, max(0, position - place)), place - position, each, rule)
        if k and (position is None or is_overdue(position, place, tally, rule)):
            position, pieces, tally = place - WAIT, {}, (0, 0)
        for n in range(place, place + each) if k else []:
            if n >= position:
                pieces.setdefault(n, n % len(CODES))


def first_tick(call):
    """The tick in which the first sound is heard: the fourth after the second packet, which ends probation."""
    came, _ = next(itertools.islice(packets(call, 1), 1, None))
    return (came // TICK + 4) * TICK


def delay_of(call, tick, piece):
    """How long it is from the sending of a packet to the tick in which a piece of it is heard, in nanoseconds."""
    newest = tick * (1_000_000 + call.fast) // 1_000_000 // PIECE
    number = newest - (newest - piece) % len(CODES)
    each = call.packet // 10
    return tick - sent_at(call, each * (number // each + 1))


def measured(call, pieces):
    """Of a call by what is heard: the share that is missing, the longest gap and the longest delay in s.

    And the beginnings: for each the moment, and the delays before it and from it on, in s.
    """
    missing = total = longest = gap = latest = delay = 0
    first, before, begins = first_tick(call), None, []
    for place, piece in enumerate(itertools.dropwhile(lambda piece: piece is None, pieces)):
        if place < SKIPPED:
            continue
        total, gap = total + 1, 0 if piece is not None else gap + 1
        longest, missing = max(longest, gap), missing + (piece is None)
        if piece is not None:
            offset, tick = (place - piece) % len(CODES), first + place // 2 * TICK
            last, delay = delay, delay_of(call, tick, piece) / 1e9
            if before not in (None, offset):
                begins.append((tick / 1e9, last, delay))
            before, latest = offset, max(latest, delay)
    if before is None:
        fail(f"{call}: nothing is heard")
    return missing / total, longest / 100, latest, begins


def is_good(call, missing, longest, delay):
    """Whether a call meets the goals."""
    return missing <= (0.01 if abs(call.fast) >= 300 else 0.001) and longest <= 0.7 and delay <= 0.25


def options(parser):
    add_program(parser)
    parser.add_argument("--minutes", type=int, default=60, help="how long a call is (%(default)s)")
    parser.add_argument("--only", default="", metavar="WORD", help="only the calls with this word in their names")
    what = "simulate: how much may wait, and for how long more may"
    parser.add_argument("--rule", type=int, nargs=2, metavar=("MS", "SECONDS"), help=what)
    what = "tell each beginning, and the delays before it and from it on"
    parser.add_argument("--beginnings", action="store_true", help=what)


def run(args):
    program = None if args.rule else release_program(args.binary)
    status = 0
    for call in calls():
        if args.only not in str(call):
            continue
        pieces = simulated(call, args.minutes, args.rule) if args.rule else heard(call, args.minutes, program)
        missing, longest, delay, begins = measured(call, pieces)
        verdict = "" if is_good(call, missing, longest, delay) else "  a goal is missed"
        figures = f"{100 * missing:.3f} % missing, {longest:.2f} s at once, {1000 * delay:.0f} ms late"
        figures += f", {len(begins)} beginnings"
        print(f"{call}: {figures}{verdict}", flush=True)
        for moment, before, after in begins if args.beginnings else []:
            print(f"  {moment:7.1f} s: {1000 * before:.0f} ms became {1000 * after:.0f} ms", flush=True)
        status |= bool(verdict)
    return status
