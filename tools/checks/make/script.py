"""Makes the script of a call in which the clock of a sender is slow, and tells the sum of its output by the model.

A member sends sound to another for some minutes, over a path with jitter and losses. A tick comes every 20 ms, and
buffers begin anew after late sound. The script is the same for the same arguments. It goes to standard output.

With --sum its case goes there instead, a line of tools/checks/check/sums.txt: the SHA-256 of the output by the model,
how many octets that has, and the arguments. `tools/bridge check cases` runs such cases.
"""

import hashlib
import random
import sys

from operators.models.mix import TICKS, MixBridge
from operators.packets import rtp

NEEDS = "nothing; half a minute with --sum"

P, Q = "10.0.0.1:5000", "10.0.0.2:5000"
SSRC, RATE = 201, 8000
SETUP = [
    "bridge 1 bridge renew",
    "desk 0 add-room 1",
    f"desk 0 add-member 10 1 {P} pcmu 9001 0 0",
    f"desk 0 add-member 11 1 {Q} pcmu 9002 65530 4294960000",
    f"desk 0 add-source {SSRC} 10 audio",
]
# A script begins at this moment. A millisecond and a tick, in nanoseconds; and how many ticks a minute has.
BEGIN, MILLI, TICK, MINUTE = 10**18, 10**6, 10**9 // TICKS, 60 * TICKS


def options(parser):
    parser.add_argument("--minutes", type=int, default=30, help="how long the call is (%(default)s)")
    parser.add_argument("--slow", type=int, default=100, help="by how many millionths the clock is slow (%(default)s)")
    parser.add_argument("--sum", action="store_true", help="the case by the model, not the script")


def sent_packets(args):
    """The moments of the packets that come, in nanoseconds from the beginning, and their lines."""
    r, size = random.Random(args.slow), RATE // TICKS
    for n in range(args.minutes * MINUTE):
        sent = n * TICK * (1_000_000 + args.slow) // 1_000_000
        came = sent + r.randrange(20 * MILLI) + (60 * MILLI if r.random() < 0.002 else 0)
        octets = rtp(n, n * size, SSRC, r.randbytes(size), pt=0)
        if n < 2 or r.random() > 0.003:
            yield came, f"rx {BEGIN + came} {P} {octets.hex()}"


def lines_of(args):
    """The lines of the script."""
    ticks = [(n * TICK, f"tick {BEGIN + n * TICK}") for n in range(args.minutes * MINUTE)]
    later = sorted([*sent_packets(args), *ticks], key=lambda it: it[0])
    return [*SETUP, *(line for _, line in later)]


def case_of(args, lines):
    """The case of a script: the sum and the size of its output by the model, and the arguments."""
    bridge, total, size = MixBridge(), hashlib.sha256(), 0
    for line in lines:
        for answer in bridge.answer(line):
            total.update(f"{answer}\n".encode())
            size += len(answer) + 1
    print(", ".join(f"{often} {what}" for what, often in sorted(bridge.seen.items()) if often), file=sys.stderr)
    return f"{total.hexdigest()} {size} --minutes {args.minutes} --slow {args.slow}"


def run(args):
    lines = lines_of(args)
    print(*([case_of(args, lines)] if args.sum else lines), sep="\n")
    return 0
