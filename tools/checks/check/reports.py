"""Compares sender and receiver reports with a model of them.

Senders of video and audio send as in `check rx`, one of them in a room for music, and sender reports too. Receivers
send report blocks, NACKs and PLIs. Waits, ticks, reports and operators' calls come in between, with --groups mostly in
groups.

With --cases nothing is compared. The lines are printed with the model's answers, in the form of the scripts of
x_cases_files.
"""

import random

from checks.check.rx import SETUP, P, Q, R, S, add_script, compare_script, draw_call, draw_first, draw_waits, senders_of
from operators.models.reports import ReportBridge

NEEDS = "a program, a minute"


def options(parser):
    add_script(parser, 2_000)


def block_of(r, bridge):
    """A report block of a stream, or of none."""
    out = r.choice([501, 502, 503, 504, 9002])
    stream = bridge.streams.get(out)
    highest = r.randrange(3) * 65536 + ((stream.next if stream else 0) - r.choice([0, 1, 2, 511, 512, 513])) % 65536
    lost = r.choice([0, 1, -1, r.randrange(-(2**23), 2**23)]) % 2**24
    return (
        out.to_bytes(4, "big")
        + bytes([r.randrange(256)])
        + lost.to_bytes(3, "big")
        + highest.to_bytes(4, "big")
        + bytes(12)
    )


def feedback_of(r, bridge):
    """A PLI or a NACK."""
    number = r.choice([501, 502, 503, 504, 9002])
    out = number.to_bytes(4, "big")
    if r.random() < 0.5:
        return bytes.fromhex("81ce000200000009") + out
    stream = bridge.streams.get(number)
    first = ((stream.next if stream else 0) - r.randrange(4)) % 65536
    return bytes.fromhex("81cd000300000009") + out + first.to_bytes(2, "big") + r.choice([b"\0\0", b"\0\3"])


def compound_of(r, bridge):
    """A compound of report blocks, NACKs and PLIs."""
    blocks = b"".join(block_of(r, bridge) for _ in range(r.choice([0, 1, 1, 2])))
    count = len(blocks) // 24
    if r.random() < 0.4:
        ssrc, ntp = r.choice([101, 102, 201, 301, 9]), r.choice([bytes(8), r.randbytes(8)])
        octets = bytes([128 + count, 200, 0, 6 + 6 * count]) + ssrc.to_bytes(4, "big") + ntp + bytes(12) + blocks
    else:
        octets = bytes([128 + count, 201, 0, 1 + 6 * count, 0, 0, 0, 9]) + blocks
    for _ in range(r.choice([0, 0, 1, 2])):
        octets += feedback_of(r, bridge)
    return octets


def draw_lines(r, bridge, senders, moment, groups):
    """A line of any kind, or some waits."""
    kind = r.random()
    if kind < 0.02:
        return [draw_call(r, bridge, groups)]
    if kind < 0.05:
        return [f"tick {moment}"]
    if kind < 0.10:
        return [f"report {max(0, moment - r.choice([0, 0, 0, 10**9]))}"]
    if kind < 0.20:
        return [f"rx {moment} {r.choice([P, P, Q, Q, R, S, '10.0.0.9:5000'])} {compound_of(r, bridge).hex()}"]
    if kind < 0.26:
        return draw_waits(r, moment)
    sender = r.choice(senders)
    octets = sender.arriving()
    return [f"rx {moment} {sender.address if r.random() < 0.99 else R} {octets.hex()}"]


def draw_script(r, count, groups):
    """A random script as (line, its answers), and what happens in it."""
    bridge = ReportBridge()
    script, senders = [(line, bridge.answer(line)) for line in [*draw_first(r), *SETUP]], senders_of(r)
    moment = r.choice([0, 10**18, 2085978495 * 10**9])
    while len(script) < count:
        moment += r.choice([0, 999, 1000, 10**6, 33_333_333])
        script += [(line, bridge.answer(line)) for line in draw_lines(r, bridge, senders, moment, groups)]
    return script, bridge.seen


def run(args):
    return compare_script(args, *draw_script(random.Random(args.seed), args.lines, args.groups))
