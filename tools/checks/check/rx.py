"""Compares random datagrams with a model of the bridge.

Two video senders and two audio senders, one of them in a room for music, send packets that are reordered, lost,
doubled, cut short and changed, with wraps and restarts. Lost packets may come after all. Time passes for sources,
mostly for those of video. Receivers send NACKs. Operators mute, unsubscribe, remove and undo in between, with --groups
mostly in groups. They also have the second audio sender come back in the other room, or as a source of video. Every
second script names its bridge.

With --cases nothing is compared. The lines are printed with the model's answers, in the form of the scripts of
x_cases_files.
"""

import collections
import random

from checks.check.desk import group_with
from operators.models.bridge import Bridge
from operators.packets import rtp
from operators.shared import add_program_or_build, first_difference, replay

NEEDS = "a program, a minute"

P, Q, R, S, T = (f"10.0.0.{n}:5000" for n in range(1, 6))
SETUP = [
    "desk 0 add-room 1",
    f"desk 0 add-member 10 1 {P} pcmu 9001 0 0",
    f"desk 0 add-member 11 1 {Q} pcmu 9002 0 0",
    f"desk 0 add-member 12 1 {R} pcmu 9003 0 0",
    "desk 0 add-source 101 10 video",
    "desk 0 add-source 102 11 video",
    "desk 0 add-source 201 10 audio",
    "desk 0 add-slot 501 11 0 65500 4294960000",
    "desk 0 add-slot 502 12 0 7 7",
    "desk 0 add-slot 503 12 1 100 0",
    "desk 0 subscribe 501 101",
    "desk 0 subscribe 503 102",
    "desk 0 pin 1 101",
    "desk 0 add-room 2 44100",
    f"desk 0 add-member 13 2 {S} l16 9004 0 4294960000",
    f"desk 0 add-member 14 2 {T} l16 9005 65500 0",
    "desk 0 add-source 301 13 audio",
]
CALLS = [
    "mute 101", "unmute 101", "mute 102", "unmute 102", "unsubscribe 501", "subscribe 501 101", "subscribe 502 102",
    "unsubscribe 502",
    "pin 1 102", "pin 1 101", "unpin 1", "give-floor 1 10", "take-floor 1", "remove-slot 501", "add-slot 501 12 2 5 5",
    "remove-source 101",
    "add-source 101 10 video", "remove-member 12", f"add-member 12 1 {R} l16 9003 0 0", "add-slot 502 12 0 7 7",
    "remove-source 301", "remove-source 301", "add-source 301 13 video", "add-source 301 13 audio", "remove-member 13",
    "move-member 13 1",
    f"add-member 13 1 {S} l16 9004 0 0", f"add-member 13 2 {S} l16 9004 0 0", f"add-member 13 2 {S} pcmu 9004 0 0",
]  # fmt: skip
# Calls by which the second audio sender comes back in the other room, or as a source of video.
CHANGES = [
    *(
        f"group remove-member 13 / add-member 13 {room} {S} l16 9004 0 0 / add-source 301 13 audio"
        for room in (1, 1, 2)
    ),
    *(f"group remove-source 301 / add-source 301 13 {media}" for media in ("video", "audio")),
]
# Commands that add again what most packets are sent by or to.
MENDS = [
    "add-source 101 10 video", f"add-member 12 1 {R} l16 9003 0 0", "add-slot 502 12 0 7 7", "subscribe 501 101",
    f"add-member 13 2 {S} l16 9004 0 0", "add-source 301 13 audio",
]  # fmt: skip


def options(parser):
    add_script(parser, 3_000)


class Sender:
    """A source that sends frames of one to four packets of some payload types, and the packets that are under way."""

    def __init__(self, r, address, ssrc, types, steps=(3000, 3000, 160, 1)):
        self.r, self.address, self.ssrc, self.types, self.steps = r, address, ssrc, types, steps
        self.seq, self.ts, self.way = r.choice([0, 65500, 65300, 65450, r.randrange(65536)]), r.randrange(2**32), []
        # The last packets that were lost.
        self.lost = []

    def more(self):
        """Sends a frame on its way."""
        r, last = self.r, self.r.randrange(1, 5)
        self.ts += r.choice(self.steps)
        for n in range(1, last + 1):
            payload = bytes(r.randrange(256) for _ in range(r.choice([0, 1, 2, 2, 3])))
            pt = r.choice(self.types)
            self.way.append(rtp(self.seq, self.ts, self.ssrc, payload, int(n == last and r.random() < 0.9), pt))
            self.seq += 1
        if r.random() < 0.01:
            self.seq += r.choice([2998, 2999, 3000, 3001, -101, -100, -99, 255, 256, 257, 300, r.randrange(65536)])

    def next(self):
        if len(self.way) < 4:
            self.more()
        at = 0 if self.r.random() < 0.8 else self.r.randrange(min(6, len(self.way)))
        return self.way[at] if self.r.random() < 0.04 else self.way.pop(at)

    def arriving(self):
        """The next packet that isn't lost, or one that was lost before."""
        if self.lost and self.r.random() < 0.04:
            return self.lost.pop(self.r.randrange(len(self.lost)))
        octets = self.next()
        while self.r.random() < 0.06:
            self.lost = [*self.lost[-7:], octets]
            octets = self.next()
        return octets


def senders_of(r):
    """The senders; the first one sends twice as often."""
    first, music = Sender(r, P, 101, [96, 100]), Sender(r, S, 301, [0, 97] + 8 * [11], [882, 441, 100, 1])
    return [first, first, Sender(r, Q, 102, [96, 100]), Sender(r, P, 201, [0, 97, 97, 0, 97, 97, 8, 11]), music]


def draw_call(r, bridge, groups):
    """The line of an operator's call."""
    words = (
        r.choice(CALLS + 5 * MENDS + 3 * CHANGES)
        if r.random() < 0.8
        else f"{r.choice(['undo', 'redo'])} {bridge.version}"
    )
    words = group_with(r, bridge.desk, words, lambda: r.choice(CALLS)) if groups else words
    return f"desk {r.randrange(16)} {words}"


def draw_nacks(r, bridge):
    """The octets of a compound of NACKs, and where it comes from."""
    out = r.choice([501, 502, 503, 504])
    stream, packets = bridge.streams.get(out), b""
    for _ in range(r.choice([0, 1, 1, 2])):
        base = (stream.next if stream else 0) - r.choice([1, 3, 20, 511, 512, 513])
        word = (base % 65536).to_bytes(2, "big") + r.choice([0, 1, 0x8001, r.randrange(65536)]).to_bytes(2, "big")
        packets += bytes.fromhex("81cd000300000009") + out.to_bytes(4, "big") + word
    octets = (
        bytes.fromhex("80c9000100000009") + packets + r.choice([b"", b"", bytes.fromhex("81ce000200000009000001f5")])
    )
    if r.random() < 0.1:
        octets = octets[: r.randrange(1, len(octets) + 1)]
    return r.choice([P, Q, Q, R, R, "10.0.0.9:5000"]), octets


def draw_first(r):
    """The first line of every second script, which names its bridge. A bridge's name has no space there."""
    if r.random() < 0.5:
        return []
    name = "".join(chr(r.randrange(33, 127)) for _ in range(r.choice([1, 2, 3, 4, 5, 254, 255])))
    return [f"bridge {r.choice([0, 1, 7, 2**32 - 1, r.randrange(2**32)])} {name}" + r.choice(["", " renew"])]


def draw_waits(r, moment):
    """The lines of some waits for a source, which may be one of audio, or none."""
    address, ssrc = r.choice(
        [(P, 101), (P, 101), (P, 101), (Q, 102), (Q, 102), (S, 301), (P, 201), r.choice([(R, 101), (P, 102), (P, 9)])]
    )
    return (
        [f"wait {max(0, moment - r.choice([0, 0, 0, 10**9]))} {address} {ssrc}"] * r.choice(
            [1, 1, 1, 1, 1, 2, 3, 4, 30]
        )
    )


def draw_packet(r, senders):
    """The octets of a media packet, some of which are damaged, and where it comes from."""
    sender = r.choice(senders)
    octets = sender.arriving()
    if r.random() < 0.02:
        octets = octets[: r.randrange(1, len(octets) + 1)]
    elif r.random() < 0.02:
        at = r.randrange(min(12, len(octets)))
        octets = octets[:at] + bytes([octets[at] ^ 1 << r.randrange(8)]) + octets[at + 1 :]
    return sender.address if r.random() < 0.99 else R, octets


def draw_script(r, count, groups):
    """A random script as (line, its answers), and what happens in it."""
    bridge = Bridge()
    script = [(line, bridge.answer(line)) for line in [*draw_first(r), *SETUP]]
    senders, moment = senders_of(r), 10**18
    while len(script) < count:
        moment += r.choice([0, 999, 1000, 10**6, 33_333_333])
        kind = r.random()
        if kind < 0.02:
            lines = [draw_call(r, bridge, groups)]
        elif kind < 0.14:
            lines = draw_waits(r, moment)
        else:
            address, octets = draw_nacks(r, bridge) if kind < 0.19 else draw_packet(r, senders)
            lines = [f"rx {moment} {address} {octets.hex()}"]
        script += [(line, bridge.answer(line)) for line in lines]
    return script, bridge.seen


# For all checks of random lines


def add_script(parser, count):
    """Adds the options of a check of random lines."""
    parser.add_argument("--lines", type=int, default=count, help="how many lines (%(default)s)")
    parser.add_argument("--seed", type=int, default=1, help="what the random numbers begin with (%(default)s)")
    parser.add_argument("--groups", action="store_true", help="draw groups too")
    parser.add_argument("--cases", action="store_true", help="print cases")
    add_program_or_build(parser)


def kind_of(answer):
    """The words of an answer under which it is counted."""
    words = answer.split(" ")
    return " ".join(words[: 4 if " dropped " in answer else 2 if answer.startswith("rx") else 1])


def compare_script(args, script, seen):
    """Compares the program's answers with those of a script, or prints the script as cases. Tells what happens in it.
    The exit status."""
    if args.cases:
        print("\n".join(text for line, answers in script for text in [line, *("> " + answer for answer in answers)]))
        return 0
    counts = collections.Counter(kind_of(answer) for _, answers in script for answer in answers)
    count = first_difference(script, replay([line for line, _ in script], args.binary, args.seconds))
    print(", ".join(f"{name} {often}" for name, often in sorted(counts.items())))
    print(", ".join(f"{often} {name}" for name, often in sorted(seen.items()) if often))
    if count is None:
        return 1
    print(f"{len(script)} lines, {count} lines of answers, no difference")
    return 0


def run(args):
    return compare_script(args, *draw_script(random.Random(args.seed), args.lines, args.groups))
