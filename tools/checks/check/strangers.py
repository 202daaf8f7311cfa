"""Floods a bridge from addresses that no member has, while two members talk, and looks at `stats`.

Sixteen addresses send 2,000 datagrams a second for six seconds: RTP packets of five SSRCs each, and noise. Each time
that `stats` is asked, more datagrams were `dropped Unknown`, and more were neither RTP nor RTCP. It lists at most 64
strangers, all of them the flood's, with their payload type, and its counts of the members' sources and streams grow.
The streams that the members get have no gap, and each hears the other's tone. No more is dropped than was sent.
"""

import random
import time
from collections import Counter

from checks.bridges import check
from checks.check.call import SETUP, Call, check_mixes, connected_bridge, counted, has_more
from operators.packets import has_no_gap, rtp
from operators.serving import port_of, udp_socket
from operators.shared import add_program_or_build

NEEDS = "a program, fifteen seconds"

ADDRESSES = 16
SSRCS = 5
RATE = 2_000
# How often `stats` is asked, and how many seconds lie between.
ASKED = 4
BETWEEN = 1.5
MOST_STRANGERS = 64
TYPE = 96


def options(parser):
    add_program_or_build(parser)


class Flooded(Call):
    """A call beside which strangers send."""

    def __init__(self, connection, udp):
        super().__init__(connection, udp)
        self.strangers = [udp_socket() for _ in range(ADDRESSES)]
        self.flood = None
        self.sent = {"rtp": 0, "noise": 0}
        self.drawn = random.Random(1)

    def turn(self):
        super().turn()
        if self.flood is not None:
            due = int((time.monotonic() - self.flood) * RATE)
            # What a busy machine was late with is not made up for.
            for _ in range(min(due - sum(self.sent.values()), RATE // 20)):
                self.disturb()

    def disturb(self):
        one = self.drawn.choice(self.strangers)
        if self.drawn.random() < 0.5:
            ssrc = 70_000 + self.drawn.randrange(SSRCS)
            self.sent["rtp"] += 1
            one.sendto(rtp(self.sent["rtp"], 0, ssrc, b"stranger", pt=TYPE), self.udp)
        else:
            self.sent["noise"] += 1
            # A first octet under 64 is of version 0.
            noise = bytes([self.drawn.randrange(64)]) + self.drawn.randbytes(self.drawn.randrange(200))
            one.sendto(noise, self.udp)


def looked(call):
    """What `stats` says now."""
    lines = call.desk.shown("stats")
    check(lines[-1] == "end", "the answer to `stats` has no end")
    words = [line.split() for line in lines]
    # An outcome that no datagram had has no line.
    outcomes = Counter({" ".join(line[4:]): int(line[1]) for line in words if line[0] == "datagrams"})
    sources = {line[2]: int(line[4]) for line in words if line[0] == "source"}
    strangers = {(line[1], line[2]): (line[4], int(line[6])) for line in words if line[0] == "stranger"}
    streams = {line[1]: int(line[line.index("packets") + 1]) for line in words if line[0] == "stream"}
    return outcomes, sources, strangers, streams


def has_grown(name, before, after, keys):
    for key in keys:
        check(after[key] > before[key], f"{name} {key} had {before[key]} and has {after[key]} while the flood goes on")


def check_strangers(call, strangers):
    ours = {f"127.0.0.1:{port_of(one)}" for one in call.strangers}
    check(0 < len(strangers) <= MOST_STRANGERS, f"`stats` lists {len(strangers)} strangers")
    for (address, ssrc), (pt, _) in strangers.items():
        known = address in ours and 70_000 <= int(ssrc) < 70_000 + SSRCS and pt == str(TYPE)
        check(known, f"`stats` lists a stranger that is not of the flood: {address} {ssrc} of type {pt}")


def flood(call):
    """Asks `stats` while strangers send."""
    outcomes, sources, _, streams = looked(call)
    call.flood = time.monotonic()
    for _ in range(ASKED):
        call.talk(BETWEEN)
        more, heard, strangers, sent = looked(call)
        has_grown("the outcome", outcomes, more, ("dropped Unknown", "dropped Neither", "accepted"))
        has_grown("the source", sources, heard, ("101", "201", "202"))
        has_grown("the stream", streams, sent, ("501", "9001", "9002"))
        check_strangers(call, strangers)
        outcomes, sources, streams = more, heard, sent
    call.flood = None
    for ssrc, out in (201, 9001), (202, 9002):
        has_more(call, ssrc, out, f"behind the flood stream {out} stands still")
    outcomes = looked(call)[0]
    for name, kind in ("dropped Unknown", "rtp"), ("dropped Neither", "noise"):
        most = call.sent[kind]
        check(outcomes[name] <= most, f"{outcomes[name]} datagrams were {name}, though the flood sent {most}")


def hold(call):
    ports = {"p": port_of(call.members[201]), "q": port_of(call.members[202])}
    for version, line in enumerate(SETUP, 1):
        call.ask(line.format(**ports), f"ok {version}")
    for member, ssrc in (202, 501), (201, 9001), (202, 9002):
        has_more(call, member, ssrc, f"nothing comes of stream {ssrc}")
    flood(call)
    check_mixes(call)
    check(has_no_gap(call.stream(202, 501)), "the video has a gap")
    dropped = {lane: has["dropped"] for lane, has in counted(call, "lane").items()}
    check(set(dropped.values()) == {"0"}, f"items were dropped for lanes: {dropped}")
    print(f"{sum(call.sent.values())} datagrams of strangers beside a call of {call.seq * 0.02:.1f} s, no fault")


def run(args):
    with connected_bridge(args) as (_, udp, connection):
        hold(Flooded(connection, udp))
    return 0
