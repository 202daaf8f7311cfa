"""Reads and explains captures that it makes, good ones and bad ones.

A model of the bridge holds a call, whose packets are written in each form that `explain` reads: pcap of microseconds
and of nanoseconds, pcapng, both orders of octets, each link type, in fragments, behind a VLAN's tag, packed by gzip.
All have to be read alike, and explained without a difference. Then it writes captures that are cut, short, out of
order, incomplete, of two bridges or of another link type. Each fault has to be named, and the rest be explained. In
further calls faults are planted, such as a slow clock or a muted source: each has to be told, and nothing else, also
where the capture is explained by pieces. Last come captures that are made to do harm. What is shown of escape
sequences prints, also by `watch`. What options, unknown senders and fragments take has a bound. Where no order of what
happened explains the packets, the search for one ends.
"""

import contextlib
import gzip
import io
import pathlib
import random
import re
import subprocess
import sys
import tempfile

from checks.bridges import check
from checks.captures.writing import VLAN, pcap, pcapng, tcp_packet, udp_packets
from checks.explain import hostile
from checks.explain.made import BEGIN, BRIDGE, DESK, GAP, ONE, OPERATOR, OTHER, Made
from checks.explain.mutants import HOSTILE, OPTIONS, metrics_of, said_of, watch_told
from checks.explain.planted import BEHIND, FAULTS, FOLLOWS, SAID, Call
from checks.explain.varied import begun_at, disordered, lossy, variations, written, wrong
from checks.make.captures import made
from operators.captures.files import frames_of
from operators.captures.lines import ACK, SYN
from operators.captures.links import (
    COOKED,
    COOKED_2,
    ETHERNET,
    IPV4,
    LOOP,
    MOST_OCTETS,
    MOST_WAITING,
    NULL,
    RAW,
    Packets,
)
from operators.captures.notes import BadCapture, Notes
from operators.explain.amending import AGAIN, LEAST, UNTRIED
from operators.explain.explaining import explained
from operators.explain.findings import KINDS, OTHERS, STRANGERS
from operators.explain.given import given_by
from operators.explain.operators import calls_of
from operators.explain.pieces import Pieces, Source
from operators.explain.scripted import explain_script
from operators.explain.telling import MOST_STRANGERS, Telling, telling
from operators.explain.wire import wire_of
from operators.packets import number
from operators.shared import ROOT, fail
from operators.watch.seen import UNKNOWN

NEEDS = "nothing, a minute or two"

LINKS = [NULL, ETHERNET, RAW, COOKED, LOOP, IPV4, COOKED_2, 12]
ALL = (0, float("inf"))
BRIDGES = ROOT / "tools/bridge"
# So many packets of a long capture are read at once, where it is none.
FEW = 64


def packets_in(octets):
    """What is read of a capture, without moments, and the first moment to the microsecond."""
    found = list(Packets(Notes()).of(frames_of(io.BytesIO(octets), Notes())))
    return [(p.protocol, p.source, p.target, p.octets, p.seq, p.flags) for p in found], found[0].moment // 1000


def forms(packets):
    """The captures of some packets in each form, by a name."""
    for link in LINKS:
        for order in "<", ">":
            yield f"pcap, link type {link}, {order}", pcap(packets, link, order, 10**9)
            yield f"pcapng, link type {link}, {order}", pcapng(packets, link, order)
    yield "pcap of microseconds", pcap(packets)
    yield "pcapng of microseconds", pcapng(packets, digits=6)
    yield "a VLAN", pcap(packets, head=VLAN)
    yield "gzip", gzip.compress(pcap(packets))


def check_forms():
    """Each form is read alike, and so is a datagram in fragments that come in any order."""
    packets = Made(6).packets
    wanted, count = packets_in(pcap(packets, units=10**9)), 0
    for name, octets in forms(packets):
        check(packets_in(octets) == wanted, f"{name} isn't read as the others are")
        count += 1
    whole = list(udp_packets(BRIDGE, ONE, bytes(range(256)) * 8, 9))
    parts = list(udp_packets(BRIDGE, ONE, bytes(range(256)) * 8, 9, 800))
    check(len(parts) == 3, "there are no fragments")
    for order in (0, 1, 2), (2, 0, 1), (1, 2, 0):
        octets = pcap([(n, parts[at]) for n, at in enumerate(order)])
        check(
            packets_in(octets)[0] == packets_in(pcap([(0, whole[0])]))[0],
            f"fragments in the order {order} aren't joined",
        )
    print(f"{count} forms of a capture are read alike, and fragments in each order")


def told(octets, **named):
    """What is told of a capture, and how many media packets differ, or None without a desk."""
    it = explained(io.BytesIO(octets), **named)
    return "\n".join(telling(it, "it", None, ALL)), len(it.run.cursor.found) if it.run else None, it


def check_call(packets):
    """The whole call is explained without a difference, and its wrong senders are named."""
    text, found, it = told(pcap(packets, units=10**9))
    check(found == 0, f"of a whole call {found} media packets differ\n{text}")
    for sentence in [
        "127.0.0.1:6002 sends SSRC 202 as type 8 (PCMA): 10 packets dropped BadPayload",
        "127.0.0.1:6004 sends SSRC 77 as type 8 (PCMA): 10 packets dropped Unknown. No member has this address",
        "202 was muted since call 9 of operator 0",
        "202 is muted since call 13 of operator 0",
        "call 11: group set-gain 10 202 128 / mute 101",
    ]:
        check(sentence in text, f"of a whole call it isn't told: {sentence}\n{text}")
    nobody = "\n".join(telling(it, "it", "99", ALL))
    is_told = "an SSRC 99, so nobody is told of. There are 10 at 127.0.0.1:6000" in nobody
    check(is_told, f"of nobody it is told\n{nobody}")
    print(f"a call of {it.run.cursor.equal} media packets is explained without a difference")


def swapped(packets, text):
    """The capture with the line of a text in two segments, the second of which comes first."""
    at = next(n for n, (_, packet) in enumerate(packets) if text in packet)
    moment, packet = packets[at]
    seq, octets = number(packet[24:28]), packet[40:]
    halves = [tcp_packet(OPERATOR, DESK, seq + first, 24, octets[first:last]) for first, last in ((4, None), (0, 4))]
    return packets[:at] + [(moment + n * 10_000, half) for n, half in enumerate(halves)] + packets[at + 1 :]


def without_segment(packets, text):
    return [(moment, packet) for moment, packet in packets if text not in packet]


def check_bad(packets):
    """What is wrong with a capture is named, and what can be explained is."""
    whole, text = pcap(packets, units=10**9), "\n{}"
    other_link = pcapng(packets[:3], 0).replace(b"\x01\0\0\0\x20\0\0\0\0\0", b"\x01\0\0\0\x20\0\0\0\x7f\0")
    is_swapped, is_lost = (
        pcap(some, units=10**9) for some in (swapped(packets, b"undo 9\n"), without_segment(packets, b"mute 202\n"))
    )
    cases = [
        ("cut in mid-packet", whole[:-30], "the capture ends in the middle of a packet", 0),
        ("of two link types", pcapng(packets) + other_link, "link type 127 (802.11 with radiotap) isn't read", 0),
        ("with segments out of order", is_swapped, "TCP segments of 127.0.0.1:40000 are out of order", 0),
        ("with a segment lost", is_lost, "octets of TCP from 127.0.0.1:40000 to 127.0.0.1:7000 are missing", None),
        ("cut by a snap length", pcap(packets, units=10**9, most=120), "packets are cut short", None),
    ]
    for name, octets, wanted, most in cases:
        said, found, _ = told(octets)
        check(wanted in said, f"a capture {name}: it isn't told that {wanted}{text.format(said)}")
        check(most is None or found == most, f"a capture {name}: {found} media packets differ{text.format(said)}")
    for name, octets, wanted in [
        ("without a packet", pcap([]), "it has no UDP or TCP over IPv4"),
        ("of another link type alone", pcap(packets, 127), "link type 127 (802.11 with radiotap) isn't read"),
        ("cut before the ends of headers", pcap(packets, most=40), "capture with `-s 96` or more"),
        ("of nothing", b"", "the capture is empty"),
        ("of something else", b"<html>", "it begins with 3c68746d"),
    ]:
        try:
            told(octets)
            fail(f"a capture {name} is explained")
        except BadCapture as why:
            check(wanted in str(why), f"a capture {name}: it is told that {why}, not that {wanted}")
    print("captures that are cut, short, out of order, incomplete, empty or of another kind are named")


def check_two(packets):
    """Two bridges in one capture are named, and each can be chosen."""
    others = Made(20, bridge=("127.0.0.1:5104", "127.0.0.1:7100"), members=("127.0.0.1:6100", "127.0.0.1:6102")).packets
    both = pcap(sorted(packets + others, key=lambda one: one[0]), units=10**9)
    try:
        told(both)
        fail("a capture of two bridges is explained as if there were one")
    except BadCapture as why:
        check("several bridges" in str(why) and "7100" in str(why), f"of two bridges it is told: {why}")
    for named in {"tcp": "7000"}, {"tcp": "127.0.0.1:7100"}, {"udp": "5104"}:
        said, found, _ = told(both, **named)
        check(found == 0, f"one of two bridges, {named}: {found} media packets differ\n{said}")
    # An update is tried so: both versions are fed with the same call.
    others = Made(20, bridge=("127.0.0.1:5104", "127.0.0.1:7100")).packets
    both = pcap(sorted(packets + others, key=lambda one: one[0]), units=10**9)
    for named, wanted in (
        ({"tcp": "7100"}, "Name it by --udp, too"), ({"udp": "5104"}, "Name it by --tcp, too"),
        ({}, "choose one by --tcp or --udp"),
    ):  # fmt: skip
        try:
            told(both, **named)
            fail(f"of two bridges with the same members, {named} chooses one")
        except BadCapture as why:
            check(wanted in str(why), f"of two bridges with the same members it is told by {named}: {why}")
    said, found, _ = told(both, udp="5104", tcp="7100")
    check(found == 0, f"of two bridges with the same members, {found} media packets differ\n{said}")
    page, body = ("127.0.0.1:40500", "127.0.0.1:7080"), "".join(f"{line}\n" for line in [*ROWS, "end 12"])
    asked, said = b"GET /desk.txt HTTP/1.1\r\n\r\n", f"HTTP/1.1 200 OK\r\n\r\n{body}".encode()
    http = [
        (BEGIN, tcp_packet(*page, 99, SYN)), (BEGIN, tcp_packet(*page[::-1], 999, SYN | ACK)),
        (BEGIN + GAP, tcp_packet(*page, 100, 24, asked)), (BEGIN + GAP, tcp_packet(*page[::-1], 1000, 24, said)),
    ]  # fmt: skip
    said, found, _ = told(written(packets + http))
    check(found == 0 and "another bridge" not in said, f"the page is taken for a bridge\n{said}")
    print("two bridges in one capture are named, and each can be chosen; the page is none")


def check_middle():
    """A capture that begins in mid-call is explained from a `show` on, or with the desk's rows; without them it is
    named."""
    call = Made(80, shows=40)
    middle = [(moment, packet) for moment, packet in call.packets if moment >= call.packets[0][0] + 790_000_000]
    said, found, it = told(pcap(middle, units=10**9))
    check("begins in mid-call" in said, f"a capture that begins in mid-call isn't named\n{said}")
    kinds = {one.kind for one in it.run.cursor.found}
    check(found <= 12 and it.run.cursor.equal > 80, f"in mid-call {found} media packets differ, {kinds}\n{said}")
    datagrams = pcap([(moment, packet) for moment, packet in middle if packet[9] == 17], units=10**9)
    said, _, it = told(datagrams)
    check(
        it.run is None and "the desk isn't in it" in said and f"{OTHER}" in said,
        f"without the desk it is told:\n{said}",
    )
    given = given_by("\n".join(Made(1).bridge.desk.shown(8)))
    said, found, it = told(datagrams, given=given)
    check(it.run and it.run.cursor.equal > 20, f"with the desk's rows it is told:\n{said}")
    print("a capture that begins in mid-call is explained from `show` on")


# What is planted


def found_in(octets, **named):
    """What stands out of a capture."""
    it = explained(io.BytesIO(octets), **named)
    return (Telling(it, None, ALL).found() if it.run else []), it


def found_by_script(it):
    """What stands out of the script of a capture that is explained, without the capture."""
    return Telling(explain_script("".join(f"{line}\n" for line in it.run.script())), None, ALL).found()


def check_planted():
    """Each planted fault is told, and nothing else but what follows from it. By its script alone a capture tells the
    same, but for what its wire says."""
    for name, (how, fault, words) in (FAULTS | SAID).items():
        call = Call(says=how) if name in SAID else Call(how)
        found, it = found_in(written(call.packets))
        may = {fault, *FOLLOWS.get(fault, ())}
        differ = wrong(found, may, {fault}) + wrong(found_by_script(it), may, {fault} - {("overrun", None)})
        if not any(words in one.text for one in found):
            differ.append(f"no sentence has: {words}")
        check(not differ, f"a call with {name}:\n" + "\n".join(differ + [one.text for one in found]))
    print(f"{len(FAULTS | SAID)} planted faults are told, and nothing else")


# Connections of operators

# Rows of each kind, in answers of `show`, `groups`, `history`, `watch`, `calls`, `help`, `why`, `stats` and `levels`.
ROWS = [
    "room 1", "member 0 10 1 127.0.0.1:6000 pcmu 9001 0 0", "member 1 11 1 127.0.0.1:6002 pcmu 9002 0 0",
    "source 101 10 video", "source 201 10 audio", "source 202 11 audio", "slot 501 11 0 0 0", "sub 501 101", "mute 202",
    "gain 10 202 128", "pin 1 101", "floor 1 10",
]  # fmt: skip
GROUPS = [
    "group add-room 1 8000 / add-member 10 1 127.0.0.1:6000 pcmu 9001 0 0 / add-source 201 10 audio", "group mute 201",
    "group add-room 2 44100",
]  # fmt: skip
HISTORY = [
    "1 0 add-room 1 8000", "2 0 add-member 10 1 127.0.0.1:6000 pcmu 9001 0 0", "3 1 add-source 201 10 audio",
    "4 0 mute 201", "undone", "5 0 pin 1 201",
]  # fmt: skip
WATCHED = ["call 13 0 mute 201", "call 14 1 unmute 201", "call 15 0 group mute 201 / unpin 1"]
NAMED = [
    "call 13 1800000000123 0 - mute 201", "call 14 1800000000456 1 ann undo 13", "call 15 1800000000789 0 as redo 14",
]  # fmt: skip
LISTED = ["call 1 1800000000001 0 - add-room 1 8000", "call 2 1800000000002 1 mute add-room 2 44100"]
HELP = [
    "mute SOURCE", "pin ROOM SOURCE", "undo LAST", "group COMMAND / COMMAND ..", "show", "groups", "history [N]",
    "calls [N]", "stats", "levels", "watch [names]", "as NAME", "lease [MS]", "why", "help [WORD]", "quit", "stop",
]  # fmt: skip
HELP_OF_MUTE = [
    "mute SOURCE", "SOURCE: the SSRC of a source, 0 to 4294967295", "refused 10 Already nothing to do",
    "example mute 201",
]  # fmt: skip
WHY = [
    "line undo", "word 2 - LAST: the number of the last accepted call", "last 7",
    "fault 4 MissingWord a word is missing",
]  # fmt: skip
WHY_REFUSED = [
    "line revert 7", "refused 25 Conflict a later call rests on it", "call 9 part 0", "refused 10 Already nothing to do"
]  # fmt: skip
STATS = [
    "datagrams 3 octets 51 dropped rtp 3 Csrc",
    "source 127.0.0.1:6000 201 packets 50 octets 8600 late 0 duplicate 0 dropped 1 expected 50 lost 0 ago 4 jitter 0 "
    "frames - given-up - waiting - samples 8000 energy 7626100", "stranger 10.0.0.9:5000 777 type 100 packets 12",
    "left-out sources 0 strangers 3 streams 0 reports 0", "limited nacks 4 blocks 0 plis 1", "seats 2 of 4",
]  # fmt: skip
LEVELS = ["level 127.0.0.1:6000 201 8000 7626100"]
# The groups that make some rows again.
GROUPS = [
    "group add-room 1 8000 / add-member 10 1 127.0.0.1:6000 pcmu 9001 0 0 / add-source 201 10 audio",
    "group mute 201 / set-gain 10 201 128",
]  # fmt: skip
# Lines that are about a lease, and their answers, which look like further ones.
LEASES = [("lease 5000", "lease 5000 agent-fleet"), ("lease", "lease 4200 agent-fleet"), ("lease", "lease 0 -")]
# What an operator asks that is no call, and the rows of the answer.
ASKED = {
    "groups": GROUPS, "calls": LISTED, "calls 2": LISTED, "help": HELP, "help mute": HELP_OF_MUTE, "why": WHY,
    "stats": STATS, "levels": LEVELS,
}  # fmt: skip


def talk(pairs, has_syn):
    """The packets of an operator's connection: questions, each with what the bridge says to it."""
    packets, asked, said, moment = [], 1000, 5000, BEGIN
    if has_syn:
        packets = [(BEGIN, tcp_packet(OPERATOR, DESK, 999, SYN)), (BEGIN, tcp_packet(DESK, OPERATOR, 4999, SYN | ACK))]
    for question, answer in pairs:
        moment += 1_000_000
        for ends, seq, text in ((OPERATOR, DESK), asked, question), ((DESK, OPERATOR), said, answer):
            octets = "".join(f"{line}\n" for line in text).encode()
            packets.append((moment, tcp_packet(*ends, seq, 24, octets)))
            moment += 100_000
        asked, said = asked + sum(len(line) + 1 for line in question), said + sum(len(line) + 1 for line in answer)
    return packets


def check_asked():
    """What an operator asks has its own answer, also where several lines come at once and some are faulty."""
    asked = [
        ("lease off", ["lease off"]), ("lease 5000", ["lease 5000 -"]), ("lease", ["lease 4200 agent-fleet"]),
        ("lease x", ["fault 2 6 BadNumber"]), ("as ann", ["as ann"]), ("as", ["fault 2 4 MissingWord"]),
        ("undo", ["fault 2 4 MissingWord"]),
        ("why", [*WHY, "end"]), ("why not", ["fault 2 5 ExtraWord"]), ("revert 7", ["no 12 23 NotInForce"]),
        ("why", [*WHY_REFUSED, "end"]), ("help", [*HELP, "end"]), ("help mute", [*HELP_OF_MUTE, "end"]),
        ("stats", [*STATS, "end"]), ("levels", [*LEVELS, "end"]), ("show", [*ROWS, "end 12"]),
        ("groups", [*GROUPS, "end 12"]), ("watch names", ["end 12"]), ("mute 201", ["ok 13", NAMED[0]]),
        ("calls 2", [*LISTED, "end 2"]), ("history", [*HISTORY, "end 6"]),
    ]  # fmt: skip
    for has_syn in True, False:
        wanted = [(line, answer[-1] if line != "mute 201" else "ok 13") for line, answer in asked]
        alone = [([line], answer) for line, answer in asked]
        at_once = [([line for line, _ in asked], [one for _, answer in asked for one in answer])]
        for pairs in alone, at_once:
            calls, told = calls_of(wire_of(io.BytesIO(written(talk(pairs, has_syn)))))
            # The order is that of their moments, and one answer may be that of several lines.
            got = sorted((call.text, call.answer) for call in calls)
            check(got == sorted(wanted), f"lines have the answers {got}")
            check(len(told.shown) == 4, f"of what is asked the desk is told by {[one.by for one in told.shown]}")
    print(f"{len(asked)} lines of an operator have their answers, one by one and at once")


def check_rows():
    """A row in an answer is never an operator's line, also where the connection's beginning isn't there."""
    count = 0
    for has_syn in True, False:
        others = [[(["help"], [*HELP, "end"])], [(["as ann"], ["as ann"]), (["help"], [*HELP, "end"])]]
        others += [[([one], [said])] for one, said in LEASES]
        others += [[(["lease off"], ["lease off"]), (["mute 201"], ["ok 1"])]]
        others += [[([question], [*rows, "end 2"])] for question, rows in ASKED.items()]
        others += [[(["watch names"], ["end 12"]), ([], NAMED)]]
        others += [[(["undo"], ["fault 2 4 MissingWord"]), (["why"], WHY)]]
        # What a bridge tells as groups, behind one of an operator, and from the middle on; and one that isn't answered.
        others += [[(["group add-room 1 / mute 201"], ["ok 1"]), (["groups"], [*GROUPS, "end 1"])]]
        others += [[([], GROUPS), ([], ["end 1"]), (["groups"], [*GROUPS, "end 1"])], [(["group add-room 1"], [])]]
        for pairs in others:
            it = explained(io.BytesIO(written(talk(pairs, has_syn))))
            asked = {call.text for call in it.calls if call.client}
            wanted = {line for question, _ in pairs for line in question}
            check((it.wire.tcp, asked) == (DESK, wanted), f"of {pairs} the desk is {it.wire.tcp}, asked {asked}")
            count += 1
    for has_syn in True, False:
        for row in ROWS:
            rows = [one for one in ROWS if one.split(" ")[0] != row.split(" ")[0]] + [row]
            for pairs in (
                [(["show"], [*rows, "end 12"])], [(["mute 202", "show"], ["ok 12", *rows, "end 12"])],
                [(["history"], [*HISTORY, "end 6"])],
                [(["watch"], ["end 12"]), ([], WATCHED), (["show"], [*rows, "end 15"])],
                [([], rows[3:]), ([], ["end 12"]), (["show"], [*rows, "end 12"])],
            ):  # fmt: skip
                it = explained(io.BytesIO(written(talk(pairs, has_syn))))
                told = (it.wire.tcp, {call.client for call in it.calls if call.text in ROWS} & {DESK})
                check(told == (DESK, set()), f"of {pairs} the desk is {told[0]}, and a row is an operator's line")
                count += 1
    print(f"in {count} conversations no row of an answer is an operator's line")


def check_order():
    """Operators' lines have their answers, in whatever order within 5 ms a capture has their segments."""
    packets, draw = Call(says={8: ["show"], 9: ["mute 202"]}).packets[:120], random.Random(1)
    wanted = calls_in(packets)
    for _ in range(40):
        got = calls_in(disordered(draw, packets))
        check(got == wanted, f"out of order, the calls are {got}")
    print("operators' lines have their answers in each order of their segments")


def check_lost_lines():
    """Where the capture lacks an operator's lines, the answers that follow aren't taken for those of other lines."""
    call = Call(says={10: ["show"], 40: ["mute 202"], 80: ["unmute 202"]})
    lost = [one for one in call.packets if b"add-source 201 " not in one[1] and b"add-source 202 " not in one[1]]
    found, it = found_in(written(lost))
    words = [text for text, _ in it.run.odd]
    until = "until a `show`, `groups`, `history` or `calls`"
    lacks = f"the capture lacks call 4: the desk isn't known from then on, {until}"
    check(words == [lacks], f"of lost lines it is noted: {words}")
    said = {(one.kind, one.about) for one in found}
    check(said == {("muted", 202)}, f"of a capture that lacks an operator's lines it is told: {found}")
    print("where an operator's lines are lost, nothing false is told")


def check_lost_answers():
    """Where a capture in mid-call lacks an answer, or the first rows of one, these are no other line's."""
    says = {10: ["show"], 30: ["mute 202"], 50: ["show"], 70: ["unmute 202"], 90: ["show"]}
    call = Call(says=says)
    for begin, lacks in (9, b"end 8\n"), (29, b"ok 9\n"), (49, b"end 9\n"), (69, b"ok 10\n"):
        packets = [one for one in call.packets if one[0] >= BEGIN + begin * GAP and lacks not in one[1][-8:]]
        found, it = found_in(written(packets))
        mutes = {one.text.split(" since ")[0] for one in found}
        check(mutes <= {"202 was muted"} and not it.run.odd, f"from {begin} on, without {lacks}: {found} {it.run.odd}")
        later = [(one.text, one.answer) for one in it.calls if one.moment > BEGIN + (begin + 18) * GAP and one.answer]
        wrong_ones = [one for one in later if one not in [("mute 202", "ok 9"), ("unmute 202", "ok 10")]
                      and not (one[0] == "show" and one[1].startswith("end "))]  # fmt: skip
        check(not wrong_ones, f"from {begin} on, without {lacks}, lines have the answers {wrong_ones}")
    # The answer of a `show` in two segments, of which the first one is lost.
    rows = call.bridge.desk.shown(10)
    for cut in range(1, len(rows) - 1):
        said = [(BEGIN + 40 * GAP, octets) for _, octets in talk([(["show"], rows[cut:])], False)]
        _, it = found_in(written(Call().packets[20:] + said))
        check(not it.run, f"a desk without {rows[:cut]} is taken for one")
    print("in mid-call no answer is another line's, and no desk is one that lacks its first rows")


def calls_in(packets):
    """The calls of packets, with their answers."""
    return [(call.text, call.answer) for call in calls_of(wire_of(io.BytesIO(written(packets))))[0]]


def check_desks():
    """The desk of a capture in mid-call comes from `show`, also in one segment with a call, from `history`, and from
    files."""
    call = Call(says={20: ["mute 202"], 60: ["unmute 202"]})
    rest = [one for one in call.packets if one[0] >= BEGIN + 30 * GAP]
    rows, calls = call.bridge.desk.shown(9)[:-1] + ["mute 202", "end 9"], [*call.bridge.log.history(99)][:9]
    log = call.bridge.log
    made = [f"desk 0 {' '.join(words)}" for (_, _, words), _ in log.done]
    kept = ["# the desk of version 9", "group " + " / ".join(" ".join(words) for (_, _, words), _ in log.done[:9])]
    trace = ["bridge 1 bridge renew", *made[:9], f"rx {BEGIN + 59 * GAP} 1.2.3.4:5 00", *made[9:]]
    listed = [*call.accepted, "end 10"]
    for name, lines in (
        ("show", rows), ("history", [*calls, "end 9"]), ("calls", listed), ("keep", kept), ("a trace", trace),
        ("groups", [kept[1], "end 9"]),
    ):  # fmt: skip
        found, it = found_in(written(rest), given=given_by("\n".join(lines)))
        differ = wrong(found, {("muted", 202)}, {("muted", 202)})
        check(not differ and not it.run.lost, f"by {name}: {differ} {it.run.odd}")
    # A history in the capture, whose calls can be undone.
    spoken = Call(says={40: ["mute 202"], 60: ["history"], 80: ["undo 9"], 100: ["redo 10"]}).packets
    found, it = found_in(written([one for one in spoken if one[0] >= BEGIN + 50 * GAP]))
    told = [(one.kind, one.about) for one in found]
    check(told == 2 * [("muted", 202)] and not it.run.odd, f"by a history in the capture it is told: {found}")
    # What is asked by a program that keeps the desk.
    spoken = Call(says={40: ["mute 202"], 60: ["groups"], 80: ["unmute 202"]}).packets
    found, it = found_in(written([one for one in spoken if one[0] >= BEGIN + 50 * GAP]))
    told = [(one.kind, one.about) for one in found]
    check(told == [("muted", 202)] and not it.run.odd, f"by `groups` in the capture it is told: {found} {it.run.odd}")
    # All calls in the capture, also an undo and a revert.
    says = {20: "mute 202", 30: "undo 9", 40: "mute 202", 45: "mute 101", 50: "revert 12", 60: "calls"}
    says[80] = "unmute 202"
    spoken = Call(says={at: [line] for at, line in says.items()}).packets
    found, it = found_in(written([one for one in spoken if one[0] >= BEGIN + 55 * GAP]))
    told = [(one.kind, one.about) for one in found]
    check(told == [("muted", 202)] and not it.run.odd, f"by `calls` in the capture it is told: {found} {it.run.odd}")
    # What was undone before isn't told.
    spoken = Call(says={20: ["mute 202"], 30: ["undo 9"], 60: ["history"]}).packets
    found, it = found_in(written([one for one in spoken if one[0] >= BEGIN + 50 * GAP]))
    check(not found and not it.run.odd, f"of what a history has as undone it is told: {found} {it.run.odd}")
    # Who did it is told by name, as the operator said it, and as `calls` tells it of one whose lines aren't there.
    spoken = Call(says={19: ["as ann"], 20: ["mute 202"], 60: ["mute 101"], 120: ["calls"]}).packets
    found, it = found_in(written([one for one in spoken if b"mute 101\n" not in one[1] or b"call " in one[1]]))
    told, by = {(one.kind, one.about) for one in found}, [one.text.split(" of ")[1][:16] for one in found[:2]]
    check(told == {("muted", 202), ("muted", 101), ("slot", 501)} and not it.run.odd, f"{found} {it.run.odd}")
    check(by == 2 * ["operator 0 (ann)"], f"who muted them is told so: {found}")
    # Reverts: where a history has one, or a call isn't known that one takes back, the desk is told once more.
    says = {30: "mute 202", 40: "pin 1 101", 60: "revert 9", 80: "revert 11", 90: "history", 110: "revert 10"}
    spoken = Call(says={at: [line] for at, line in says.items()}).packets
    past = [*calls, "9 0 mute 202", "10 0 pin 1 101", "end 10"]
    for begin, mutes, lacks in (0, 2, []), (50, 1, [9, 10]), (85, 1, [10]):
        given = given_by("\n".join(past)) if begin == 50 else None
        found, it = found_in(written([one for one in spoken if one[0] >= BEGIN + begin * GAP]), given=given)
        told, odd = [(one.kind, one.about) for one in found], [text.split("`")[1] for text, _ in it.run.odd]
        wanted = mutes * [("muted", 202)], [f"revert {number}" for number in lacks]
        check((told, odd) == wanted, f"of reverts from {begin} on it is told: {told} {it.run.odd}")
    # What is said in one segment.
    for question, answer in (
        (["mute 202", "show"], ["ok 9", *rows]), (["show", "mute 202"], [*rows[:-2], "end 8", "ok 9"]),
    ):  # fmt: skip
        said = [(BEGIN + 40 * GAP, octets) for _, octets in talk([(question, answer)], False)]
        found, it = found_in(written(Call().packets[20:] + said))
        is_told = ("muted", 202) in {(one.kind, one.about) for one in found}
        check(is_told and not it.run.odd, f"{question}: {it.run.odd}")
    # Speech comes first, and `show` at the end.
    last = Call(says={120: ["show"]}).packets
    found, it = found_in(written([one for one in last if one[0] >= BEGIN + 30 * GAP]))
    told = [one.text for one in found]
    check(not told and it.begin > BEGIN + 119 * GAP, f"where `show` comes last, it is told: {told}")
    ways = "`show`, `groups`, `history`, `calls`, `keep` and a trace"
    print(f"the desk comes from {ways}; a `show` stands where its answer ends")


# Captures that are worse


def check_varied():
    """A capture that is cut, out of order, of a clock that is set, or with another bridge is told as the whole one."""
    draw, count = random.Random(1), 0
    call = Call(says={at: ["show"] for at in range(8, 150, 20)})
    rows = given_by("\n".join(Call(ticks=0).bridge.desk.shown(8)))
    others = Call(bridge=("127.0.0.1:5104", "127.0.0.1:7100"), members=("127.0.0.1:6100", "127.0.0.1:6102")).packets
    for one in variations(draw, call.packets, 3, (rows, BEGIN + GAP), others, {"udp": "5004"}):
        found, _ = found_in(one.octets, **one.named)
        check(not found, f"{one.how}, it is told: {[one.text for one in found]}")
        count += 1
    # Several at once: what is left of the call is short, and chance takes more of one source than of others.
    for _ in range(20):
        begin = BEGIN + draw.randrange(130) * GAP
        packets = disordered(draw, lossy(draw, begun_at(call.packets, begin)))
        found, _ = found_in(written(packets))
        check(not found, f"from {(begin - BEGIN) / 1e9} s on, lossy and out of order, it is told: {found}")
        count += 1
    hours = [(400 * 24 * 3600 * 10**9 if n == 300 else 0) + moment for n, (moment, _) in enumerate(call.packets)]
    found, it = found_in(pcap([(at, octets) for at, (_, octets) in zip(hours, call.packets)], units=10**9))
    check(not found and not it.run.cursor.found, "a packet with a moment of its own changes what is told")
    print(f"{count + 1} worse captures are told as the whole one is")


def check_sentences():
    """Each sentence of DEBUGGING's table is told of its capture, and each kind of sentence is told of one."""
    said, kinds = {}, set()
    for name, packets in made().items():
        with contextlib.suppress(BadCapture):
            found, _ = found_in(written(packets))
            kinds |= {one.kind for one in found}
            said[f"{name}.pcap"] = "\n".join(one.text for one in found)
    text = (ROOT / "docs/DEBUGGING.md").read_text()
    rows = re.findall(r"^\| (`+) ?(.+?) ?\1 \| .* \| ([a-z]+\.pcap) \|$", text, re.MULTILINE)
    lacking = [part for _, part, name in rows if part not in said.get(name, "")]
    check(rows and not lacking, f"DEBUGGING has sentences that its captures don't show: {lacking}")
    quoted = {name for name in said if name in text}
    check(not said.keys() - quoted, f"DEBUGGING shows none of {sorted(said.keys() - quoted)}")
    check(kinds == KINDS, f"no capture of DEBUGGING's shows {sorted(KINDS - kinds)}")
    print(f"{len(KINDS)} kinds of sentences are shown by captures, and {len(rows)} rows of DEBUGGING's table")


# Long captures


def check_pieces():
    """A capture by pieces is told as the whole one is, and its desk goes on from one to the next, with its calls."""
    says = {60: ["mute 202"], 160: ["unmute 202"], 260: ["undo 10"], 290: ["redo 11"], 340: ["mute 101"]}
    octets, texts = written(Call(ticks=400, says=says).packets), []
    source = Source(io.BytesIO(octets), FEW)
    for it, between in Pieces(source, 2).all():
        one = Telling(it, None, between)
        check(not one.differing() and not it.run.odd, f"a piece has differences: {one.differing()} {it.run.odd}")
        texts.append([one.text for one in one.found()])
        kept, most = len(source.reading.datagrams), 200 * (2 * 1.25 + 3) + 2 * FEW
        check(kept < 2 * most, f"of a piece {kept} datagrams are kept")
    wanted = [
        ["202 is muted since call 9 of operator 0 at 1.210 s"],
        ["202 was muted since call 9 of operator 0 at 1.210 s, until call 10 of operator 0 at 3.210 s"],
        ["202 was muted since call 11 of operator 0 at 5.210 s, until call 12 of operator 0 at 5.810 s"],
        [
            "101 is muted since call 13 of operator 0 at 6.810 s",
            "stream 501 of member 11 shows nothing at the end: 101 is muted",
        ],
    ]
    check(texts == wanted, f"by pieces it is told: {texts}")
    whole, parts = wire_of(io.BytesIO(octets)), Source(io.BytesIO(octets), FEW).whole().wire()
    check((whole.into, whole.out) == (parts.into, parts.out), "what is read a few packets at a time is read otherwise")
    for name, (how, fault, _) in (FAULTS | SAID).items():
        call = Call(says=how) if name in SAID else Call(how)
        may, said = {fault, *FOLLOWS.get(fault, ()), BEHIND.get(fault)}, set()
        for it, between in Pieces(Source(io.BytesIO(written(call.packets)), FEW), 1.5).all():
            found = Telling(it, None, between).found()
            said |= {(one.kind, one.about) for one in found}
            check(not wrong(found, may, set()), f"by pieces, of a call with {name}: {wrong(found, may, set())}")
        # It takes longer than a piece to see that a clock is slow.
        check(fault in said or fault[0] == "clock", f"by pieces, of a call with {name} it is told: {said}")
    print(f"by pieces {len(FAULTS | SAID)} planted faults are told, and nothing else; a desk goes on with its calls")


# Captures that are meant to do harm


def shown_by(*words, given=b""):
    """All that a tool shows of a capture, on both streams."""
    run = subprocess.run([sys.executable, "-B", BRIDGES, *words], input=given, capture_output=True, check=False)
    check(b"Traceback" not in run.stderr, f"{words} ends in a traceback: {run.stderr[-1000:]}")
    return run.stdout + run.stderr


def check_terminal():
    """Whatever octets a capture, a row, a name or an argument has, what is shown of it prints."""
    octets, escapes, count = hostile.for_terminals(), HOSTILE.decode("latin-1"), 0
    with tempfile.TemporaryDirectory() as folder:
        path, rows = pathlib.Path(folder, f"a{escapes.replace('/', '')}.pcap"), pathlib.Path(folder, "rows")
        path.write_bytes(octets)
        rows.write_bytes(hostile.ROWS)
        for words, given in (
            (["explain", path], b""), (["explain", path, "--desk", rows], b""),
            (["explain", path, "--script", "-"], b""), (["explain", path, "--of", escapes], b""),
            (["explain", path, "--udp", escapes], b""),
            (["explain", f"{path}x"], b""), (["explain", "-"], HOSTILE), (["watch", "-"], octets),
            (["watch", "-", "--udp", escapes], octets), (["watch", "-"], HOSTILE),
        ):  # fmt: skip
            text = shown_by(*words, given=given).decode()
            strange = {one for one in text if not one.isprintable() and one != "\n"}
            check(text and not strange, f"{words} shows {strange}: {text!r}")
            count += 1
    print(f"in {count} ways of reading a capture of escape sequences, what is shown prints")


def check_hostile():
    """Options of a pcapng that say nothing or too much are named; what strangers and fragments take has a bound."""
    for number, octets in OPTIONS:
        text, found, _ = told(hostile.with_option(number, octets))
        check(found == 0 and "an interface has the" in text, f"of the option {number}, {octets}: it is told\n{text}")
        lines = watch_told(hostile.with_option(number, octets))
        check(any("an interface has the" in line for line in lines), f"of {octets}, `watch` tells {lines}")
    octets = hostile.of_strangers(500)
    lines = watch_told(octets)
    unknown = sum(line.startswith("unknown: ") for line in lines)
    # The call has one, too.
    left = f"left out: {3 * 500 + 1 - UNKNOWN} datagrams of further unknown senders"
    check(unknown == UNKNOWN and any(line.startswith(left) for line in lines), f"{unknown} strangers: {lines[-3:]}")
    labels = {line.split(" ")[0] for line in metrics_of(octets) if "_source_packets_total{" in line}
    check(len(labels) <= UNKNOWN + 4, f"of 500 strangers there are {len(labels)} label sets")
    text, _, _ = told(octets)
    # Two of the call's own are told of, too.
    most = len(OTHERS) * STRANGERS + 2
    check(text.count("sends SSRC") <= most, f"of 500 strangers {text.count('sends SSRC')} are told of")
    check(text.count("\n      1 dropped Unknown") <= MOST_STRANGERS, "each stranger's counts are told")
    packets = Packets(Notes())
    check(not list(packets.of(frames_of(io.BytesIO(hostile.of_fragments(300)), Notes()))), "a fragment is a packet")
    kept = sum(one.octets for one in packets.waiting.values())
    check(kept <= MOST_OCTETS and len(packets.waiting) <= MOST_WAITING, f"{kept:,} octets of fragments are kept")
    check(any("lacks a fragment" in line for line in packets.notes.lines()), "nobody says that fragments are missing")
    print(f"{len(OPTIONS)} bad options of a pcapng are named; strangers and fragments have their bounds")


def check_tries():
    """Where packets differ for a reason that no order explains, the search for one ends, and a note says so."""
    # Each of two orders hides the difference of a tick or of a picture behind the end of what is compared.
    said = said_of(hostile.changed(hostile.VideoLast(6).packets, 4))
    check(said == "told", f"a capture whose last tick and picture differ: {said}")
    text, found, it = told(hostile.changed(Call().packets, 1000))
    check(found > 100 and UNTRIED in text, f"of a capture that differs all the time it isn't told: {UNTRIED}\n{text}")
    spent, most = it.search.spent, AGAIN * len(it.search.events) + LEAST
    check(spent < most + len(it.search.events), f"{spent:,} events are gone through again for orders: {most:,} may be")
    # No order puts a call before the one that it follows: the desk would be lost, and all differences with it.
    packets = Call(says={61: ["mute 202"], 62: ["unmute 202"]}).packets
    at = next(n for n, one in enumerate(packets) if one[0] > BEGIN + 61 * GAP and hostile.is_media_of_bridge(one[1]))
    moment, octets = packets[at]
    packets[at] = moment, octets[:-1] + bytes([octets[-1] ^ 1])
    text, differ, it = told(written(packets))
    check(differ == 1 and not it.run.odd, f"of one packet that differs before two calls it is told\n{text}")
    print(f"for {found} differences that no order explains {spent:,} events are gone through again, and a note says so")


def run(_args):
    packets = Made().packets
    check_forms()
    check_call(packets)
    check_bad(packets)
    check_two(packets)
    check_middle()
    check_rows()
    check_asked()
    check_order()
    check_lost_lines()
    check_lost_answers()
    check_desks()
    check_varied()
    check_planted()
    check_sentences()
    check_pieces()
    check_terminal()
    check_hostile()
    check_tries()
    return 0
