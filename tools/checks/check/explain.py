"""Explains a call that it holds over sockets: no media packet on the wire may differ from the models'.

Two members send sound and one of them video, with packets lost, overtaken and doubled. The second one asks again for
packets and for pictures. Wrong senders send beside them. An operator mutes, gives groups, removes a slot and undoes.
The call is captured by a packet socket, and explained: each media packet is the model's, octet by octet, the program
answers the script as the models do, and each wrong sender is named. From its middle on the capture is explained by a
`show`.

Then it holds calls whose members have planted faults, such as PCMA, a slow clock or a mute, on 1, 4 and 16 lanes. Each
capture is made worse: begun at ten random places, with 2 percent of its packets lost, out of order by 5 ms, cut short
by `-s 96`, with a clock that is set by an hour, and beside another bridge. Each planted fault that a capture shows has
to be told, and nothing else may be. What a person finds at the desk, by DEBUGGING's table, has to be in `stats`, `show`
and `calls`. On a machine that is busy the check knows, by its own clock and by what the system counts for the bridge's
threads, what may be so though nobody planted it. Before all that it does the same with calls of the model's, which no
machine holds. Where this process may not capture, the rest is skipped.

While all lanes stand still, and packets come until their rings are full, `stats` is answered within a second.
"""

import concurrent.futures
import io
import os
import pathlib
import random
import socket
import sys
import tempfile
import time

from checks.bridges import check
from checks.camera import asked_numbers
from checks.captures.recorder import Recorder
from checks.explain.holding import Held
from checks.explain.judging import ALL, LATEST, STOOD, differences, made
from checks.explain.planted import FAULTS, SAID
from checks.explain.stalls import Stalls
from checks.explain.stopped import check_stopped
from operators.captures.live import may_capture
from operators.captures.notes import BadCapture
from operators.demo import picture, tone
from operators.explain import compared
from operators.explain.explaining import explained
from operators.explain.telling import telling
from operators.packets import nack, number, pli, rtp, seq_of
from operators.serving import Operator, come_to, port_of, settings, started, udp_socket
from operators.shared import add_program, fail, release_program

NEEDS = "the program, leave to capture on `lo`"

EACH = 0.02
# How long a bridge may take until it has ended, in seconds.
PATIENCE = 600
# What the operator says, by the second at which it does. A `V` is the number of the last call.
CALLS = {
    1.5: "mute 202", 2: "undo V", 2.5: "group set-gain 10 202 128 / mute 101", 3: "undo V", 3.5: "remove-slot 501",
    3.7: "undo V",
    4: "show", 4.4: "unsubscribe 501", 4.6: "undo V", 4.8: "redo V", 5: "subscribe 501 101", 5.5: "remove-member 11",
    5.7: "undo V",
}  # fmt: skip
# The capture is cut at the `show`, and explained from there on.
MIDDLE = 4


def options(parser):
    parser.add_argument("--seconds", type=float, default=7, help="how long the call lasts (%(default)s)")
    parser.add_argument(
        "--lanes", type=int, nargs="+", default=[1, 4, 16], help="how many lanes the bridges have (%(default)s)"
    )
    parser.add_argument("--only", help="calls with this planted fault alone")
    parser.add_argument("--at-once", type=int, default=3, help="how many faults a call has (%(default)s)")
    parser.add_argument("--cuts", type=int, default=10, help="at how many places a capture begins (%(default)s)")
    parser.add_argument(
        "--tries", type=int, default=3, help="how many calls are tried where the machine is busy (%(default)s)"
    )
    parser.add_argument("--seed", type=int, default=1, help="what is lost and overtaken (%(default)s)")
    parser.add_argument("--keep", metavar="FILE", help="leave the last capture there, or one that is told otherwise")
    add_program(parser)


class Member:
    """A member, whose packets take a bad path."""

    def __init__(self, to, seed):
        self.socket, self.to, self.random, self.later = udp_socket(), to, random.Random(seed), []
        self.socket.setblocking(False)
        self.got = []

    def address(self):
        return f"127.0.0.1:{port_of(self.socket)}"

    def send(self, octets, now):
        """Sends a packet: 3 % are lost, 3 % come later, 1 % twice."""
        fate = self.random.random()
        if fate < 0.03:
            return
        if fate < 0.06:
            self.later.append((now + self.random.choice([0.005, 0.025, 0.05]), octets))
            return
        self.socket.sendto(octets, self.to)
        if fate > 0.99:
            self.socket.sendto(octets, self.to)

    def turn(self, now):
        """Sends what was to come later, and reads what has come."""
        for due in [one for one in self.later if one[0] <= now]:
            self.later.remove(due)
            self.socket.sendto(due[1], self.to)
        new = list(come_to(self.socket))
        self.got += new
        return new


class Call:
    """A call of two members and a stranger."""

    def __init__(self, port, operator, seed):
        self.one, self.other, self.stranger = (Member(("127.0.0.1", port), seed + n) for n in range(3))
        self.operator, self.version, self.tick, self.sent = operator, 0, 0, {}
        # By how many seconds packets left too late, and the bridge stood still.
        self.late = self.stood = 0

    def setup(self):
        yield from ("add-room 1", f"add-member 10 1 {self.one.address()} pcmu 9001 0 0")
        yield from (f"add-member 11 1 {self.other.address()} l16 9002 65530 4294967000", "add-source 201 10 audio")
        yield from (
            "add-source 202 11 audio", "add-source 101 10 video", "add-slot 501 11 0 65500 1000", "subscribe 501 101"
        )

    def say(self, line):
        """Says a line, and counts the call."""
        line = line.replace("V", str(self.version))
        said = self.operator.shown()[-1] if line == "show" else self.operator.ask(line)
        check(said.split(" ")[0] in ("ok", "end"), f"`{line}` is answered `{said}`")
        self.version = int(said.split(" ")[1])

    def turn(self, now):
        """What is sent in 20 ms."""
        tick = self.tick
        self.one.send(rtp(tick, tick * 160, 201, tone(440, tick), pt=0), now)
        self.other.send(rtp(tick, tick * 160, 202, tone(1000, tick), pt=0), now)
        for part, payload in enumerate(picture(tick)):
            seq = tick * 2 + part
            self.sent[seq % 65536] = rtp(seq, tick * 1800, 101, payload, marker=part)
            self.one.send(self.sent[seq % 65536], now)
        if tick % 10 == 0:
            self.stranger.send(rtp(tick // 10, tick * 160, 77, bytes(160), pt=0), now)
            self.one.socket.sendto(rtp(tick // 10, tick * 160, 201, bytes(160), pt=8), self.one.to)
        if tick % 25 == 24 and self.other.got:
            last = [octets for octets in self.other.got if number(octets[8:12]) == 501]
            self.other.send(nack(501, seq_of(last[-1])) if tick % 50 == 24 and last else pli(501), now)
        self.tick += 1

    def hold(self, seconds):
        """Holds the call. Of packets that the bridge asks for, every second one is sent again."""
        begun, calls = time.monotonic(), dict(CALLS)
        while time.monotonic() - begun < seconds:
            now = time.monotonic()
            if calls and now - begun >= min(calls):
                self.say(calls.pop(min(calls)))
            if now - begun >= self.tick * EACH:
                self.late = max(self.late, now - begun - self.tick * EACH)
                self.turn(now)
            self.other.turn(now)
            self.stranger.turn(now)
            for octets in self.one.turn(now):
                numbers = asked_numbers(octets)[0] if 192 <= octets[1] <= 223 else []
                for seq in (seq for seq in numbers if seq % 2 and seq in self.sent):
                    self.one.send(self.sent[seq], now)
            time.sleep(0.002)


def captured(program, args, lanes, folder):
    """The capture of a call, and the call."""
    bridge, udp, tcp = started(program, settings(folder, lanes=lanes))
    recorder = Recorder([udp, tcp], pathlib.Path(args.keep or f"{folder}/call.pcap").resolve())
    recorder.begin()
    with socket.create_connection(("127.0.0.1", tcp), timeout=60) as connection:
        call = Call(udp, Operator(connection), args.seed)
        for line in call.setup():
            call.say(line)
        with Stalls(bridge.pid) as stalls:
            call.hold(args.seconds)
            time.sleep(0.2)
        call.stood = stalls.longest
        call.operator.tell("stop")
        bridge.wait(PATIENCE)
    check(recorder.end(), "the capture lost packets")
    return recorder.path.read_bytes(), call


def told(octets):
    it = explained(io.BytesIO(octets))
    return it, "\n".join(telling(it, "the call", None, ALL))


def check_whole(octets, call, program):
    """The whole call has no difference, and names the wrong senders. Returns what is explained, or None where media
    differ, and how long the slowest answer took, in seconds: a call waits for a lane that is late."""
    it, text = told(octets)
    slowest = max(one.until - one.moment for one in it.calls) / 1e9
    if it.run.cursor.found or not it.run.cursor.equal:
        found = len(it.run.cursor.found)
        print(
            f"{found} media packets differ, in a call whose slowest answer took {1000 * slowest:.0f} ms\n{text}",
            file=sys.stderr,
        )
        return None, slowest
    for sentence in [
        f"{call.stranger.address()} sends SSRC 77 as type 0 (PCMU): ",
        f"{call.one.address()} sends SSRC 201 as type 8 (PCMA): ",
        "dropped BadPayload",
        "dropped Unknown. No member has this address",
        "202 was muted since call 9 of operator 0",
    ]:
        check(sentence in text, f"it isn't told: {sentence}\n{text}")
    check(compared(it.run, program), "the program answers the script in another way")
    print(f"{it.run.cursor.equal} of {it.run.cursor.equal} media packets are the models', octet by octet")
    return it, slowest


def check_parts(octets, it):
    """A capture that is cut, and one that begins in mid-call."""
    _, text = told(octets[:-10])
    check("the capture ends in the middle of a packet" in text, f"a capture that is cut isn't named\n{text}")
    begin, at = it.wire.begin + int(MIDDLE * 0.95e9), 24
    while int.from_bytes(octets[at : at + 4], "little") * 10**9 + int.from_bytes(
        octets[at + 4 : at + 8], "little"
    ) < begin:
        at += 16 + int.from_bytes(octets[at + 8 : at + 12], "little")
    middle, text = told(octets[:24] + octets[at:])
    equal, total = middle.run.cursor.equal, sum(map(len, middle.streams.firsts.values()))
    check(
        "begins in mid-call" in text and equal > 0.8 * total,
        f"in mid-call {equal} of {total} media packets are the models'\n{text}",
    )
    print(f"from its middle on {equal} of {total} media packets are the models'")


def run(args):
    try:
        with concurrent.futures.ProcessPoolExecutor(initializer=os.nice, initargs=(NICE,)) as workers:
            check_made(args, workers)
            if not may_capture():
                print("skipped: this process may not capture on lo (it takes root or CAP_NET_RAW)")
                return 0
            program = release_program(args.binary)
            if not args.only:
                check_stopped(program, max(args.lanes))
            for lanes in args.lanes:
                if not args.only:
                    check_one(program, args, lanes)
                check_planted(program, args, lanes, workers)
    except BadCapture as why:
        fail(f"the capture can't be read: {why}")
    return 0


def check_one(program, args, lanes):
    """A call whose media packets are the models'."""
    for _ in range(args.tries):
        with tempfile.TemporaryDirectory() as folder:
            octets, call = captured(program, args, lanes, folder)
        it, slowest = check_whole(octets, call, program)
        is_busy = max(call.late, slowest) > LATEST or call.stood > STOOD
        if it and not is_busy:
            check_parts(octets, it)
            return
        check(it or is_busy, "media packets differ from the models'")
    what = "from its middle on" if it else "a call"
    why = (
        f"packets left {1000 * call.late:.0f} ms late, the bridge stood still for {1000 * call.stood:.0f} ms, and the "
        f"slowest answer took {1000 * slowest:.0f} ms"
    )
    print(f"{what} isn't judged on {lanes} lanes, as a lane or the machine was late: {why}", flush=True)


# Planted faults

# What explains captures has less of the processors than the calls that are held meanwhile.
NICE = 15


def judge(args, workers, records):
    """Explains each call's capture, and its worse ones, while further calls are held. How many there were of these, and
    of how many calls it wasn't judged what a busy machine may do."""
    due, count, busy = [], 0, 0
    for where, record in records:
        seed = f"{args.seed} {where} {record.names()}"
        due.append((where, record, workers.submit(differences, record, seed, args.cuts)))
    for where, record, job in due:
        tried, found = job.result()
        count, busy = count + tried, busy + bool(record.unsure())
        for how, octets, differ in found:
            if args.keep:
                pathlib.Path(args.keep).write_bytes(octets)
            lines = "\n".join(f"  {line}" for line in differ)
            fail(f"{where} a call with {record.names()}, {how}:\n{lines}")
    return count, f"; of {busy} of {len(due)} calls it isn't judged what a busy machine may do" if busy else ""


def names_of(args):
    """The faults that calls have."""
    return [name for name in FAULTS | SAID if args.only in (None, name)]


def check_made(args, workers):
    """Calls with planted faults that nobody held, whose captures are made worse."""
    names = names_of(args)
    count, _ = judge(args, workers, (("by the model,", made(name)) for name in names))
    text = f"{len(names)} planted faults are told in calls of the model's, also in {count} worse captures"
    print(f"{text}, and nothing else", flush=True)


def check_planted(program, args, lanes, workers):
    """Calls with planted faults that are held, whose captures are made worse."""
    names = [name for name in names_of(args) if name != "a full receive buffer"]
    groups = [names[at : at + args.at_once] for at in range(0, len(names), args.at_once)]
    where = f"on {lanes} lanes"
    records = ((where, held_in_time(program, args, lanes, group)) for group in groups)
    count, left = judge(args, workers, records)
    text = f"{where} {len(names)} planted faults are told, also in {count} worse captures, and nothing else"
    print(f"{text}{left}", flush=True)


def held_in_time(program, args, lanes, names):
    """A call with some faults, in which the machine wasn't busy, or one that is whole."""
    whole = []
    for _ in range(args.tries):
        with tempfile.TemporaryDirectory() as folder:
            held = Held(program, lanes, names, folder)
        check(not held.lacking, "\n".join(held.lacking))
        if held.is_whole and not held.record.unsure():
            return held.record
        whole += [held.record] if held.is_whole else []
    check(whole, "the capture lost packets each time")
    return min(whole, key=lambda record: (len(record.unsure()), record.late))
