"""Has the socket of a bridge refuse datagrams, on a bridge that runs.

A library in C stands before `sendto`. It lists each datagram that is tried, by which thread, and what came of it, and
refuses some.

Frames: in the middle of a frame the socket refuses some packets of a lane, by each of four errors in turn. Where it
isn't ready (EAGAIN, ENOBUFS) for a short time, all of them come; where for longer, packets are given up until it is. By
EPERM and ECONNREFUSED just the refused ones are lacking. The other lane's receiver gets every packet.
Slow: for one lane the socket is ready at each 20th call. All its packets come, and meanwhile those of the other lane.
Stuck: the socket is never ready for a lane. The other lane's receiver gets each of twenty frames before the next one is
sent. Then it is never ready for any lane, and the bridge is stopped.
Stops: the bridge is stopped while a frame is refused in its middle, by each error, and while a lane waits for the
socket.
Ends: a lane is refused memory while the other one waits for the socket. The bridge ends with status 2.

Each time each stream's numbers go on, also over what was not sent. Nothing is tried again but what found the socket not
ready. Each receiver gets what the system took, and nothing else. The bridge ends within 20 s, where twenty frames would
take 40 s if a lane waited for each packet. At its end it says how many packets of which lane it didn't send for which
cause, as the list has them.
"""

import errno
import re
import shutil
import subprocess
import tempfile
import time

from checks.bridges import check, until
from checks.refusing import ANY, PATIENCE, Heap, library
from checks.steps import Call
from checks.unready import MOST_TRIES, UNREADY, Sent, Wire
from operators.serving import settings
from operators.shared import add_program, release_program

NEEDS = "the program, `cc`, half a minute"

# How many packets a frame has, and how many of them are sent before the first that is refused.
FRAME, BEFORE = 12, 4
# Errors, and how many calls are refused by each: a lane tries a datagram 21 times, and then the next ones once.
REFUSALS = [
    (errno.EAGAIN, 5),
    (errno.ENOBUFS, 5),
    (errno.EAGAIN, 24),
    (errno.ENOBUFS, 24),
    (errno.EPERM, 3),
    (errno.ECONNREFUSED, 3),
]
# The frames that a lane can't send. If it waited 20 ms for each packet, it would take 40 s.
FRAMES, LARGE = 20, 100
# Of so many calls on a slow socket one finds it ready: each packet takes some 20 ms.
SLOW = 20
# The members whose slots are in the lanes 0 and 1.
RECEIVERS = {0: 12, 1: 11}
UNSENT = re.compile(r"confbridge: lane ([0-9]+): ([0-9]+) packets not sent: (.+)")


def options(parser):
    parser.add_argument("--only", choices=PARTS, help=f"{', '.join(PARTS)}: this one alone")
    add_program(parser)


class Bridges:
    """How bridges are started: with two lanes, a receiver in each, and both libraries before their own calls."""

    def __init__(self, args, folder):
        self.program, self.folder, self.path = release_program(args.binary), folder, settings(
            folder, lanes=len(RECEIVERS)
        )
        self.libraries = [library(folder, "unready.c"), library(folder, "refusing.c")]

    def call(self):
        """A call whose receivers are shown the video."""
        wire, heap = Wire(self.folder), Heap(self.folder, "")
        call = Shown(self, wire, heap)
        try:
            call.begin(len(RECEIVERS))
            call.show()
        except BaseException:
            call.close()
            raise
        return call


class Shown(Call):
    """A call with what its socket and its memory do."""

    def __init__(self, bridges, wire, heap):
        self.wire, self.heap = wire, heap
        self.environment = heap.environment | wire.environment | {"LD_PRELOAD": ":".join(bridges.libraries)}
        super().__init__(bridges.program, bridges.path, self)

    def lane(self, at):
        return self.threads[f"lane {at}"]

    def send_frame(self, count):
        for octets in self.frame(*(b"%d of %d" % (at, count) for at in range(count))):
            self.send(10, octets)

    def sent(self, at, what):
        """What a lane sent so far."""
        sent = Sent(self.wire.tries(self.lane(at)), f"{what}, lane {at}")
        sent.check_numbers(f"{what}, lane {at}")
        return sent

    def has_come(self, at, packets, what):
        """Waits until so many packets have come to a lane's receiver since the desk was made."""
        member = RECEIVERS[at]

        def is_there():
            self.take()
            return len(self.got[member]) >= packets

        until(is_there, f"{what}: lane {at} sends {len(self.got[member])} of {packets} packets")

    def told(self, status):
        """How many packets of each lane were not sent for each cause, as the bridge says when it ends with a status."""
        try:
            ended = self.bridge.wait(PATIENCE)
        except subprocess.TimeoutExpired:
            ended = "none"
        said = self.bridge.stderr.read() if ended != "none" else ""
        check(
            ended == status,
            f"the bridge ends with status {ended} in {PATIENCE} s, not with {status}, and says {said!r}",
        )
        return {(int(lane), cause): int(count) for lane, count, cause in UNSENT.findall(said)}

    def stop(self, what):
        """Stops the bridge, and compares what came and what it says with its tries. How many packets were not sent."""
        self.operator.tell("stop")
        told, wanted = self.told(0), {}
        self.take()
        for at, member in RECEIVERS.items():
            sent = self.sent(at, what)
            wanted |= {(at, cause): count for cause, count in sent.unsent.items()}
            port = self.members[member].getsockname()[1]
            got = [octets[:12] for octets in self.got[member]]
            check(got == sent.got_at(port), f"{what}: member {member} gets other packets than the system took")
        check(told == wanted, f"{what}: the bridge says that it didn't send {told}, and not {wanted}")
        return sum(told.values())


def lacking(error, count):
    """How many packets aren't sent where a lane's calls are refused."""
    if error not in UNREADY:
        return count
    return max(0, count - MOST_TRIES + 1)


def check_frames(bridges):
    """Refuses packets in the middle of frames."""
    call, wanted = bridges.call(), 0
    try:
        come = {at: len(call.got[member]) for at, member in RECEIVERS.items()}
        for at in RECEIVERS:
            for error, count in REFUSALS:
                what = f"a frame, {count} calls of lane {at} refused by {errno.errorcode[error]}"
                call.wire.refuse(call.lane(at), error, BEFORE, count)
                call.send_frame(FRAME)
                missing = lacking(error, count)
                wanted += missing
                for lane in RECEIVERS:
                    come[lane] += FRAME - (missing if lane == at else 0)
                    call.has_come(lane, come[lane], what)
                check(call.wire.has_ended(), f"{what}: too few calls are made")
                print(f"{what}: {missing} of {FRAME} packets are lacking", flush=True)
        call.wire.release()
        unsent = call.stop("frames")
        check(unsent == wanted, f"frames: {unsent} packets are not sent, and not {wanted}")
    finally:
        call.close()


def check_slow(bridges):
    """Has the socket ready now and then for a lane."""
    call, what = bridges.call(), f"a socket that is ready at each {SLOW}th call"
    try:
        come = {at: len(call.got[member]) + LARGE for at, member in RECEIVERS.items()}
        call.wire.refuse(call.lane(0), errno.EAGAIN, each=SLOW)
        call.send_frame(LARGE)
        call.has_come(1, come[1], what)
        late = come[0] - len(call.got[RECEIVERS[0]])
        call.has_come(0, come[0], what)
        check(not call.stop(what), f"{what}: packets are not sent")
        print(f"{what}: all packets came, {late} of them after the other lane had sent its own", flush=True)
    finally:
        call.close()


def check_stuck(bridges):
    """Has the socket never ready for a lane, and then for none."""
    call, what = bridges.call(), "a socket that is never ready"
    try:
        come = len(call.got[RECEIVERS[1]])
        call.wire.refuse(call.lane(0), errno.EAGAIN)
        for _ in range(FRAMES):
            call.send_frame(LARGE)
            come += LARGE
            call.has_come(1, come, what)
        # Behind a stop a lane begins no further item. The first datagram is tried so often, the others once.
        tries = FRAMES * LARGE + MOST_TRIES - 1
        until(
            lambda: sum(it.error != 0 for it in call.wire.tries(call.lane(0))) >= tries,
            f"{what}: a lane does not try all packets",
        )
        call.wire.refuse(ANY, errno.EAGAIN)
        call.send_frame(LARGE)
        unsent = call.stop(what)
        check(unsent >= FRAMES * LARGE, f"{what}: the bridge gives up {unsent} packets, and not {FRAMES * LARGE}")
        print(
            f"{what}: {unsent} packets are given up; the other lane sent {come} meanwhile; the bridge stopped",
            flush=True,
        )
    finally:
        call.close()


def check_stops(bridges):
    """Stops bridges in the middle of a frame that is refused, or for which a lane waits."""
    for error, before, count, each in [
        *((error, BEFORE, count, 0) for error, count in REFUSALS), (errno.EAGAIN, 0, SLOW * FRAME, SLOW)
    ]:
        call, what = bridges.call(), f"a stop while {count} calls of a lane are refused by {errno.errorcode[error]}"
        try:
            call.wire.refuse(call.lane(0), error, before, count, each)
            call.send_frame(FRAME)
            until(call.wire.has_begun, f"{what}: no call is refused")
            print(f"{what}: {call.stop(what)} packets are not sent", flush=True)
        finally:
            call.close()


def try_end(bridges, nth):
    """Refuses a request of lane 1 for memory, while lane 0 waits for the socket. Whether the bridge ended by that."""
    call, what = bridges.call(), f"request {nth} of lane 1 for a frame, while lane 0 waits"
    try:
        come = len(call.got[RECEIVERS[1]]) + LARGE
        call.wire.refuse(call.lane(0), errno.EAGAIN, each=SLOW)
        call.heap.refuse(call.lane(1), nth)
        call.send_frame(LARGE)
        late = time.monotonic() + 1

        def is_over():
            call.take()
            # Where the packets come all the same, the bridge may be about to end.
            has_come = len(call.got[RECEIVERS[1]]) >= come
            return call.bridge.poll() is not None or has_come and time.monotonic() > late

        until(is_over, f"{what}: the bridge neither sends the frame nor ends")
        check(call.heap.release()[1], f"{what}: it makes fewer, and none ended the bridge")
        if call.bridge.poll() is None:
            return False
        call.told(2)
        sent = call.sent(0, what)
        print(f"{what}: the bridge ended with status 2, and lane 0 had sent {len(sent.taken)} packets", flush=True)
        return True
    finally:
        call.close()


def check_ends(bridges):
    """Refuses requests of a lane until one ends the bridge."""
    nth = 1
    while not try_end(bridges, nth):
        nth += 1


PARTS = {"frames": check_frames, "slow": check_slow, "stuck": check_stuck, "stops": check_stops, "ends": check_ends}


def run(args):
    if not shutil.which("cc"):
        print("check wire: not tried, since there is no command `cc`")
        return 0
    with tempfile.TemporaryDirectory() as folder:
        bridges = Bridges(args, folder)
        for name in [args.only] if args.only else PARTS:
            PARTS[name](bridges)
    print("what a socket refuses is counted, nothing is sent twice, and bridges end in time")
    return 0
