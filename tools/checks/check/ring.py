"""Makes the ring of a lane full, and looks at what a member gets meanwhile and afterwards.

A member sends sound, and video that 32 members see 16 times each. For some seconds it sends more frames than the bridge
can send on, so that the rings fill and items are dropped. Another member sees the video once and hears the sound. At
its end the bridge has to say of a lane that items were dropped. All that this member was sent has to be in order,
without a gap in a stream's numbers. Behind the load it has to see each frame and hear all sound again, no later than
before the load, by when it was sent and by its timestamps. Last, the bridge is stopped under the load, and the tool
prints how long it takes to end.
"""

import socket
import tempfile
import time

from checks.filling import fill
from checks.voice import MIX, Voice, heard_worse, members, sized
from operators.packets import has_no_gap, number, rtp
from operators.serving import Operator, said_at_the_end, settings, started
from operators.shared import add_program, fail, release_program

NEEDS = "the program, twenty seconds"

WATCHERS, SLOTS = 32, 16
PICTURE, SHOWN = 2000, 300000
# How many frames a second there are without the load.
CALM = 50
# How many seconds the rings have to empty, and how many seconds are looked at before and behind the load.
EMPTYING, LOOKED_AT = 15, 2


def options(parser):
    parser.add_argument("--rate", type=int, default=4000, help="how many frames a second the load has (%(default)s)")
    parser.add_argument("--seconds", type=float, default=4, help="how long it lasts (%(default)s)")
    parser.add_argument("--lanes", type=int, default=1, help="how many lanes the bridge has (%(default)s)")
    add_program(parser)


class Room(Voice):
    """A voice with video, and those who watch it."""

    def __init__(self, port):
        super().__init__(port)
        # Nobody reads what comes to these.
        self.watchers = [sized(1) for _ in range(WATCHERS)]
        self.got[SHOWN] = []
        self.frames, self.rate, self.since = 0, 0, (0, 0)

    def lines(self):
        """The commands that make the room."""
        yield from members([self.speaker, self.listener, *self.watchers])
        yield f"add-source {PICTURE} 0 video"
        slots = [(SHOWN, 1, 0)]
        slots += [(SHOWN + 1 + at * SLOTS + index, 2 + at, index) for at in range(WATCHERS) for index in range(SLOTS)]
        for out, member, index in slots:
            yield f"add-slot {out} {member} {index} 0 0"
            yield f"subscribe {out} {PICTURE}"

    def step(self):
        """Sends the frames and the sound that are due, and reads what has come."""
        moment, frame = self.since
        while self.frames < frame + self.rate * (time.monotonic() - moment):
            self.speaker.sendto(rtp(self.frames, 90 * self.frames, PICTURE, b"picture", marker=1), self.to)
            self.frames += 1
        super().step()

    def go_on(self, seconds, rate=CALM, until=lambda: False):
        """Goes on with so many frames a second."""
        self.rate, self.since = rate, (time.monotonic(), self.frames)
        return self.talk(seconds, until)


def held(room, args):
    """Sends before, under and behind the load. The times before and behind it that are looked at, and how long the
    rings took to empty."""
    room.go_on(1)
    before = room.go_on(LOOKED_AT)
    _, end = room.go_on(args.seconds, args.rate)
    # A frame from behind the load is told by its timestamp.
    first = room.frames
    is_over = lambda: any(number(octets[4:8]) >= 90 * first for _, octets in room.got[SHOWN][-1:])
    _, emptied = room.go_on(EMPTYING, until=is_over)
    room.go_on(1)
    return before, room.go_on(LOOKED_AT), emptied - end


def fallen_behind(before, behind):
    """How many seconds sound comes later than before, by its timestamps: 20 ms for each tick that its lane has
    missed."""
    return behind[len(behind) // 2] - before[len(before) // 2] if before and behind else 0


def faults_of(room, before, behind, dropped):
    """What is wrong."""
    for stream, name in (SHOWN, "video"), (MIX, "sound"):
        if not has_no_gap([octets for _, octets in room.got[stream]]):
            yield f"the {name} has a gap in its numbers"
    if room.count(behind, SHOWN) < 0.9 * CALM * LOOKED_AT:
        yield f"{room.count(behind, SHOWN)} frames come in {LOOKED_AT} s behind the load"
    worse = heard_worse(room.delays(before), room.delays(behind), LOOKED_AT)
    if worse:
        yield f"behind the load {worse}"
    missed = fallen_behind(room.lateness(before), room.lateness(behind))
    if missed > 0.01:
        yield f"by its timestamps sound comes {missed * 1e3:.0f} ms later than before the load"
    if not any(dropped.values()):
        yield "no ring was full: take a higher --rate"


def run(args):
    program = release_program(args.binary)
    with tempfile.TemporaryDirectory() as folder:
        bridge, udp, tcp = started(program, settings(folder, lanes=args.lanes))
        room = Room(udp)
        with socket.create_connection(("127.0.0.1", tcp), timeout=20) as connection:
            operator = Operator(connection)
            fill(operator, room.lines())
            before, behind, took = held(room, args)
            frames, seen = room.frames, len(room.got[SHOWN])
            room.go_on(1, args.rate)
            operator.tell("stop")
            begin, end = room.go_on(60, args.rate, lambda: bridge.poll() is not None)
        if bridge.wait(1):
            fail(f"the bridge ended with status {bridge.returncode}")
        _, dropped = said_at_the_end(bridge.stderr.read())
    print(f"{frames} frames sent, {seen} seen; items dropped, by lane: {dropped}; the rings took {took:.1f} s to empty")
    print(f"stopped under the load it ends after {(end - begin) * 1e3:.0f} ms")
    faults = list(faults_of(room, before, behind, dropped))
    print("".join(f"{fault}\n" for fault in faults), end="")
    return 1 if faults else 0
