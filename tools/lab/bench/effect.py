"""Measures how soon a mute takes effect in a room of 64 members, and its undo.

From the `ok` of a mute on the operator's socket to the first mix that a listener is sent without the muted member; and
the same for its undo. The status is 0 where the 99th percentile of each is at most 30 ms. Mixes leave every 20 ms.
"""

import select
import tempfile
import time

from checks.bridges import MIX, SOUND, accepted, held, room_lines
from lab.bench.room import Members
from operators.packets import is_rtp_of, payload_of
from operators.serving import settings, udp_socket
from operators.shared import add_program, fail, release_program

NEEDS = "the program, a minute"

MEMBERS = 64
ALLOWED = 0.03
# A sample of PCMU that is loud, and one that is silence.
LOUD, SILENT = 0x90, 0xFF


def options(parser):
    parser.add_argument("--mutes", type=int, default=300, help="how many mutes and undos are measured (%(default)s)")
    parser.add_argument("--lanes", type=int, default=1, help="how many lanes the bridge has (%(default)s)")
    add_program(parser)


def wait_for(listener, ssrc, is_heard):
    """The moment at which a mix came in which the loud member is heard, or isn't."""
    end = time.monotonic() + 5
    while time.monotonic() < end:
        if not select.select([listener], [], [], 0.5)[0]:
            continue
        octets = listener.recv(65536)
        moment = time.monotonic()
        if is_rtp_of(octets, ssrc):
            payload = payload_of(octets)
            if (sum(it in (0xFF, 0x7F) for it in payload) < len(payload) // 2) == is_heard:
                return moment
    fail("the listener waited for 5 s in vain")


def measured(operator, listener, ssrc, line, is_heard):
    """How long after the `ok` of a line the listener first heard, or did not hear, the loud member, in seconds."""
    while select.select([listener], [], [], 0)[0]:
        listener.recv(65536)
    told = operator.ask(line).split()
    moment = time.monotonic()
    if told[0] != "ok":
        fail(f"{line}: {told}")
    return max(0, wait_for(listener, ssrc, is_heard) - moment), int(told[1])


def told(name, times):
    times.sort()
    late = times[int(len(times) * 0.99)]
    print(
        f"{name}: {times[len(times) // 2] * 1e3:.1f} ms (median), {late * 1e3:.1f} ms (99th percentile), "
        f"{times[-1] * 1e3:.1f} ms (all)"
    )
    return late <= ALLOWED


def run(args):
    program = release_program(args.binary)
    sockets = [udp_socket() for _ in range(MEMBERS)]
    with tempfile.TemporaryDirectory() as folder:
        with held(program, settings(folder, lanes=args.lanes)) as (_, udp, operator):
            accepted(operator, *room_lines(sockets))
            # The first one is loud, the others are silent. What comes to all but the listener is let go.
            members = Members(udp, sockets, lambda number: SILENT if number else LOUD)
            time.sleep(1)
            listener, ssrc = sockets[1], MIX + 1
            mutes, undos = [], []
            for number in range(args.mutes):
                took, version = measured(operator, listener, ssrc, f"mute {SOUND}", False)
                mutes.append(took)
                # The moments of calls have all distances to those of ticks.
                time.sleep(0.05 + number % 20 / 1000)
                took, _ = measured(operator, listener, ssrc, f"undo {version}", True)
                undos.append(took)
                time.sleep(0.05 + number % 19 / 1000)
            members.end()
    return 0 if told("mute", mutes) & told("undo", undos) else 1
