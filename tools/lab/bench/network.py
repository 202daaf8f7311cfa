"""Measures calls over a path that loses, delays and reorders packets: how long the picture stands still, and sound is
missing.

Each call has a sender, a relay in the place of the path, the bridge, and a receiver that measures. The senders are
GStreamer, ffmpeg and one of the tool's own. GStreamer answers NACKs and PLIs, and ffmpeg neither: it sends a key frame
every 0.48 s. The own one answers PLIs, and NACKs unless it is called silent. With the same seed the same packets are
lost. A second line has the same call through Janus, where that is installed: its AudioBridge and its VideoRoom, without
encryption.

The picture stands still while a frame is shown for over 100 ms. A frame is shown if all its packets came, and those of
all frames back to a key frame. It is shown a little behind the fastest frame, as --buffer says, or later where it comes
later. Sound is missing in each tick of 20 ms without the sender's tone. Control up is what the bridge sends to the
sender, beside the octets that came. The path's picture is what a receiver would see where the path ends, in the place
of the bridge: of a sender that answers nothing, nobody can show more. After is how long the sender takes to send again
what it is asked for; with --at-once the relay takes that time off the way of what is sent again, as if the sender had
answered at once.

What isn't installed is left out, which is said. The status is 1 where the bridge misses a goal. On a busy machine the
figures are too high, and a line that this may have disturbed says `busy`: run it under `nice -n -10`, with fewer calls
--beside one another. On Debian the packages are gstreamer1.0-tools, gstreamer1.0-plugins-base, -good and -bad, ffmpeg,
and janus.
"""

import multiprocessing
import tempfile

from lab.network import janus, programs
from lab.network.call import OWN, hold
from lab.network.ending import ends_with_parent
from lab.network.goals import GOALS, rows, worse_than
from operators.shared import add_program, fail, release_program

NEEDS = "the program, some four minutes; GStreamer, ffmpeg and janus for their rows"

# A machine on which the relay or a mix is late by more seconds has disturbed the call.
LATE = 0.04
SHARE = f"{'share':>9}{'longest':>11}"
HEAD = (
    f"{'':51}{'picture still':>20}{'of the path':>20}{'sound missing':>20}{'control':>12}{'sent':>9}\n"
    f"{'sender':12}{'path':39}{3 * SHARE}{'up':>12}{'again':>9}{'after':>8}"
)


def options(parser):
    add_program(parser)
    parser.add_argument("--only", default="", metavar="WORD", help="only the rows with this word in their names")
    parser.add_argument("--no-janus", action="store_true", help="leave Janus out")
    parser.add_argument("--list", action="store_true", help="only print the names of the rows")
    parser.add_argument("--seconds", type=float, default=20, help="how long a call is measured (%(default)s)")
    parser.add_argument(
        "--beside", type=int, default=8, metavar="CALLS", help="how many calls are held at a time (%(default)s)"
    )
    parser.add_argument("--seed", type=int, default=1, help="which packets are lost (%(default)s)")
    what = "how long the receiver waits before it shows a frame (%(default)s)"
    parser.add_argument("--buffer", type=float, default=0.1, metavar="SECONDS", help=what)
    parser.add_argument("--at-once", action="store_true", help="as if senders answered NACKs at once")
    parser.add_argument("--lanes", type=int, default=1, help="how many lanes the bridge has (%(default)s)")


def wanted(word):
    """The rows that are to be measured. It says which are left out."""
    found = [row for row in rows() if word in str(row)]
    absent = sorted({row.sender for row in found if row.sender not in OWN and not programs.is_there(row.sender)})
    for name in absent:
        print(f"{name} isn't installed: its rows are left out")
    return [row for row in found if row.sender not in absent]


def has_janus(args):
    """Whether Janus is to be measured. It says where it isn't installed."""
    if not args.no_janus and not janus.is_there():
        print("Janus isn't installed: it is left out")
    return not args.no_janus and janus.is_there()


def text_of(name, it):
    """A line of the table, of what was measured."""
    if it is None:
        return f"{name:50}  nothing is seen or heard"
    late = max(it.late, it.stood)
    busy = f"  busy: {1e3 * late:.0f} ms late" if late > LATE else ""
    pairs = [(it.still, it.longest), (it.path_still, it.path_longest), (it.missing, it.silence)]
    shares = "".join(f"{100 * share:7.1f} %{longest:9.2f} s" for share, longest in pairs)
    return f"{name:51}{shares}{100 * it.control:10.3f} %{100 * it.again:7.1f} %{1e3 * it.after:5.0f} ms{busy}"


def held(calls, middles, args):
    """Each row with what was measured through each of the middles, in their order, as soon as it is known."""
    with tempfile.TemporaryDirectory() as folder, multiprocessing.get_context("fork").Pool(
        args.beside, ends_with_parent
    ) as pool:
        measured = pool.imap(hold, [(row, program, args, folder) for row in calls for program in middles])
        for row in calls:
            yield row, *(checked(next(measured)) for _ in middles)


def checked(measured):
    """What was measured. Ends where it is a text."""
    if isinstance(measured, str):
        fail(measured)
    return measured


def judged(found):
    """Prints whether each goal is kept, and the rows that miss it. Whether all are."""
    is_good = True
    print()
    for goal in GOALS:
        asked = [(row, measured) for row, measured in found if goal.speaks_of(row)]
        missed = [row for row, measured in asked if measured is None or not goal.is_kept(measured)]
        is_good = is_good and not missed
        if asked:
            print(f"{'MISSED' if missed else 'kept'}: {goal.text}")
        for row in missed:
            print(f"  {row}")
    return is_good


def compared(found):
    """Prints in which rows something is worse than through Janus, and what."""
    worse = [(row, *worse_than(*both)) for row, *both in found if worse_than(*both)]
    print(f"worse than through Janus: {len(worse)} of {len(found)} rows")
    for row, *what in worse:
        print(f"  {row}: {', '.join(what)}")


def run(args):
    if args.list:
        print(*rows(), sep="\n")
        return 0
    program, calls, found = release_program(args.binary), wanted(args.only), []
    if not calls:
        fail(f"no row is left that has `{args.only}` in its name")
    # No program stands for Janus.
    middles = [program, None] if has_janus(args) else [program]
    print(HEAD)
    for row, bridge, *others in held(calls, middles, args):
        print(text_of(f"{row.sender:12}{row.path}", bridge), flush=True)
        for other in others:
            print(text_of("  by Janus", other), flush=True)
        found.append((row, bridge, *others))
    is_good = judged([(row, bridge) for row, bridge, *_ in found])
    if len(middles) > 1:
        compared(found)
    return 0 if is_good else 1
