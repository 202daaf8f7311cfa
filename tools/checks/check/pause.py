"""Lets a bridge stand still for a while, as a machine that is paused does, and looks at what members hear afterwards.

The bridge is stopped and continued by signals, for each of some times, while a member goes on sending sound. Two
seconds after it goes on, another member has to hear all sound again, no later than before the pause. Behind pauses of
one to three seconds it is heard later, so that the status is 1 where these are tried.
"""

import os
import signal
import tempfile

from checks.bridges import held
from checks.filling import fill
from checks.voice import Voice, heard_worse, members
from operators.serving import settings
from operators.shared import add_program, release_program

NEEDS = "the program, a minute"

# How many seconds the sound has to recover, and how many seconds are looked at.
RECOVERY, LOOKED_AT = 2, 2


def options(parser):
    parser.add_argument(
        "--pauses", default="0.3,0.9,1.2,1.5,3,10", metavar="SECONDS", help="how long it stands still (%(default)s)"
    )
    parser.add_argument("--lanes", type=int, default=1, help="how many lanes the bridge has (%(default)s)")
    add_program(parser)


def paused(program, seconds, lanes):
    """What is wrong with what is heard behind a pause of a bridge, and how late it was heard before and is heard
    now."""
    with tempfile.TemporaryDirectory() as folder:
        with held(program, settings(folder, lanes=lanes)) as (bridge, udp, operator):
            voice = Voice(udp)
            fill(operator, members([voice.speaker, voice.listener]))
            voice.talk(1)
            before = voice.delays(voice.talk(LOOKED_AT))
            os.kill(bridge.pid, signal.SIGSTOP)
            voice.talk(seconds)
            os.kill(bridge.pid, signal.SIGCONT)
            voice.talk(RECOVERY)
            behind = voice.delays(voice.talk(LOOKED_AT))
    return heard_worse(before, behind, LOOKED_AT), before, behind


def run(args):
    program, is_well = release_program(args.binary), True
    for seconds in args.pauses.split(","):
        worse, before, behind = paused(program, float(seconds), args.lanes)
        late = " and ".join(f"{some[len(some) // 2] * 1e3:.0f} ms" if some else "none" for some in (before, behind))
        print(f"a pause of {seconds} s: {worse or 'sound is heard as before'}; median delays {late}", flush=True)
        is_well = is_well and not worse
    return 0 if is_well else 1
