"""Holds a call of three browsers and two phones over examples/gateway, and tries what goes wrong.

It starts a bridge, rtpengine, Kamailio and the agent. Then come its steps, in parts:

    refusals   what can't be had: it is told in words, and leaves nothing behind
    strangers  what strangers do by SIP and HTTP, and gain nothing by
    music      a room for music, which browsers and phones can't join
    again      an agent, rtpengine and the bridge are killed in mid-call: calls come again by themselves
    names      operators see which calls are the gateway's, and who its members are
    links      invitations, by which pages join: who may open a room, and which links are refused
    stage      eight pages at a model of the desk: their pictures follow who speaks, and a page mutes itself
    sip        SIPp: a BYE for each call that is over, exchanges, sessions, TCP and TLS, rooms by name
    sound      SIPp: hold, a NAT that gives another port, PCMA, G.722 and Opus, keys
    recipes    a room is recorded, also with a picture, which GStreamer's rtpbin shows; music plays to who is alone
    phones     two baresips in the room: one is muted, and one hangs up
    gone       a bridge and rtpengine that are gone; then, in a call, they are started anew, and a browser is killed
    readme     what README of examples/gateway has one type, with a package and in a clone; then come four Chromiums and
               a baresip
    pages      the kills of `again` with Chromium, whose page comes again without a click
    turn       a Chromium joins by TURN over TLS, which is coturn's
    network    a Chromium whose address changes, and whose link is down for a while, stays the member that it is
    screen     two Chromiums: one shows its screen, and takes another camera and microphone
    browsers   three Chromiums: mutes, pins, the floor, removals and undos show in all; 2 percent of packets are lost
    speakers   the three speak one after another, and their pictures follow who speaks; two lose packets
    four       four Chromiums with numbered pictures: how soon these come, what losses of 1 and 3 percent do to them,
               and what a narrow way leaves of pictures and of sound
    firefox    Firefox joins them
    linphone   Linphone joins them
    nat        a Chromium and a baresip behind a NAT, which takes leave to make network namespaces

Each step has a name, such as `turn.wrong-secret`. `--steps` lists them with what they need, and with what of that this
machine lacks; a step that lacks something is named, and skipped. `--only` runs a part or a step alone, with the callers
that it needs.

Where all parts run, all five callers are in one room. Each sends a tone, and each browser a colour, so that what is
heard and seen is told apart. The check measures how long a new picture takes after an operator's line. On Debian the
packages are rtpengine-daemon, kamailio, kamailio-python3-modules, kamailio-tls-modules, sip-tester, chromium,
baresip-core, ffmpeg, gstreamer1.0-tools, gstreamer1.0-plugins-good, firefox-esr, pulseaudio, linphone-cli, coturn,
openssl, nodejs and iptables.

Each check prints a line, `ok` or `FAILED`. Each wait is bounded: where a step is late, its line says what it waited for
and how long, and the next step begins with a bridge of its own. With --model a model without media stands in for the
bridge, for the steps that need no media.
"""

import pathlib
import signal
import sys
import tempfile
import time

from lab.check.peers import Checks
from lab.gateway_call.call import Call
from lab.gateway_call.steps import PARTS, STEPS, chosen
from lab.gateway_call.trial import lacking
from lab.waits import carried_out, within
from operators.shared import add_program, fail

NEEDS = "the program, rtpengine, and what it names where it skips; a quarter of an hour, half on a loaded machine"
# The most that a step's callers may take until all are in the room, in seconds.
GATHERING = 300


def options(parser):
    add_program(parser)
    parser.add_argument("--browser", default="chromium", metavar="COMMAND", help="the browser (%(default)s)")
    parser.add_argument("--model", action="store_true", help="a bridge that is a model, without media")
    parser.add_argument("--pictures", type=pathlib.Path, metavar="FOLDER", help="where pictures of the page go")
    text = "this part or step alone, or several times these"
    parser.add_argument("--only", action="append", metavar="NAME", help=text)
    parser.add_argument("--steps", action="store_true", help="list the steps, and run none")
    parser.add_argument("--seconds", type=int, default=3600, help="how long all may take (%(default)s)")


def listed(steps, args):
    """Prints a line for each step: its name, what it needs, and what of that isn't there."""
    for one in steps:
        lacks = one.lacks(args)
        print(f"{one!s:28}  {' '.join(one.needs)}{f'  ({lacks})' if lacks else ''}".rstrip())


def hold(trial, steps, args):
    """Carries out steps. What a step lacks is named, and it is skipped."""
    lacks = {one: one.lacks(args) for one in steps}
    # Of a model nobody expects media, but where they are asked for.
    steps = [one for one in steps if args.only or not (args.model and "media" in one.needs)]
    trial.has_phones = any(one.has_phones() for one in steps if not lacks[one])
    trial.start_parts()
    done = set()
    for one in steps:
        unmet = one.after and (one.part, one.after) not in done
        why = lacks[one] or (f"{one.part}.{one.after} isn't done" if unmet else "")
        if why:
            print(f"skipped: {one} ({why})", flush=True)
        elif carry_out(trial, one, args):
            done.add((one.part, one.name))


def carry_out(trial, one, args):
    """Has a step's callers join, and carries it out. Whether it ended. Where it doesn't, the next one finds an empty
    desk."""
    begun, callers = time.monotonic(), one.gathers(args)
    joined = not callers or carried_out(trial.check, f"{one}: callers join", GATHERING, lambda: trial.gather(callers))
    ended = joined and carried_out(trial.check, str(one), one.seconds, getattr(trial, one.method))
    if not ended:
        trial.begin_anew()
    print(f"      {one}: {time.monotonic() - begun:.0f} s", flush=True)
    return ended


def run(args):
    steps = chosen(args.only)
    if not steps:
        fail(f"--only takes a part ({', '.join(PARTS)}), or a step, such as {STEPS[0]}")
    if args.steps:
        listed(steps, args)
        return 0
    if lacking("rtpengine"):
        fail(lacking("rtpengine"))
    # What was started is ended by `finally`, also where this program is asked to end.
    signal.signal(signal.SIGTERM, lambda *_: sys.exit(143))
    check = Checks()
    with tempfile.TemporaryDirectory(ignore_cleanup_errors=True) as name:
        trial = Call(args, check, pathlib.Path(name))
        try:
            with within(args.seconds, "the whole check"):
                hold(trial, steps, args)
            check(trial.bridge.poll() is None, "the bridge still runs")
        finally:
            trial.close()
    return 1 if check.failed else 0
