"""Floods a bridge over loopback beside a call of two members, and measures that call.

FLOOD is one of
  strangers    random octets from addresses that are no member's
  noise        random octets from a member's address
  sources      good RTP packets from a member, each with a random SSRC
  asks compounds of 8,192 octets from a receiver: 31 blocks, 100 PLIs, and NACKs of numbers in and out of its window
  nacks        compounds of 8,184 octets from a receiver: 511 NACKs of one number, in and out of its window
  blocks       compounds of 8,176 octets from a receiver: 337 report blocks
  pictures     compounds of 64 PLIs from a receiver, which the bridge passes on to the call's sender
  restarts     two members whose video restarts at every second packet
  open-frames  packets of 2,044 video sources, none of which ends a frame
  large-frames the same, of 8,192 octets each
  gaps         packets of one octet of which each asks the bridge for the 249 numbers before it

A flood holds where at least 99 in 100 of the call's packets that reached the bridge come to the listener, the ticks are
late by at most 10 ms (99th percentile), memory is flat after the first minute, and the NACKs and PLIs that go out to
the flood's senders, with the PLIs that go to the call's, have at most 1.5 octets for each of theirs, and 256 for each
sender. The status is 0 where all floods held.
"""

import pathlib
import subprocess
import tempfile

from operators.shared import add_program, compiled, release_program

NEEDS = "the program, `cc`, a minute or more a flood; root for large socket buffers"

HERE = pathlib.Path(__file__).resolve().parent
# How many datagrams a second each flood sends.
RATES = {
    "strangers": 200_000,
    "noise": 200_000,
    "sources": 200_000,
    "asks": 1_000,
    "nacks": 1_000,
    "blocks": 1_000,
    "pictures": 50,
    "restarts": 20_000,
    "open-frames": 50_000,
    "large-frames": 12_000,
    "gaps": 20_000,
}


def options(parser):
    parser.add_argument(
        "--flood", choices=RATES, metavar="FLOOD", help="this one alone; all, one after another, if none is given"
    )
    parser.add_argument("--seconds", type=float, default=600, help="how long each lasts (%(default)s)")
    parser.add_argument(
        "--rate", type=int, help="how many datagrams a second, in place of the flood's own; 0 is the call alone"
    )
    parser.add_argument("--lanes", type=int, default=1, help="how many lanes the bridge has (%(default)s)")
    add_program(parser)


def run(args):
    program = release_program(args.binary)
    has_held = True
    with tempfile.TemporaryDirectory() as folder:
        flood = compiled(HERE / "flood.c", folder)
        for name in [args.flood] if args.flood else RATES:
            rate = RATES[name] if args.rate is None else args.rate
            print(f"{name}, {rate} datagrams a second", flush=True)
            ran = subprocess.run(
                [flood, program, name, str(args.seconds), str(rate), str(args.lanes)],
                capture_output=True,
                text=True,
                check=False,
            )
            print(ran.stdout, ran.stderr, sep="", flush=True)
            has_held = has_held and ran.returncode == 0 and ran.stdout.endswith("\nheld\n")
    return 0 if has_held else 1
