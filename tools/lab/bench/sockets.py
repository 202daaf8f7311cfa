"""Loads a bridge over loopback, beside a floor.

A floor is a program that makes the same socket calls and no more. LOAD is one of
  fan    a video source to 16 receivers, 1,000 packets a second in frames of 4
  room   64 members with PCMU of 160 samples each 20 ms
  spread the same room in bursts, and then with each member at its own moment, as real ones send; the floor in both
  gains  256 members with gains, of whom 16 speak, on one lane and then on four: what the busiest lane takes
  calls  a room as in `spread`, while `strace` counts system calls from its first datagram on: how many one takes
  link   a key frame of 100 packets to 30 receivers, over a link of 1 Gbit/s that this shapes, COUNT times
  most   the largest fan without loss: 250 frames a second, which grow by a quarter until packets are lacking in three
         runs; of packets of 1,100 octets, of which few fit into a receive buffer, and then of 100 octets. It names
         where packets were lost beyond that

`fan` and `room` run the bridge, then the floor, COUNT seconds each; `fan` also Janus, where that is installed: its
VideoRoom takes the source's packets by ICE without encryption, and forwards them to the receivers as plain RTP.
Processor time is that of all threads, by /proc/PID/task/*/schedstat. The output also says where packets were lost:
before the bridge (its own socket was full) or behind it (a member's was); and whether this tool or the machine stood
still: steps of 4 ms that it left out, and the share of processor time that the host took away. The status is 0 where
the bridge answered to its end.
"""

import os
import pathlib
import shutil
import subprocess
import tempfile

from lab.bench import link
from lab.network import janus
from operators.shared import ROOT, add_program, compiled, release_program

NEEDS = (
    "the program, `cc`, a minute; root for large socket buffers, `link` and `calls`; `strace` for `calls`; janus beside "
    "`fan`"
)

HERE = pathlib.Path(__file__).resolve().parent


def module_for_janus(args):
    """The module that starts Janus, or nothing where that isn't to be measured. It says where it isn't installed."""
    if not args.no_janus and not janus.is_there():
        print("Janus isn't installed: it is left out", flush=True)
    return "lab.bench.forwarding" if not args.no_janus and janus.is_there() else ""


# By the names of the loads in C: what load.c is told behind the lanes.
LOADS = {
    "fan": lambda args, folder: [module_for_janus(args)],
    "room": lambda args, folder: [],
    "spread": lambda args, folder: [],
    "gains": lambda args, folder: [],
    "calls": lambda args, folder: [f"{folder}/calls"],
    "most": lambda args, folder: [],
}


def options(parser):
    parser.add_argument("load", choices=[*LOADS, "link"], metavar="LOAD")
    what = "how many seconds; for `link` how many frames"
    parser.add_argument("count", metavar="COUNT", help=what)
    parser.add_argument("--lanes", default="1", help="how many lanes the bridge has, but for `gains` (%(default)s)")
    parser.add_argument("--no-janus", action="store_true", help="leave Janus out")
    add_program(parser)


def tell_calls(path, said):
    """How many system calls a datagram took, by strace's table."""
    table = path.read_text()
    total, datagrams = int(table.splitlines()[-1].split()[3]), int(said.split(" datagrams in")[0].split()[-1])
    print(f"{table}{total} system calls, {total / max(1, datagrams):.2f} a datagram in")


def run(args):
    program = release_program(args.binary)
    if args.load == "link":
        return link.run(program, int(args.count), int(args.lanes))
    if args.load == "calls" and not shutil.which("strace"):
        print("calls: not tried, since there is no command `strace`")
        return 0
    environment = os.environ | {"PYTHONPATH": str(ROOT / "tools"), "PYTHONDONTWRITEBYTECODE": "1"}
    with tempfile.TemporaryDirectory() as folder:
        more = LOADS[args.load](args, folder)
        command = [compiled(HERE / "load.c", folder), program, args.load, args.count, args.lanes, *more]
        if args.load != "calls":
            return subprocess.run(command, env=environment, check=False).returncode
        done = subprocess.run(command, stdout=subprocess.PIPE, text=True, check=False)
        print(done.stdout, end="")
        if done.returncode == 0:
            tell_calls(pathlib.Path(folder, "calls"), done.stdout)
        return done.returncode
