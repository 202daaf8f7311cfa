"""Holds a fleet of three bridges, agents and etcd on this machine, and kills what may die.

First a desk is kept and restored, and each thing that hinders it is told in words. Then three agents open 30 rooms at
once. A bridge is killed: its rooms have to stand on another one within 5 s, with all their members, while no other
room changes and none stands on two. A machine is gone, with its agent: the same within 5 s. Rooms move; agents die in
the middle of a move; etcd is gone and comes back; a bridge is full, and busy; one is drained. Bad requests are told so.
Manifests are read by kubectl and compared with the settings, images and units that they name, and with a list of what
closes pods, tasks and units. The units' programs run with what the units take from them. Kamailio's dispatcher finds a
room's bridge.

What operators do travels with a room: its bridge is killed, its agent is killed, it moves, and each of their calls can
be undone and reverted where it is then. On desks of calls that are drawn what is kept has to make the rows.

An agent is killed while its bridge runs, and the leader's stands still: no room goes elsewhere. A machine is cut off:
its desk is closed to operators in time, also where its agent is started anew, is killed or stands still, and what is
lost is told. Once the way is there again, calls are taken and kept. A bridge from before leases is named, and one that
is slow gets all calls of a room. Signalling follows a room. A watch of etcd ends, and its revisions are compacted.
10,000 changes of rooms have to leave a database below 20 MB.

Strangers send requests without the fleet's secret, by other names, twice, and by halves; ask for rooms and never join;
name members of other rooms; send SIP with routes of their own; and write to etcd what no agent would. Nothing of it may
reach a bridge, a record or an address outside.

What isn't installed is named, and its steps are skipped. On Debian the packages are etcd-server, kamailio and
kamailio-python3-modules. Each check prints a line, `ok` or `FAILED`. Each wait is bounded, and a step that is late says
what it waited for. With --model the bridges are models without media.
"""

import pathlib
import shutil
import signal
import sys
import tempfile

from lab.check.peers import Checks
from lab.fleet_call.fleet import Fleet
from lab.fleet_call.keeping import Keeping
from lab.fleet_call.manifests import Manifests
from lab.fleet_call.memory import Memory
from lab.fleet_call.pasts import Drawn
from lab.waits import carried_out, within
from operators.shared import add_program, release_program

NEEDS = "the program or nothing (--model), etcd, and what it names where it skips; four minutes"

# How many seconds a step may take, also where other work has the machine.
STEP = 1800


def options(parser):
    add_program(parser)
    parser.add_argument("--model", action="store_true", help="bridges that are models, without media")
    parser.add_argument("--only", default="", metavar="WORD", help="only the steps with this word in their names")


PARTS = [
    (Drawn, [], ["step_drawn", "step_lost", "step_bounds"]),
    (Keeping, [], ["step_round_trip", "step_refusals", "step_lines", "step_large"]),
    (Manifests, [], [
        "step_kubernetes", "step_pods", "step_compose", "step_podman", "step_nomad", "step_ports_of_job", "step_units",
        "step_ports_of_units", "step_compaction", "step_confined",
    ]),
    (Memory, ["etcd"], ["step_changes", "step_watch", "step_many", "step_database"]),
    (Fleet, ["etcd"], [
        "step_opens", "step_bodies", "step_secret", "step_questions", "step_leave", "step_halves", "step_kill",
        "step_etcd_lines", "step_empty", "step_move", "step_past", "step_past_and_agent", "step_past_of_two",
        "step_past_refused", "step_past_bounded", "step_cut_moves", "step_agent_alone", "step_lease_lost",
        "step_leader", "step_follows", "step_cut_off", "step_closes", "step_closed_anew", "step_older", "step_slow",
        "step_gateways", "step_etcd", "step_full_and_busy", "step_machine", "step_dispatcher", "step_drain",
    ]),
]  # fmt: skip


def run(args):
    # What was started is ended by `finally`, also where this program is asked to end.
    signal.signal(signal.SIGTERM, lambda *_: sys.exit(143))
    program = None if args.model else release_program(args.binary)
    check = Checks()
    for part, needed, steps in PARTS:
        lacking = [one for one in needed if not shutil.which(one)]
        if lacking:
            print(f"skipped: {part.__doc__.splitlines()[0]} There is no {' and no '.join(lacking)}")
            continue
        # A fleet is opened before anything is done to it.
        chosen = [one for at, one in enumerate(steps) if args.only in one or part is Fleet and at == 0]
        if not any(args.only in one for one in steps):
            continue
        with tempfile.TemporaryDirectory(ignore_cleanup_errors=True) as name:
            trial = None
            try:
                with within(STEP, part.__doc__.splitlines()[0]):
                    trial = part(check, pathlib.Path(name), program)
                for step in chosen:
                    if not carried_out(check, step, STEP, getattr(trial, step)):
                        print("skipped: the steps after it")
                        break
            finally:
                if trial:
                    trial.close()
    return 1 if check.failed else 0
