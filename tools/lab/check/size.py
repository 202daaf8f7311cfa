"""Holds a fleet of the size that its README plans: real agents and a real etcd, and models in place of bridges.

45 bridges on nine machines have 2,500 rooms of four. 50 members a second join for a minute, and meanwhile one machine
with its five bridges is killed, so that 40 bridges remain. Then the same with an etcd whose answers take 200 ms, with
one that is killed and comes back, and with the leader's agent stopped for 20 s (SIGSTOP).

Each time all members have to be in, and no room may be on two desks at any moment. The rooms of the dead machine have
to be elsewhere a lease and two seconds after it was killed: two seconds after etcd has ended its lease. Agents and etcd
together may take one core, and an agent reads what has changed and nothing else. Now and then an operator mutes a
member: in the rooms of the dead machine these mutes are calls of their own where the rooms are then.

Nothing of that rests on how fast the machine is. Seconds are those of the simulation's own clock: they are longer where
its processes get less than a tenth of the processor time that they ask for, as the system counts it. Leases, and what
waits for etcd, last as much longer. Processor time and octets are counted, too: those of a look at a desk where nothing
has happened, of which each bridge has one a second, and those of a join and of a change beside that. A join is also
told in units of a floor: what a single put of 200 octets takes, of etcd and of who asks.

With --bridges and --rooms the fleet is smaller, and its joins fewer. It takes loopback ports of its own.
"""

import collections
import pathlib
import shutil
import signal
import statistics
import sys
import tempfile
import time

from checks.bridges import seconds_of
from lab.check.peers import Checks
from lab.fleet_call.floor import floor_of
from lab.fleet_call.machines import READS, Clock, Joining, Machine, Observer, Way, stays, twice
from lab.fleet_call.operating import Operating
from lab.fleet_call.parts import LEASE, EtcdPart

NEEDS = "etcd; at its full size ten minutes a case on a machine with little other work, an hour on one with much"

ON_MACHINE, PEOPLE = 5, 4
# The bounds: of a core, of the floor, of the octets that an agent reads for each change, of seconds from the end of a
# machine's lease until all its rooms are elsewhere, of the rooms that are put by each change at the begin, and of the
# lots in which each bridge gets a dead machine's rooms.
CORE, FLOORS, OCTETS, SECONDS, AT_ONCE, LOTS = 1.0, 40, 1500, 2, 4, 1.5
# After how many seconds of joins something happens, and for how long an agent is stopped.
HAPPENS, STOPPED = 10, 20
# For how many seconds all may take to begin, and to settle; for how many of the machine's is seen what all takes while
# nobody joins; and between two looks.
BEGINS, SETTLES, STILL, PAUSE = 600, 120, 30, 0.2
# How many calls of operators there are for each join until something happens, and how many seconds before a machine is
# killed the last of those was that travel for certain.
OPERATED, CERTAIN = 0.1, 2


def options(parser):
    parser.add_argument("--bridges", type=int, default=45, metavar="N", help="how many bridges (45)")
    parser.add_argument("--rooms", type=int, default=2500, metavar="N", help="how many rooms (2500)")
    parser.add_argument("--pace", type=float, default=50, metavar="N", help="joins a second (50)")
    parser.add_argument("--seconds", type=float, default=60, metavar="N", help="for how many seconds (60)")
    parser.add_argument("--only", default="", metavar="WORD", help="only the cases with this word in their names")


class Size:
    def __init__(self, check, folder, args):
        self.check, self.folder, self.args, self.parts, self.machines = check, folder, args, [], []
        self.etcd = self.begun(EtcdPart(folder))
        self.etcd.store.patience = READS
        self.way = self.begun(Way(folder, self.etcd.ports[0]))
        self.seen, self.clock = self.begun(Observer(self.etcd.store)), Clock(self.processes)
        self.floor = floor_of(self.etcd)
        # How many seconds of this machine are one of the clock's: leases and what waits for etcd last as much longer.
        self.slower = max(1.0, 1 / self.clock.rate)
        print(f"  a second of the clock is {self.slower:.1f} of this machine's", flush=True)
        # A few rooms less at the begin: members who join open the others, in each of four cases.
        self.new = max(1, args.rooms // 200)
        count = args.rooms - 4 * self.new
        firsts = [1 + at * count // args.bridges for at in range(args.bridges + 1)]
        self.rooms, self.further = [*range(1, count + 1)], count + 1
        for at in range(0, args.bridges, ON_MACHINE):
            rooms = firsts[at : at + ON_MACHINE + 1]
            name = f"m{at // ON_MACHINE}"
            self.machines.append(self.begun(Machine(name, folder, self.way, len(rooms) - 1, rooms, self.slower)))
        for one in self.machines:
            one.start_models(PEOPLE)
        for one in self.machines:
            one.have_begun()
        revision = self.revision()
        for one in self.machines:
            one.start_agent()
        good = self.comes(lambda: self.are_on(self.rooms) and self.all_run(), BEGINS)
        text = f"{len(self.rooms)} rooms on {args.bridges} bridges are known to {len(self.machines)} agents"
        self.check(good, text, self.logs())
        puts = self.revision() - revision
        self.check(puts <= len(self.rooms) / AT_ONCE + 100, f"they are put by {puts} changes of etcd", puts)
        spent = ", ".join(f"{key} {seconds:.1f}" for key, seconds in self.processors().items())
        print(f"  until then these took, in seconds of a processor: {spent}")
        self.look, self.look_octets = self.each_look()

    def begun(self, part):
        self.parts.append(part)
        return part

    def processes(self):
        own = [one for part in (self.etcd, self.way) if (one := part.process.pid)]
        return own + [process for one in self.machines for process in one.processes()]

    def comes(self, condition, seconds):
        """Whether something holds within so many seconds of the simulation's clock."""
        end = self.clock.now() + seconds
        while not (holds := condition()) and self.clock.now() < end:
            time.sleep(PAUSE)
        return holds

    def logs(self):
        return {one.name: one.log.read_text()[-600:] for one in self.machines}

    def all_run(self):
        """Whether all agents and their bridges are known."""
        known = self.seen.known
        return len(known.agents) == len(self.machines) and len(known.bridges) == self.args.bridges

    def are_on(self, rooms):
        """Whether these rooms are there, and each is on a bridge and goes nowhere."""
        records, bridges = self.seen.rooms(), self.seen.known.bridges
        stands = lambda one: one["on"] in bridges and one["to"] is None
        return records.keys() == set(rooms) and all(map(stands, records.values()))

    def processors(self):
        return {
            "agents": sum(seconds_of(one.agent) for one in self.machines if one.runs()),
            "etcd": seconds_of(self.etcd.process),
        }

    def looks(self):
        """How many looks there were of the machines that run, by their names."""
        return {one.name: one.looks() for one in self.machines if one.runs()}

    def each_look(self):
        """What a look takes while nobody joins: of processors, and in octets."""
        before, octets, looks = self.processors(), self.way.octets(), self.looks()
        while self.looks_since(looks) < STILL * self.args.bridges:
            time.sleep(1)
        count = self.looks_since(looks)
        each = {key: (one - before[key]) / count for key, one in self.processors().items()}
        return each, (self.way.octets() - octets) / count

    def looks_since(self, before):
        return sum(one - before[name] for name, one in self.looks().items() if name in before)

    def revision(self):
        """How many changes etcd has made."""
        return self.etcd.store.read_at("/confbridge/fleet/agents/")[1]

    # Cases

    def case(self, text, happens, victim):
        """Joins for a while, in which something happens and a machine is killed."""
        new = [*range(self.further, self.further + self.new)]
        self.further += self.new
        leader = self.seen.known.leader
        octets, changes, begun, before = self.way.octets(), self.seen.changes, time.monotonic(), self.processors()
        looks = self.looks()
        spent = {"agents": 0.0, "etcd": 0.0}
        joining = Joining(self.clock, self.machines, self.rooms, new, self.args.pace, self.args.seconds)
        operating = Operating(self.clock, self.machines, OPERATED * self.args.pace, HAPPENS)
        joining.start()
        operating.start()
        self.clock.sleep(HAPPENS)
        self.count(spent, before)
        happens(leader)
        before = self.processors()
        dead = victim(leader)
        lost = [room for room, one in self.seen.rooms().items() if one["on"] in dead.bridges]
        self.count(spent, before)
        dead.kill()
        killed, before = time.monotonic(), self.processors()
        with (self.folder / "rooms.log").open("a") as log:
            log.writelines(f"{killed} {tcp} x 0\n" for tcp, _ in dead.bridges.values())
        joining.join()
        operating.join()
        self.comes(lambda: not any(one["on"] in dead.bridges for one in self.seen.rooms().values()), SETTLES)
        self.count(spent, before)
        seconds, looks = time.monotonic() - begun, self.looks_since(looks)
        octets, changes = self.way.octets() - octets, self.seen.changes - changes
        self.way.tell("delay 0")
        self.rooms += new
        good = self.comes(lambda: self.are_on(self.rooms), SETTLES)
        self.check(good, f"{text}: all {len(self.rooms)} rooms are on a bridge", self.logs())
        told = self.clock.at(begun + seconds) - self.clock.at(begun)
        print(f"  {told:.0f} s of the clock, {seconds:.0f} s of the machine, {looks} looks at desks")
        self.judge(text, joining, spent, looks, octets, changes)
        self.judge_rooms(text, lost, dead, killed)
        self.judge_calls(text, lost, operating, self.clock.at(killed) - CERTAIN)
        dead.rooms = [0] * len(dead.rooms)
        dead.start_models(0)
        dead.have_begun()
        dead.start_agent()
        self.comes(self.all_run, SETTLES)

    def count(self, spent, before):
        for key, one in self.processors().items():
            spent[key] += max(0.0, one - before[key])

    def judge(self, text, joining, spent, looks, octets, changes):
        took = sorted(joining.took)
        some = f"{statistics.median(took):.2f} s at the median, {took[len(took) * 99 // 100]:.2f} s at most but for 1 %"
        self.check(len(took) == joining.count, f"{text}: {len(took)} members have joined, {some}", joining.refused)
        print(f"  {sum(joining.refused.values())} answers before were refusals: {dict(joining.refused.most_common(4))}")
        # What a join takes beside the looks meanwhile, and what both are of a core at this pace.
        each = {key: max(0.0, one - self.look[key] * looks) / len(took) for key, one in spent.items()}
        still = {key: one * self.args.bridges for key, one in self.look.items()}
        shares = {key: still[key] + one * self.args.pace for key, one in each.items()}
        parts = ", ".join(f"{key} {one:.2f}, of it {still[key]:.2f} while nobody joins" for key, one in shares.items())
        share, floors = sum(shares.values()), sum(each.values()) / self.floor
        self.check(share <= CORE, f"{text}: agents and etcd take {share:.2f} of a core ({parts})", share)
        self.check(floors <= FLOORS, f"{text}: a join takes {floors:.1f} times what a single put takes", floors)
        read = (octets - self.look_octets * looks) / changes / len(self.machines)
        words = f"{text}: an agent reads {read:.0f} octets for each of {changes} changes, {octets / 1e6:.1f} MB in all"
        self.check(read <= OCTETS, words, (octets, changes))

    def judge_rooms(self, text, lost, dead, killed):
        """What became of the rooms of the machine that was killed, and whether any was on two desks."""
        own = {str(tcp) for tcp, _ in dead.bridges.values()}
        found = stays(self.folder / "rooms.log")
        others = lambda room: [begin for begin, _, desk in found[room] if begin > killed and desk not in own]
        came = [min(others(room), default=None) for room in lost]
        # Until the lease ends, waiting is all that happens, and that by the machine's clock.
        over = self.seen.went.get(f"agents/{dead.url.partition('//')[2]}", 0.0)
        there = over > killed and came and None not in came
        late = max(0.0, self.clock.at(max(came)) - self.clock.at(over)) if there else None
        good, told = there and late <= SECONDS, "never" if late is None else f"{late:.1f} s after the end of its lease"
        words = f"{text}: the {len(lost)} rooms of a dead machine are elsewhere {told}"
        self.check(good, words, (len(came), came.count(None), over - killed))
        lasts = f"{LEASE * self.slower:.0f} s of this machine"
        print(f"  the lease of {lasts} ended {over - killed:.1f} s after that was killed")
        if there:
            self.judge_steps(text, [self.seen.given[room] for room in lost], dead, over, max(came))
        doubled = twice(found)
        self.check(not doubled, f"{text}: no room is on two desks at any moment", doubled[:20])

    def judge_steps(self, text, given, dead, over, last):
        """What the time until a dead machine's rooms are elsewhere is made of, and in how many lots bridges got them:
        an agent waits for etcd between two."""
        gone = max(self.seen.went.get(f"bridges/{name}", 0.0) for name in dead.bridges)
        steps = {"its bridges were gone": gone, "their rooms had others": max(given)[0], "all were there": last}
        took = {text: self.clock.at(moment) - self.clock.at(over) for text, moment in steps.items()}
        print("  of it", ", ".join(f"{seconds:.1f} s until {text}" for text, seconds in took.items()))
        lots, bridges = len({(to, revision) for _, to, revision in given}), len({to for _, to, _ in given})
        good = lots <= LOTS * bridges
        self.check(good, f"{text}: {bridges} bridges get these rooms in {lots} lots", lots)

    def judge_calls(self, text, lost, operating, moment):
        """Whether what operators did in the rooms of the machine that was killed is calls of their own elsewhere."""
        desks = {name: tcp for one in self.machines for name, (tcp, _) in one.bridges.items()}
        on = {room: desks[one["on"]] for room, one in self.seen.rooms().items()}
        count, gone = operating.lost(moment, lost, on)
        self.check(not gone, f"{text}: {count} mutes of operators in those rooms are calls of their own there", gone)

    def close(self):
        for part in reversed(self.parts):
            part.close()

    def machine(self, url):
        return next(one for one in self.machines if one.url == url)

    def other(self, leader):
        """Another machine than the leader's: the one with the most rooms."""
        on = collections.Counter(one["on"] for one in self.seen.rooms().values())
        rooms = lambda machine: sum(on[bridge] for bridge in machine.bridges)
        return max((one for one in self.machines if one.url != leader), key=rooms)

    def case_plain(self):
        self.case("plain", lambda leader: None, self.machine)

    def case_slow(self):
        self.case("a slow etcd", lambda leader: self.way.tell(f"delay {0.2 * self.slower}"), self.other)

    def case_restarted(self):
        def restarts(leader):
            self.etcd.close()
            self.clock.sleep(2)
            self.etcd.start()
            self.clock.sleep(5)

        self.case("etcd is killed", restarts, self.other)

    def case_stopped(self):
        def stops(leader):
            self.machine(leader).agent.send_signal(signal.SIGSTOP)
            self.clock.sleep(STOPPED)
            self.machine(leader).agent.send_signal(signal.SIGCONT)
            self.clock.sleep(2)

        self.case("the leader stands still", stops, self.other)


def run(args):
    signal.signal(signal.SIGTERM, lambda *_: sys.exit(143))
    if not shutil.which("etcd"):
        sys.exit("check size: there is no etcd")
    check = Checks()
    with tempfile.TemporaryDirectory(ignore_cleanup_errors=True) as name:
        size = None
        try:
            size = Size(check, pathlib.Path(name), args)
            for case in "case_plain", "case_slow", "case_restarted", "case_stopped":
                if args.only in case:
                    getattr(size, case)()
        finally:
            if size:
                size.close()
    return 1 if check.failed else 0
