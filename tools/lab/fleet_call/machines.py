"""The machines of a large fleet: models of bridges, real agents, and a way to etcd that counts and can be slow."""

import atexit
import bisect
import collections
import contextlib
import itertools
import json
import math
import os
import pathlib
import random
import signal
import socket
import subprocess
import sys
import threading
import time
import urllib.error
import urllib.request

from checks.bridges import together
from lab.fleet_call.parts import FLEET, LEASE, SECRET, USER, begun, ended, secret_file, signed
from operators.serving import free_port
from operators.shared import ROOT

from copied import Copy  # noqa: E402

MODELS = ROOT / "tools/lab/models"
# How many seconds it may take to know all anew; and how many octets of an answer are read.
READS, MOST_OCTETS = 300, 10_000_000


def asked_for(process):
    """The processor time that each thread of a process has had, and that it has waited for, in nanoseconds."""
    found = {}
    with contextlib.suppress(OSError):
        for thread in os.listdir(f"/proc/{process}/task"):
            with contextlib.suppress(OSError):
                words = pathlib.Path(f"/proc/{process}/task/{thread}/schedstat").read_text().split()
                found[thread] = int(words[0]), int(words[1])
    return found


class Clock(threading.Thread):
    """The simulation's own clock. Where its processes get a share of GRANTED, or more, of the processor time that they
    ask for, its seconds are the machine's. Where they get less, its seconds are longer, by as much: on a machine that
    has no time for the simulation all that is done there is late, and none of it by this clock."""

    # Every STEP seconds it sees what they got, and lets go of a part of what it has seen before. It never stands still.
    STEP, GRANTED, KEPT, LEAST = 0.5, 0.1, 0.75, 0.01

    def __init__(self, processes=lambda: []):
        super().__init__(daemon=True)
        self.processes, self.threads, self.had, self.waited, self.rate = processes, {}, 0.0, 0.0, 1.0
        # The machine's time at each step, and the clock's.
        self.moments = [(time.monotonic(), 0.0)]
        self.start()

    def run(self):
        while True:
            time.sleep(self.STEP)
            now, (moment, told) = time.monotonic(), self.moments[-1]
            later = told + (now - moment) * self.rate
            self.see()
            self.moments.append((now, later))

    def see(self):
        """Sees what the processes had since the last step, and what they waited for."""
        before, self.threads = self.threads, {}
        for process in {os.getpid(), *self.processes()}:
            self.threads |= {(process, thread): one for thread, one in asked_for(process).items()}
        rise = lambda at: sum(now[at] - before[one][at] for one, now in self.threads.items() if one in before)
        self.had = self.had * self.KEPT + rise(0)
        self.waited = self.waited * self.KEPT + rise(1)
        share = self.had / (self.had + self.waited) if self.waited else 1.0
        self.rate = min(1.0, max(self.LEAST, share / self.GRANTED))

    def now(self):
        return self.at(time.monotonic())

    def at(self, moment):
        """The clock's time at a moment of the machine's."""
        place = bisect.bisect(self.moments, (moment, math.inf))
        (before, told), *after = self.moments[max(0, place - 1) : place + 1]
        if after:
            return told + (after[0][1] - told) * (moment - before) / (after[0][0] - before)
        return told + max(0.0, moment - before) * self.rate

    def sleep(self, seconds):
        end = self.now() + seconds
        while (left := end - self.now()) > 0:
            # No second of the clock is shorter than the machine's.
            time.sleep(max(0.01, left))


class Observer(Copy):
    """What all agents know, as this test sees it: where rooms are, which keys have changed, and when others went."""

    def __init__(self, store):
        super().__init__(store)
        # When keys went; and when each room was last given a bridge to go to, that bridge, and the change by which.
        self.changes, self.went, self.given = 0, {}, {}
        self.heard.append(self.hears)
        threading.Thread(target=self.run, daemon=True).start()

    def hears(self, key):
        if key is None:
            return
        self.changes += 1
        if key not in self.known.revisions:
            self.went[key] = time.monotonic()
        elif key.startswith("rooms/"):
            record, revision = self.known.rooms.get(int(key[6:]), (None, 0))
            if record and record["to"]:
                self.given[int(key[6:])] = time.monotonic(), record["to"], revision

    def rooms(self):
        """The record of each room, as far as etcd tells in this moment."""
        with self.lock:
            return {room: record for room, (record, _) in self.current(READS).rooms.items()}

    def close(self):
        self.closed.set()
        self.ends()


class Way:
    """The way to etcd: slow_way.py."""

    def __init__(self, folder, server):
        self.port, log = free_port(socket.SOCK_STREAM), (folder / "way.log").open("a")
        words = [sys.executable, "-B", MODELS / "slow_way.py", str(self.port), str(server)]
        self.process = subprocess.Popen(words, stdin=-1, stdout=-1, stderr=log, text=True, bufsize=1)
        # Nothing is left behind by a test that is ended while it begins.
        atexit.register(ended, self.process)
        self.process.stdout.readline()
        self.url = f"http://127.0.0.1:{self.port}"

    def tell(self, text):
        self.process.stdin.write(f"{text}\n")
        self.process.stdin.flush()

    def octets(self):
        self.tell("count")
        return int(self.process.stdout.readline())

    def close(self):
        ended(self.process)


class Machine:
    """An agent and the models of its bridges."""

    def __init__(self, name, folder, etcd, bridges, rooms, slower=1):
        """`slower`: how many times longer than elsewhere a lease lasts, and an answer of etcd may take."""
        self.name, self.folder, self.rooms = name, folder, rooms
        ports = [(free_port(socket.SOCK_STREAM), free_port(socket.SOCK_DGRAM)) for _ in range(bridges)]
        self.bridges = {f"{name}b{at}": pair for at, pair in enumerate(ports)}
        self.port, self.path, self.log = free_port(socket.SOCK_STREAM), folder / f"{name}.toml", folder / f"{name}.log"
        self.url = f"http://127.0.0.1:{self.port}"
        lines = [f'[agent]\nlisten = "127.0.0.1:{self.port}"\nurl = "{self.url}"\nlease = {LEASE * slower:.0f}']
        lines += [f'rooms_of_source = 8\nsecret = "{secret_file(folder)}"']
        lines += [f'[etcd]\nservers = ["{etcd.url}"]\nuser = "{USER[0]}"']
        lines += [f'password = "{folder / "etcd.password"}"\npatience = {2 * slower:.1f}']
        for one, (tcp, udp) in self.bridges.items():
            lines += [f'[bridges.{one}]\nudp = "127.0.0.1:{udp}"\ntcp = "127.0.0.1:{tcp}"\nrooms = 64\nmembers = 1024']
        self.path.write_text("\n".join(lines) + "\n")
        self.models = self.agent = None

    def start_models(self, members):
        words = [sys.executable, "-B", MODELS / "quick.py", self.folder / "rooms.log"]
        for at, (tcp, udp) in enumerate(self.bridges.values()):
            words.append(f"{tcp}:{udp}:{self.rooms[at]}:{self.rooms[at + 1] - self.rooms[at]}:{members}")
        self.models = subprocess.Popen(words, stdin=-1, stdout=-1, text=True)
        atexit.register(ended, self.models)

    def have_begun(self):
        """Waits until the models answer."""
        return self.models.stdout.readline()

    def looks(self):
        """How often its agent has looked at a desk at which nothing had happened."""
        self.models.stdin.write("count\n")
        self.models.stdin.flush()
        return int(self.models.stdout.readline())

    def processes(self):
        return [one.pid for one in (self.models, self.agent) if one and one.poll() is None]

    def runs(self):
        return self.agent.poll() is None

    def start_agent(self):
        self.agent = begun([sys.executable, "-B", FLEET, self.path], self.log)

    def kill(self):
        for one in self.agent, self.models:
            one.send_signal(signal.SIGKILL)
        for one in self.agent, self.models:
            one.wait()

    def close(self):
        for one in filter(None, (self.agent, self.models)):
            ended(one)


def asked(url, path, words=None, seconds=READS):
    """The status of a request to an agent, and what it is answered."""
    body = None if words is None else json.dumps(words).encode()
    try:
        with urllib.request.urlopen(signed(SECRET, f"{url}/{path}", body), timeout=seconds) as said:
            return said.status, json.loads(said.read(MOST_OCTETS))
    except urllib.error.HTTPError as why:
        return why.code, why.read().decode()
    except (OSError, ValueError) as why:
        return 0, str(why)


class Joining(threading.Thread):
    """Signalling: it joins rooms at a pace of the simulation's clock, by many at once, each until it is a member."""

    WORKERS = 32

    def __init__(self, clock, machines, rooms, new, pace, seconds):
        super().__init__(daemon=True)
        self.clock, self.machines, self.pace, self.count = clock, machines, pace, int(pace * seconds)
        # No two members of all have one address.
        self.drawn, self.net = random.Random(92), 1 + new[0] % 250
        # Rooms that are there, and now and then one that isn't yet.
        self.wanted = [self.drawn.choice(rooms) for _ in range(self.count)]
        for at, room in enumerate(new):
            self.wanted[(at + 1) * self.count // (len(new) + 1)] = room
        self.begun, self.lock, self.next = clock.now(), threading.Lock(), 0
        self.took, self.refused, self.members = [], collections.Counter(), set()

    def run(self):
        workers = [threading.Thread(target=self.work, daemon=True) for _ in range(self.WORKERS)]
        together(workers)

    def work(self):
        while True:
            with self.lock:
                at, self.next = self.next, self.next + 1
            if at >= self.count:
                return
            due = self.begun + at / self.pace
            if due > self.clock.now():
                self.clock.sleep(due - self.clock.now())
            self.join_room(at, due)

    def join_room(self, at, due):
        room = self.wanted[at]
        words = {"room": room}
        for turn in itertools.count():
            # Where an answer was lost, the member may be there already: this one is another.
            words["address"] = f"10.{self.net}.{at % 250}.{turn % 250}:{at % 60000 + 1}"
            words["voice"] = 2 * 10**9 + time.time_ns() % 10**9
            with self.lock:
                running = [one.url for one in self.machines if one.runs()]
                if not running:
                    return
                url = self.drawn.choice(running)
            status, said = asked(url, "join", words | {"source": f"{room}"})
            if status == 200:
                with self.lock:
                    self.took.append(self.clock.now() - due)
                    self.members.add((room, said["member"]))
                return
            with self.lock:
                self.refused[f"{status} {said[:60]}"] += 1
            self.clock.sleep(0.2)


def stays(path):
    """Each room's stays on desks by the log of the models: (begin, end or None, desk), by room. A line with the sign
    `x` says that a desk has ended."""
    found, since = collections.defaultdict(list), {}
    for line in path.read_text().splitlines():
        moment, desk, sign, room = line.split(" ")
        ended_here = [key for key in since if key[1] == desk and (sign == "x" or key[0] == int(room))]
        for key in ended_here:
            found[key[0]].append((since.pop(key), float(moment), desk))
        if sign == "+":
            since[int(room), desk] = float(moment)
    for (room, desk), begin in since.items():
        found[room].append((begin, None, desk))
    return found


def twice(found):
    """The rooms that were on two desks at once."""
    doubled = []
    for room, stays_of in found.items():
        ordered = sorted(stays_of, key=lambda one: one[0])
        for (_, end, a), (begin, _, b) in zip(ordered, ordered[1:]):
            if a != b and (end is None or end > begin):
                doubled.append((room, a, b))
    return doubled
