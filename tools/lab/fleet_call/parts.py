"""The parts of examples/fleet, started for a test: etcd, bridges and agents, each on ports of its own."""

import atexit
import contextlib
import json
import os
import re
import signal
import socket
import subprocess
import sys
import time
import urllib.error
import urllib.request

from checks.bridges import operator_at
from lab import waits
from operators.serving import free_port, started
from operators.shared import ROOT, fail

for one in "fleet", "gateway":
    sys.path.append(str(ROOT / "examples" / one))

from fleet_secret import signature, signed  # noqa: E402, F401
from kept import by_room, commands_of, groups_of  # noqa: E402, F401
from known import Store  # noqa: E402
from refused import Refused  # noqa: E402

FLEET, MODEL = ROOT / "examples/fleet/fleet.py", ROOT / "tools/lab/models/served.py"
# Seats of a bridge: its agent, this test, and one more.
SEATS = 3
# How many rooms and members a bridge takes by its agent's settings, and the time of a lease in seconds. How many rooms
# one source may open: this test opens each for a source of its own, but where it tries that.
ROOMS, MEMBERS, LEASE, ROOMS_OF_SOURCE = 20, 256, 3, 4
# The secret of the fleet, and the name and the password by which etcd knows agents.
SECRET, USER = b"the secret of a fleet that is tried", ("fleet", "a password that nobody has drawn")
# How many seconds a bridge has for an answer: on a machine that has no time for it, it isn't gone.
ANSWERS = 300
# How a desk answers a call once its lease has ended, and how many seconds it may take to open again.
CLOSED, OPENS = " 27 Closed", 60
# How many seconds a look takes at most, where a machine has time for it.
LOOK = 0.1
# Where browsers are told to join the rooms of a bridge.
PAGES = "https://call.example"


def holds(condition):
    """Whether something holds. What an etcd that is late refuses to tell doesn't, yet."""
    with contextlib.suppress(Refused):
        return condition()
    return False


def until(condition, seconds=20):
    """How many seconds it takes until something holds, None where it doesn't.

    What a look takes longer than LOOK isn't counted: on a machine that has no time for it, all that is waited for is as
    late.
    """
    spent, seen = 0.0, time.monotonic()
    while not holds(condition):
        if spent > seconds:
            return None
        time.sleep(0.02)
        spent, seen = spent + min(time.monotonic() - seen, LOOK), time.monotonic()
    return spent + min(time.monotonic() - seen, LOOK)


def ended(process, by=signal.SIGKILL):
    """Ends a process that this test has started. Its status."""
    if process.poll() is None:
        process.send_signal(by)
    return waits.ended(process, 20)


def begun(command, log, environment=None):
    """A process with a log. It ends with this test, however that ends."""
    with log.open("a") as told:
        null = subprocess.DEVNULL
        process = subprocess.Popen(command, env=environment, stdin=null, stdout=told, stderr=told)
    atexit.register(ended, process, signal.SIGTERM)
    return process


class BridgePart:
    """A bridge, or the model in its place, and an operator at its desk."""

    def __init__(self, name, folder, program, **more):
        self.name, self.path, self.program = name, folder / f"{name}.toml", program
        self.udp, self.tcp = free_port(socket.SOCK_DGRAM), free_port(socket.SOCK_STREAM)
        lines = [f'udp = "127.0.0.1:{self.udp}"', f'tcp = "127.0.0.1:{self.tcp}"', f'cname = "{name}"']
        lines += [f"{key} = {value}" for key, value in ({"operators": SEATS} | more).items()]
        self.path.write_text("\n".join(lines) + "\n")
        self.start()

    def start(self):
        under = [] if self.program else [sys.executable, "-B"]
        self.process, _, _ = started(self.program or MODEL, self.path, under)
        self.operator = self.seated()
        # Its first line takes the seat: a bridge closes a connection that says nothing for half a minute.
        self.operator.show()

    def seated(self):
        return operator_at(self.tcp, 300)

    def is_up(self):
        return self.process.poll() is None

    def desk(self):
        """The rows of each room, and the desk's version."""
        shown = self.operator.show()
        if shown is None:
            ended(self.process)
            fail(f"bridge {self.name} has closed the operator's connection, and says {self.process.stderr.read()!r}")
        return by_room(shown[0]), shown[1]

    def do(self, line):
        """A call that has to be accepted, once the desk takes any: it is closed while its agent begins, or is late."""
        said = []
        until(lambda: said.append(self.operator.ask(line)) or not said[-1].endswith(CLOSED), OPENS)
        if not said[-1].startswith("ok "):
            fail(f"`{line}` is answered `{said[-1]}`")

    def lease(self):
        """For how many milliseconds the desk takes calls yet: None where it takes them always."""
        left = self.operator.ask("lease").split(" ")[1]
        return None if left == "off" else int(left)

    def is_closed(self):
        return self.lease() == 0

    def close(self):
        ended(self.process)
        self.process.stderr.close()


class AgentPart:
    """An agent with one bridge."""

    def __init__(self, bridge, folder, etcd, sip="", start=None, etcd_url="", udp="", lease=LEASE):
        self.bridge, self.log = bridge, folder / f"agent_{bridge.name}.log"
        self.port, self.path = free_port(socket.SOCK_STREAM), folder / f"agent_{bridge.name}.toml"
        self.url = f"http://127.0.0.1:{self.port}"
        self.path.write_text(
            f'[agent]\nlisten = "127.0.0.1:{self.port}"\nurl = "{self.url}"\nlease = {lease}\n'
            f'secret = "{secret_file(folder)}"\nrooms_of_source = {ROOMS_OF_SOURCE}\n'
            f'[etcd]\nservers = ["{etcd_url or etcd.url}"]\nuser = "{USER[0]}"\npassword = "{etcd.password}"\n'
            f'[bridges.{bridge.name}]\nudp = "{udp or f"127.0.0.1:{bridge.udp}"}"\n'
            f'tcp = "127.0.0.1:{bridge.tcp}"\nsip = "{sip}"\npage = "{PAGES}/{bridge.name}"\nrooms = {ROOMS}\n'
            f"members = {MEMBERS}\nanswers = {ANSWERS}\n"
        )
        # How it is started, if not as any program.
        self.starts = start or begun
        self.start()

    def start(self):
        python = sys.executable if self.starts == begun else "/usr/bin/python3"
        self.process = self.starts([python, "-B", FLEET, self.path], self.log)

    def ask(self, path, **words):
        """The status of a request, and what it is answered."""
        return self.post(path, json.dumps(words).encode() if path else None)

    def post(self, path, body):
        """The same of a request with this body."""
        return self.sent(signed(SECRET, f"{self.url}/{path}", body))

    def sent(self, request):
        """The same of a request, however it is signed."""
        try:
            with urllib.request.urlopen(request, timeout=30) as said:
                return said.status, json.load(said)
        except urllib.error.HTTPError as why:
            return why.code, why.read().decode()
        except OSError as why:
            return 0, str(why)

    def knows(self):
        """How many bridges it knows."""
        status, told = self.ask("")
        return len(told["bridges"]) if status == 200 else 0

    def close(self):
        return ended(self.process, signal.SIGTERM)


def secret_file(folder):
    """The file of the secret. Who has none is told of it by the environment."""
    path = folder / "fleet.secret"
    path.touch(0o600)
    path.write_bytes(SECRET + b"\n")
    os.environ["FLEET_SECRET"] = str(path)
    return path


class EtcdPart:
    """etcd on this machine, with data and users of its own."""

    def __init__(self, folder):
        self.password = folder / "etcd.password"
        self.password.write_text(USER[1] + "\n")
        self.folder, self.ports = folder, [free_port(socket.SOCK_STREAM) for _ in range(2)]
        self.url, peers = (f"http://127.0.0.1:{port}" for port in self.ports)
        self.command = ["etcd", f"--data-dir={folder / 'etcd'}", f"--initial-cluster=default={peers}"]
        self.command += [f"--listen-client-urls={self.url}", f"--advertise-client-urls={self.url}"]
        self.command += [f"--listen-peer-urls={peers}", f"--initial-advertise-peer-urls={peers}"]
        self.command += re.findall(r"--auto-compaction-\S+", FLEET.with_name("kubernetes.yaml").read_text())
        self.store = Store([self.url], USER)
        self.make_users()
        self.start()

    def make_users(self):
        """The users of a new etcd, by the program that the manifests have."""
        words = [sys.executable, "-B", FLEET.with_name("etcd_users.py"), self.folder / "etcd", self.password]
        done = subprocess.run(words, capture_output=True, text=True, timeout=60, check=False)
        if done.returncode:
            fail(f"etcd gets no users: {done.stderr[-500:]}")

    def start(self):
        self.process = begun(self.command, self.folder / "etcd.log")
        if until(self.answers, 60) is None:
            fail(f"etcd doesn't answer: {(self.folder / 'etcd.log').read_text()[-500:]}")

    def answers(self):
        with contextlib.suppress(Exception):
            self.store.known()
            return True
        return False

    def close(self):
        ended(self.process)
