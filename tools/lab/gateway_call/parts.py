"""The parts of examples/gateway, started for a test beside a bridge."""

import contextlib
import json
import os
import signal
import socket
import subprocess
import sys
import time
import urllib.error
import urllib.request

from lab.gateway_call.dialogs import Dialog
from lab.sip import asked
from lab.waits import ended, within
from operators.serving import free_port
from operators.shared import ROOT, fail

sys.path.insert(0, str(ROOT / "examples/gateway"))

from rtpengine import Rtpengine  # noqa: E402

GATEWAY = ROOT / "examples/gateway/gateway.py"
# The first ports that an rtpengine may have, how many each has, and how many of its threads carry media: on a busy
# machine it gives a port up that a thread doesn't read in time.
PORTS, EACH, THREADS = range(30000, 32500, 100), 100, 8
# How many seconds a part may take to answer, once it is started.
MOST = 300
# After how many seconds without a packet a phone has gone, where it doesn't hold the call.
SILENCE = 10
# For how many seconds a member stays whose call may come again: a machine that is busy may take its time for that.
AWAY = 90
# How many seconds later it may go.
LATE = 20
# A web server before the page, whose word on who asks counts, and a proxy before Kamailio.
PROXY = "127.0.0.9"
# Where media may go: a test's callers are on this machine, or behind a NAT of it.
TARGETS = ["127.0.0.0/8", "10.213.7.0/24", "192.168.213.0/24"]
# The accounts of phones: baresip's, Linphone's, and two of tests.
ACCOUNTS = {"D": "drop anchor", "E": "ever after", "L": "long ago", "test": "tell nobody", "other": "or else"}
# The account of an exchange, whose callers have names of their own; a room with a name, and one with a PIN.
ACCOUNTS |= {"pbx": "trunk line"}
NAMED, NAME, LOCKED, PIN = 7, "team", 9, "2468"
# The least seconds of a session, and those within which a removed phone may come back.
SHORTEST, REMOVED = 2, 3


def until(condition, seconds=10):
    """How many seconds it takes until something holds, None where it doesn't."""
    begun = time.monotonic()
    while not condition():
        if time.monotonic() - begun > seconds:
            return None
        time.sleep(0.05)
    return time.monotonic() - begun


def own_ports():
    """Ports that no other check's rtpengine has, and what holds them: a socket of TCP at the first of them."""
    for low in PORTS:
        with contextlib.suppress(OSError):
            return low, socket.create_server(("127.0.0.1", low))
    fail(f"other checks have all ports from {PORTS.start} to {PORTS.stop - 1}")


class Parts:
    """rtpengine, Kamailio and an agent, on ports of their own."""

    def __init__(
        self,
        folder,
        udp,
        tcp,
        control=None,
        first_member=1000,
        fleet=None,
        outside="127.0.0.1",
        bridge_ip="127.0.0.1",
        phones=(),
        away=AWAY,
        pictures=3,
        desk_page=None,
        key="",
        turn=None,
    ):
        self.folder, self.running, self.pictures = folder, {}, pictures
        stream, datagram = socket.SOCK_STREAM, socket.SOCK_DGRAM
        self.page_port, self.phones_port, self.sip_port = free_port(stream), free_port(stream), free_port(datagram)
        self.control, self.keys = control or free_port(datagram), free_port(datagram)
        self.engine = Rtpengine(("127.0.0.1", self.control))
        self.page, self.path = f"http://127.0.0.1:{self.page_port}", folder / f"gateway{first_member}.toml"
        # The page and SIP as callers see them who aren't on this machine.
        self.far_page, self.sip = f"http://{outside}:{self.page_port}", f"{outside}:{self.sip_port}"
        self.low, self.holds = own_ports() if control is None else (PORTS.start, None)
        tables = {
            "bridge": {"udp": f"{bridge_ip}:{udp}", "tcp": f"127.0.0.1:{tcp}", "page": ""},
            "rtpengine": {
                "control": f"127.0.0.1:{self.control}",
                "keys": f"127.0.0.1:{self.keys}",
                "bridge": "127.0.0.1",
                "outside": outside,
                "ports": [self.low, self.low + EACH - 1],
                "threads": THREADS,
            },
            "page": {
                "listen": f"0.0.0.0:{self.page_port}",
                "sites": [self.page, self.far_page],
                "proxies": [PROXY],
            },
            "phones": {
                "listen": self.sip,
                "agent": f"127.0.0.1:{self.phones_port}",
                "targets": TARGETS,
                "proxies": [PROXY],
                "trunks": ["pbx"],
                "shortest_session": SHORTEST,
                **dict(phones),
            },
            "phones.accounts": ACCOUNTS,
            "invitations": {"key": key},
            "turn": turn or {"urls": [], "secret": ""},
            "names": {NAME: NAMED},
            "pins": {str(LOCKED): PIN},
            "calls": {
                "pictures": pictures,
                "open_rooms": fleet is None,
                "first_member": first_member,
                "silence": 6,
                "away": away,
                "phone_silence": SILENCE,
                "removed": REMOVED,
                "most": 20,
            },
        }
        if desk_page:
            tables["bridge"]["page"] = f"127.0.0.1:{desk_page}"
        if fleet:
            tables["fleet"] = {"agent": fleet}
        # A value of JSON is one of TOML too, as far as texts, numbers, truth and lists go.
        lines = [
            f"[{name}]\n" + "".join(f"{key} = {json.dumps(value)}\n" for key, value in table.items())
            for name, table in tables.items()
        ]
        self.path.write_text("".join(lines))

    def log(self, part):
        """What a part has said."""
        return (self.folder / f"{part}{self.page_port}.log").read_text()

    def start(self, part):
        log = (self.folder / f"{part}{self.page_port}.log").open("a")
        words = [sys.executable, "-B", GATEWAY, part, self.path]
        more = {"stdin": subprocess.DEVNULL, "stdout": log, "stderr": log}
        # Kamailio is several processes, of which a kill has to end all.
        self.running[part] = subprocess.Popen(words, start_new_session=part == "kamailio", **more)
        is_up = {"agent": self.serves, "rtpengine": self.pings, "kamailio": self.takes_calls}[part]
        with within(MOST, f"{part} to answer"):
            if until(is_up, MOST) is None:
                fail(f"{part} doesn't answer after {MOST} s")

    def stop(self, part, by=signal.SIGTERM):
        one = self.running.pop(part)
        if part == "kamailio" and by == signal.SIGKILL:
            os.killpg(one.pid, by)
        else:
            one.send_signal(by)
        ended(one, 30)

    def close(self):
        for part in list(self.running):
            self.stop(part, signal.SIGKILL if part == "rtpengine" else signal.SIGTERM)
        if self.holds:
            self.holds.close()

    def serves(self):
        """Whether the agent's two ports take connections."""
        for port in self.page_port, self.phones_port:
            try:
                socket.create_connection(("127.0.0.1", port), 1).close()
            except OSError:
                return False
        return True

    def pings(self):
        with contextlib.suppress(Exception):
            return self.engine.ask("ping")
        return False

    def takes_calls(self):
        """Whether Kamailio answers."""
        return asked("OPTIONS", "1", self.sip, "up")

    def calls(self):
        """How many calls rtpengine has."""
        return len(self.engine.ask("list")["calls"])

    def ask(self, path, origin=None, for_phones=False, **words):
        """The status of a request, and what it is answered."""
        return self.post(path, json.dumps(words).encode(), origin, for_phones)

    def post(self, path, octets, origin=None, for_phones=False):
        """The same of a request with this body."""
        port = self.phones_port if for_phones else self.page_port
        request = urllib.request.Request(f"http://127.0.0.1:{port}/{path}", octets, method="POST")
        if not for_phones:
            request.add_header("Origin", origin or self.page)
        try:
            with urllib.request.urlopen(request, timeout=30) as said:
                return said.status, json.load(said)
        except urllib.error.HTTPError as why:
            return why.code, why.read().decode()

    def dialog(self, room="1", user="test", **more):
        """A phone's call that hasn't begun."""
        return Dialog(self.sip, str(room), user, ACCOUNTS.get(user), **more)

    def invite(self, body, room="1"):
        """The status and words of the final answer to a phone's INVITE."""
        one = self.dialog(room)
        answer = one.invite(body)
        one.close()
        return answer.status, answer.first
