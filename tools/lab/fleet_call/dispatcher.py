"""Kamailio before a fleet: its dispatcher sends a phone's INVITE to the gateway of the room's bridge, and it relays
nothing else to anybody."""

import itertools
import os
import re
import signal
import socket
import subprocess
import sys
import time

from lab.fleet_call.parts import FLEET, begun, ended, secret_file, until
from lab.sip import asked, kamailio_lacks
from operators.serving import Answering, free_port, port_of, udp_socket

# Who sends a flood, and of how many requests; and how many requests an address may send within how many seconds.
FLOODER, FLOOD, DENSE, UNIT = "127.0.0.77", 600, 64, 2
# How many seconds an answer may take, on a machine that has no time for it.
PATIENCE = 30


class Sink(Answering):
    """A gateway's SIP port, which answers each INVITE with its own name, and takes the call where it `takes` calls."""

    def __init__(self, name):
        self.gateway, self.got, self.takes = name, [], False
        super().__init__()

    def answer(self, octets):
        head = octets.decode().split("\r\n\r\n")[0].split("\r\n")
        self.got.append(head[0])
        if not head[0].startswith("INVITE "):
            return None
        kept = [line for line in head if re.match("(Via|From|To|Call-ID|CSeq|Record-Route):", line)]
        kept = [f"{line};tag=2" if line.startswith("To:") else line for line in kept]
        first = f"SIP/2.0 {200 if self.takes else 486} {self.gateway}"
        kept.append(f"Contact: <sip:{self.gateway}@127.0.0.1:{self.port}>")
        return "\r\n".join([first, *kept, "Content-Length: 0", "", ""]).encode()


class Kamailio:
    """Kamailio with the fleet's configuration."""

    def __init__(self, folder, agent):
        self.folder, self.port = folder, free_port(socket.SOCK_DGRAM)
        self.strangers = itertools.cycle(f"127.0.1.{number}" for number in range(1, 200))
        environment = os.environ | {"FLEET_AGENT": f"http://127.0.0.1:{agent}"}
        environment["FLEET_SECRET"] = str(secret_file(folder))
        script = FLEET.with_name("dispatch.py")
        gateways = folder / "dispatcher.list"
        with gateways.open("w") as told:
            subprocess.run([sys.executable, "-B", script], env=environment, stdout=told, check=True)
        words = ["kamailio", "-DD", "-E", "-f", FLEET.with_name("kamailio.cfg"), "-l", f"udp:127.0.0.1:{self.port}"]
        given = {"SCRIPT": f'"{script}"', "GATEWAYS": f'"{gateways}"', "CTL": f'"unix:{folder}/ctl"'}
        words += [word for name, value in given.items() for word in ("-A", f"{name}={value}")]
        self.process = begun([*words, "-w", folder, "-Y", folder], folder / "kamailio.log", environment)

    def invite(self, room, id, seconds=PATIENCE):
        """The first line of the final answer to an INVITE."""
        return asked("INVITE", room, f"127.0.0.1:{self.port}", id, seconds=seconds)

    def close(self):
        ended(self.process, signal.SIGTERM)

    def said(self, first, *more, seconds=PATIENCE, tag="", hops=70):
        """What a stranger is answered to a request with this first line and these further ones. Each is another one, as
        if the address was forged."""
        method = first.split(" ")[0]
        with socket.socket(socket.AF_INET, socket.SOCK_DGRAM) as one:
            one.bind((next(self.strangers), 0))
            one.settimeout(seconds)
            here, id = "{}:{}".format(*one.getsockname()), f"r{time.time_ns()}"
            lines = [f"{first} SIP/2.0", f"Via: SIP/2.0/UDP {here};branch=z9hG4bK{id}", "From: <sip:boss@inside>;tag=1"]
            lines += [f"To: <sip:a@x>{tag}", f"Call-ID: {id}", f"CSeq: 1 {method}", f"Max-Forwards: {hops}", *more]
            lines += [f"Contact: <sip:a@{here}>", "Content-Length: 2", "", "hi"]
            one.sendto("\r\n".join(lines).encode(), ("127.0.0.1", self.port))
            try:
                while (line := one.recv(65536).split(b"\r\n")[0]).startswith(b"SIP/2.0 100"):
                    pass
                return line.decode()
            except OSError:
                return None

    def talks(self, room):
        """Calls a room, and hangs up. The answer to the call."""
        with udp_socket() as one:
            one.settimeout(PATIENCE)
            via, here = f"Via: SIP/2.0/UDP 127.0.0.1:{port_of(one)};branch=z9hG4bK", time.time_ns()
            asks = lambda first, n, to, *more: one.sendto("\r\n".join([
                f"{first} SIP/2.0", f"{via}{here}{n[0]}", "From: <sip:p@x>;tag=1", to, f"Call-ID: t{here}",
                f"CSeq: {n}", "Max-Forwards: 70", f"Contact: <sip:p@127.0.0.1:{port_of(one)}>", *more,
                "Content-Length: 0", "", "",
            ]).encode(), ("127.0.0.1", self.port))  # fmt: skip
            asks(f"INVITE sip:{room}@127.0.0.1:{self.port}", "1 INVITE", f"To: <sip:{room}@x>")
            lines = ["SIP/2.0 1"]
            while lines[0].startswith("SIP/2.0 1"):
                lines = one.recv(65536).decode().split("\r\n")
            header = lambda name: next((line for line in lines if line.startswith(f"{name}:")), f"{name}: ")
            contact, to = header("Contact")[len("Contact: <") : -1], header("To")
            for method, number in ("ACK", 1), ("BYE", 2):
                asks(f"{method} {contact}", f"{number} {method}", to, header("Record-Route").removeprefix("Record-"))
        return lines[0]

    def flooded(self):
        """How many of many requests from one address are answered, and in how many seconds they were sent."""
        begun = time.monotonic()
        with socket.socket(socket.AF_INET, socket.SOCK_DGRAM) as one:
            one.bind((FLOODER, 0))
            for at in range(FLOOD):
                here = "{}:{}".format(*one.getsockname())
                lines = [f"OPTIONS sip:x@127.0.0.1:{self.port} SIP/2.0", f"Via: SIP/2.0/UDP {here};branch=z9hG4bKf{at}"]
                lines += ["From: <sip:f@x>;tag=1", "To: <sip:x@x>", f"Call-ID: f{at}", f"CSeq: {at + 1} OPTIONS"]
                lines += ["Max-Forwards: 70", "Content-Length: 0", "", ""]
                one.sendto("\r\n".join(lines).encode(), ("127.0.0.1", self.port))
                time.sleep(0.001)
            count, took, _ = 0, time.monotonic() - begun, one.settimeout(UNIT)
            try:
                while one.recv(65536):
                    count += 1
            except OSError:
                return count, took


class Dispatched:
    """The steps of a fleet's check that have Kamailio before it."""

    def relays_nothing(self, kamailio):
        """A stranger has Kamailio send nothing to an address of his own."""
        victim = self.begun(Sink("victim"))
        there, own = f"127.0.0.1:{victim.port}", f"<sip:127.0.0.1:{kamailio.port};lr>"
        to_victim = f"sip:admin@{there}"
        routes = f"Route: {own}, <sip:{there};lr>", f"Route: <sip:{there};lr>", f"Route: {own}"
        for method in "MESSAGE", "REGISTER", "INVITE", "OPTIONS", "SUBSCRIBE", "BYE", "ACK", "CANCEL":
            for tag in "", ";tag=1":
                for route in routes:
                    kamailio.said(f"{method} {to_victim}", route, tag=tag, seconds=0.02)
                kamailio.said(f"{method} {to_victim}", tag=tag, seconds=0.02)
        gateway = f"127.0.0.1:{self.sinks['a'].port}"
        for uri in f"sip:x@{gateway};maddr=127.0.0.1;transport=tcp", f"sip:x@{there}", "sip:x@localhost":
            kamailio.said(f"BYE {uri}", routes[2], tag=";tag=1", seconds=0.02)
            kamailio.said(f"BYE {uri}", routes[0], tag=";tag=1", seconds=0.02)
        time.sleep(1)
        self.check(not victim.got, "whatever route it names, nothing is relayed to a stranger's address", victim.got)
        for method, route, status in (
            ("INVITE", routes[0], "403"), ("INVITE", routes[2], "403"), ("MESSAGE", routes[1], "403"),
            ("MESSAGE", "X: x", "405"), ("REGISTER", "X: x", "405"), ("OPTIONS", "X: x", "200"),
            ("INVITE", "Expires: never", "400"),
        ):  # fmt: skip
            said = kamailio.said(f"{method} {to_victim}", route)
            text = f"{method} with `{route.replace(there, 'VICTIM').replace(own, 'OWN')}`: {status}"
            self.check(said is not None and said.split(" ")[1] == status, text, said)
        said = kamailio.said(f"INVITE sip:1@127.0.0.1:{kamailio.port}", hops=0)
        self.check(said is not None and " 483 " in said, "a request without hops left: 483", said)
        room, sink = next((room, self.sinks[names[0]]) for room, names in self.places().items())
        sink.takes, sink.got[:] = True, []
        said = kamailio.talks(room)
        # What is within the call names the gateway as its answer has. BYEs of before may still come again.
        within = lambda: {line.split(" ")[0] for line in sink.got if f" sip:{sink.gateway}@" in line}
        goes = lambda: within() == {"ACK", "BYE"}
        self.comes(goes, f"a call is taken and ended: {said}", 10)
        self.check(not victim.got, "and nothing to anybody else", victim.got)
        count, took = kamailio.flooded()
        # A machine that sends them slowly has more of them answered.
        most = DENSE * (took / UNIT + 2)
        words = f"of {FLOOD} requests in {took:.1f} s from one address {count} are answered, and {most:.0f} may be"
        self.check(0 < count <= most, words, count)
        said = kamailio.said(f"OPTIONS sip:x@127.0.0.1:{kamailio.port}")
        self.check(said is not None and " 200 " in said, "and others meanwhile", said)

    def step_dispatcher(self):
        if kamailio_lacks():
            print(f"skipped: Kamailio's dispatcher (there is no {kamailio_lacks()})")
            return
        kamailio = self.begun(Kamailio(self.folder, self.agents["b"].port))
        if until(lambda: kamailio.invite("x", f"first{len(self.parts)}", 2), 40) is None:
            self.check(False, "Kamailio answers", (self.folder / "kamailio.log").read_text()[-1500:])
            return
        before = self.desks(), self.records()
        said = {room: kamailio.invite(room, f"call{room}") for room in self.places()}
        wanted = {room: f"SIP/2.0 486 {names[0]}" for room, names in self.places().items()}
        self.check(said == wanted, f"{len(said)} phones reach the gateways of their rooms' bridges", (said, wanted))
        said = [kamailio.invite(room, f"new{room}") for room in range(300, 316)]
        good = all(one and one.startswith("SIP/2.0 486 ") for one in said)
        self.check(good, "phones that call rooms that aren't there reach a gateway", said)
        self.check((self.desks(), self.records()) == before, "and no INVITE opens a room", before)
        said = kamailio.invite("x", "bad")
        words = "SIP/2.0 404 A room is a number of at most nine digits."
        self.check(said == words, "a phone that calls no room is told so", said)
        self.relays_nothing(kamailio)
