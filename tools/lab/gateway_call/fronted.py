"""A phone that calls the gateway by a fleet's Kamailio. A stand-in for the fleet's agent says where rooms are."""

import http.server
import json
import threading
import time

from lab.fleet_call.dispatcher import Kamailio
from lab.gateway_call.parts import until
from lab.gateway_call.phoning import Phoning
from lab.gateway_call.sipps import sdp
from lab.gateway_call.trunks import GATEWAY, TIMER
from operators.serving import Answering


class Heard(Answering):
    """A port of UDP where nothing is to come."""

    def __init__(self):
        self.got = []
        super().__init__()

    def answer(self, octets):
        self.got.append(octets)


class Agent(http.server.ThreadingHTTPServer):
    """A fleet's agent that knows one bridge, whose gateway has all rooms."""

    daemon_threads = True

    def __init__(self, sip):
        told = {"bridges": {"a": {"sip": sip}}, "bridge": "a"}

        class Handler(http.server.BaseHTTPRequestHandler):
            def do_GET(self):
                octets = json.dumps(told).encode()
                self.send_response(200)
                self.send_header("Content-Length", str(len(octets)))
                self.end_headers()
                self.wfile.write(octets)

            def log_message(self, *_):
                pass

        super().__init__(("127.0.0.1", 0), Handler)
        threading.Thread(target=self.serve_forever, daemon=True).start()

    def close(self):
        self.shutdown()
        self.server_close()


class Fronted(Phoning):
    """The step of a phone before which a fleet's Kamailio stands."""

    def try_fleet_proxy(self):
        """A gateway's UPDATE and BYE reach a phone by the fleet's Kamailio, and a stranger's don't."""
        agent = Agent(self.parts.sip)
        kamailio = Kamailio(self.folder, agent.server_address[1])
        self.others += [agent, kamailio]
        if until(lambda: kamailio.said(f"OPTIONS sip:x@127.0.0.1:{kamailio.port}", seconds=1), 40) is None:
            self.check(False, "the fleet's Kamailio answers", (self.folder / "kamailio.log").read_text()[-1500:])
            return
        sound = self.sound(4300)
        more = [TIMER, GATEWAY, "Allow: INVITE, ACK, BYE, UPDATE"]
        words = {"address": f"127.0.0.1:{kamailio.port}", "by_proxy": True}
        one = self.sipp(sound, more=more, **words).gets("UPDATE", 20).gets("BYE", 40).waits(1)
        self.ringing(one, sound)
        self.is_in(4300)
        self.comes(lambda: one.counts("UPDATE "), "a gateway refreshes a session by the fleet's Kamailio", one.said, 30)
        self.is_forged(kamailio, one)
        self.do(f"remove-member {self.last_member()}")
        self.ends(one, "an operator removes a phone behind the fleet's Kamailio")
        self.check(one.counts("BYE ") == 1, "one BYE comes", one.said())
        sound.close()
        self.hangs_up(words)

    def is_forged(self, kamailio, one):
        """Whether routes of a stranger bring nothing to an address of his own, whatever he says of it."""
        victim = Heard()
        self.others.append(victim)
        route = next(line for text in one.messages("received") for line in text.split("\n") if "at=127.0.0.1-" in line)
        own, there = route.partition(": ")[2], f"at=127.0.0.1-{victim.port}-"
        mark = own.partition(";at=")[2].partition("-")[2].partition("-")[2].partition(">")[0].partition(";")[0]
        forged = [f"<sip:127.0.0.1:{kamailio.port};lr;{there}{each}>" for each in (mark, "0" * 32)]
        for method in "BYE", "UPDATE":
            for route in [own, *forged]:
                uri = f"{method} sip:x@127.0.0.1:{victim.port}"
                kamailio.said(uri, f"Route: {route}", tag=";tag=1", seconds=0.1)
        time.sleep(1)
        self.check(not victim.got, "a stranger's routes have nothing sent to an address of his own", victim.got)
        self.check(one.counts("BYE ") == 0, "nor to the phone, though its route be known", one.said())

    def hangs_up(self, words):
        """A phone hangs up by the same way."""
        sound = self.sound(4301)
        one = self.ringing(self.sipp(sound, **words).waits(6).asks("BYE").waits(1), sound)
        self.is_in(4301)
        self.ends(one, "a phone behind it hangs up")
        self.comes(lambda: not self.rows(), "and is a member no more", self.rows, 20)
        self.check(one.counts("BYE ") == 0, "it gets no BYE", one.said())
        sound.close()
