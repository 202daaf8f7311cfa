"""A page whose network lets nothing out but TLS: it joins by a TURN server, which is coturn."""

import socket
import subprocess
import time

from lab.gateway_call.parts import EACH, Parts, own_ports
from lab.gateway_call.trial import Trial
from operators.serving import free_port

# The secret of the agent and of the server, and one that the server doesn't have.
SECRET, WRONG = "a secret of a test", "a secret of nobody"
# For how many seconds the server is down in mid-call: then a browser has made more sound than rtpengine reads at once.
DOWN = 6
CURVE = "-newkey", "ec", "-pkeyopt", "ec_paramgen_curve:prime256v1"
# A page that may use relays alone.
RELAYED = """RTCPeerConnection = class extends RTCPeerConnection {
  constructor(how) { super({ ...how, iceTransportPolicy: "relay" }); }
  setConfiguration(how) { super.setConfiguration({ ...how, iceTransportPolicy: "relay" }); }
}; true"""
# By what the connection's media go.
PAIR = """call.peer.getStats().then(all => {
  const one = [...all.values()], transport = one.find(each => each.type === "transport");
  const pair = transport && all.get(transport.selectedCandidatePairId), own = pair && all.get(pair.localCandidateId);
  return own ? [own.candidateType, own.relayProtocol] : null;
})"""


# How many packets of sound the page has sent, and how many it makes a second.
SENT = """call.peer.getStats().then(all =>
  [...all.values()].find(one => one.type === "outbound-rtp" && one.kind === "audio").packetsSent)"""
A_SECOND = 50


class Turning(Trial):
    """The step of such a page."""

    def coturn(self, port):
        """Starts a server that speaks TLS, with a certificate that nobody has signed."""
        names = ["-keyout", self.folder / "turn.key", "-out", self.folder / "turn.pem", "-subj", "/CN=127.0.0.1"]
        made = ["openssl", "req", "-x509", *CURVE, "-nodes", "-days", "2", *names]
        subprocess.run(made, check=True, capture_output=True, timeout=60)
        words = ["turnserver", "-n", f"--tls-listening-port={port}", "--no-udp", "--no-tcp", "--no-dtls", "--no-cli"]
        words += ["--use-auth-secret", f"--static-auth-secret={SECRET}", "--realm=test", "--allow-loopback-peers"]
        words += ["--listening-ip=127.0.0.1", "--relay-ip=127.0.0.1"]
        words += [f"--min-port={self.relays}", f"--max-port={self.relays + EACH - 1}"]
        words += [f"--cert={self.folder / 'turn.pem'}", f"--pkey={self.folder / 'turn.key'}", "--log-file=stdout"]
        words += [f"--pidfile={self.folder / 'turn.pid'}", f"--userdb={self.folder / 'turn.db'}"]
        with (self.folder / "turn.log").open("w") as log:
            server = subprocess.Popen(words, stdout=log, stderr=log, stdin=subprocess.DEVNULL)
        server.close = server.kill
        self.others.append(server)
        listens = lambda: socket.socket().connect_ex(("127.0.0.1", port)) == 0
        self.comes(listens, "coturn takes TLS", lambda: (self.folder / "turn.log").read_text()[-500:], 60)
        return server

    def step_turn(self):
        """A page joins by TURN over TLS, and is heard by one that needs none."""
        port, (self.relays, holds) = free_port(socket.SOCK_STREAM), own_ports()
        server = self.coturn(port)
        parts, one = self.relayed(port, 530_000, SECRET)
        way = lambda: one.run(PAIR)
        self.comes(lambda: way() == ["relay", "tls"], "a page joins by TURN over TLS", lambda: (way(), one.says()), 30)
        came = parts.engine.received(one.run("call.id"), "browser").packets
        more = lambda: parts.engine.received(one.run("call.id"), "browser").packets > came + 20
        self.comes(more, "its media come by that", one.says)
        server = self.coturn_ends(server, port, parts, one)
        if not self.args.model:
            self.browser("B", parts.page).join()
            self.everyone_hears("A joins by TURN")
        self.ends(server, parts)
        holds.close()

    def ends(self, server, parts):
        self.close_callers()
        parts.stop("agent")
        server.kill()
        server.wait()

    def coturn_ends(self, server, port, parts, one):
        """The TURN server is killed in mid-call, and started anew: the page restarts ICE by it. The new server."""
        id, before, begun = one.run("call.id"), one.run(SENT), time.monotonic()
        server.kill()
        server.wait()
        self.comes(lambda: "Coming back" in one.says(), "coturn is killed: the page says so", one.says, 30)
        time.sleep(DOWN)
        server = self.coturn(port)
        came = parts.engine.received(one.run("call.id"), "browser").packets
        more = lambda: parts.engine.received(one.run("call.id"), "browser").packets > came + 20
        took = self.comes(more, "it is started anew: the page's media come by it again", one.says, 40)
        print(f"      after {took or 0:.1f} s")
        good = one.run("call.id") == id and one.run(PAIR) == ["relay", "tls"]
        self.check(good, "in the same call", (id, one.run(PAIR), one.says()))
        sent, most = one.run(SENT) - before, A_SECOND * (time.monotonic() - begun - DOWN)
        self.check(sent <= most, "and not what it has heard meanwhile, which would come at once", (sent, most))
        return server

    def relayed(self, port, first_member, secret):
        """A gateway with this secret, and a page of it that may use relays alone."""
        turn = {"urls": [f"turns:127.0.0.1:{port}?transport=tcp"], "secret": secret}
        parts = Parts(self.folder, self.udp, self.tcp, self.parts.control, first_member, turn=turn)
        self.others.append(parts)
        parts.start("agent")
        one = self.browser("A", parts.page, ["--ignore-certificate-errors"])
        one.run(RELAYED)
        return parts, one.join()

    def step_wrong_secret(self):
        """By another secret than the server's it doesn't join."""
        port, (self.relays, holds) = free_port(socket.SOCK_STREAM), own_ports()
        server = self.coturn(port)
        parts, one = self.relayed(port, 540_000, WRONG)
        closed = lambda: "The way to the media server is closed" in one.says()
        self.comes(closed, "by another secret it has no way, and its page says so", one.says, 60)
        self.ends(server, parts)
        holds.close()
