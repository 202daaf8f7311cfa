"""An exchange (PBX) at the gateway, whose part SIPp plays, and phones that don't call over UDP."""

import socket
import ssl
import subprocess
import time

from lab.gateway_call.dialogs import Answer, Dialog
from lab.gateway_call.parts import ACCOUNTS, SHORTEST, Parts
from lab.gateway_call.refusals import offer_of, port_in
from lab.gateway_call.sipps import Sipp, sdp
from lab.gateway_call.trial import Trial
from operators.serving import free_port

# A session's seconds in these scenarios, and what an exchange says of sessions.
SESSION = 2 * SHORTEST
TIMER, ITSELF = "Supported: timer", f"Session-Expires: {SESSION};refresher=uac"
# One that the gateway refreshes, after half of it.
GATEWAY = "Session-Expires: 16;refresher=uas"


class StreamDialog(Dialog):
    """A call over a connection, of TCP or TLS."""

    def __init__(self, address, way, context=None, **more):
        super().__init__(address, **more)
        ip, _, port = address.partition(":")
        one = socket.create_connection((ip, int(port)), 10)
        self.way, self.stream = way, context.wrap_socket(one, server_hostname="localhost") if context else one
        self.had = b""

    def send(self, method, body="", seconds=5, one=None, more=(), tag=None, hops=70):
        self.tell_stream(method, body, more, tag, hops)
        while (answer := Answer(self.next(seconds))).text and (answer.status < 200 or answer.count != self.count):
            pass
        return answer

    def tell_stream(self, method, body="", more=(), tag=None, hops=70):
        text = self.text(method, body, self.stream, more, tag, hops)
        text = text.replace("SIP/2.0/UDP", f"SIP/2.0/{self.way.upper()}")
        self.stream.sendall(text.encode())

    def next(self, seconds):
        """The next message that comes, or nothing."""
        self.stream.settimeout(seconds)
        try:
            while True:
                head, end, rest = self.had.partition(b"\r\n\r\n")
                lines = [one for one in head.split(b"\r\n") if one.lower().startswith(b"content-length:")]
                length = int(lines[0].split(b":")[1]) if lines else 0
                if end and len(rest) >= length:
                    self.had = rest[length:]
                    return (head + end + rest[:length]).decode()
                octets = self.stream.recv(65536)
                if not octets:
                    return ""
                self.had += octets
        except OSError:
            return ""

    def tell(self, method, body="", one=None):
        self.tell_stream(method, body)

    def close(self):
        self.stream.close()
        super().close()


class Trunks(Trial):
    """The steps of exchanges."""

    def try_trunk(self):
        """Calls of an exchange: its callers have names of their own, it holds calls, and refreshes its sessions."""
        sound = self.sound(4100)
        one = Sipp(self.parts, self.folder, 1, "pbx", caller="4930123")
        hold, again = sdp(sound.port, more=["a=sendonly"]), sdp(sound.port)
        one.asks("INVITE", again, more=[TIMER, f"Session-Expires: {SESSION + 6};refresher=uac"])
        one.waits(3).asks("INVITE", hold, more=[TIMER, f"Session-Expires: {SESSION + 6};refresher=uac"])
        one.waits(2).asks("INVITE", again, more=[TIMER, f"Session-Expires: {SESSION};refresher=uac"])
        for _ in range(3):
            one.waits(SESSION - 1.5).asks("UPDATE", more=[TIMER, ITSELF])
        self.ringing(one.gets("BYE", 20).waits(1), sound)
        self.is_in(4100)
        page = self.parts.ask("offer", room=1, name="page")[1]
        begun = time.monotonic()
        self.ends(one, "an exchange refreshes its session three times, and then not", 60)
        print(f"      after {time.monotonic() - begun:.1f} s")
        said = [text for text in one.messages("received") if text.startswith("SIP/2.0 200") and "INVITE\n" in text]
        good = all("Session-Expires: " in text and "Require: timer" in text for text in said)
        self.check(len(said) == 3 and good, "each answer has its session, and no 200 comes twice", one.said())
        self.check("a=recvonly" in said[1] and "a=sendrecv" in said[2], "it holds the call, and takes it up", said[1:])
        count = one.counts("SIP/2.0 200", "UPDATE"), one.counts("BYE ")
        self.check(count == (3, 1), "three UPDATEs are answered, and one BYE comes", count)
        self.check("phone '4930123'" in self.parts.log("agent"), "its caller has a name of its own")
        self.parts.ask("leave", id=page["id"])
        sound.close()
        self.comes(lambda: not self.rows(), "the call is over", self.rows)
        self.is_removed_from_trunk()

    def is_removed_from_trunk(self):
        """The gateway refreshes a session where it is asked to, until an operator removes the caller."""
        sound = self.sound(4101)
        one = Sipp(self.parts, self.folder, 1, "pbx", caller="4930124")
        one.asks("INVITE", sdp(sound.port), more=[TIMER, GATEWAY, "Allow: INVITE, ACK, BYE, UPDATE"])
        one.gets("UPDATE", 20).gets("UPDATE", 20)
        self.ringing(one.gets("BYE", 20).waits(1), sound)
        self.is_in(4101)
        self.comes(lambda: one.counts("UPDATE ") == 2, "the gateway refreshes a session", one.said, 30)
        self.do(f"remove-member {self.last_member()}")
        self.ends(one, "an operator removes the caller")
        count = one.counts("UPDATE "), one.counts("BYE ")
        self.check(count == (2, 1), "two UPDATEs and one BYE come", count)
        numbers = [int(text.split("CSeq: ")[1].split()[0]) for text in one.messages("received") if "CSeq" in text]
        sent = [number for number, first in zip(numbers, one.firsts()) if first in ("UPDATE", "BYE")]
        self.check(sent == sorted(set(sent)), "each with a number above the one before", sent)
        sound.close()

    def try_requires(self):
        """What an INVITE requires that the gateway doesn't have, and a session that is too short."""
        one = Sipp(self.parts, self.folder)
        one.send("INVITE", sdp(9), ["Require: 100rel, timer"]).takes(420).send("ACK", branch="branch-3")
        one.send("INVITE", sdp(9), ["Session-Expires: 1", TIMER]).takes(422).send("ACK", branch="branch-3")
        one.send("UPDATE").takes(481)
        self.others.append(one.run())
        self.ends(one, "an INVITE requires 100rel, or a session of a second")
        text = "\n".join(one.messages("received"))
        good = "Unsupported: 100rel\n" in text and f"Min-SE: {SHORTEST}\n" in text
        self.check(good, "each is told why", one.said())

    def try_transfers(self):
        """A phone that wants its call handed over (REFER, RFC 3515) is told what there is, and stays in its call."""
        sound = self.sound(4062)
        one = self.sipp(sound).waits(3).asks("REFER", status=405, more=["Refer-To: <sip:2@127.0.0.1>"])
        self.ringing(one.waits(3).asks("BYE").waits(1), sound)
        self.is_in(4062)
        self.comes(lambda: one.counts("SIP/2.0 405", "REFER"), "a REFER is refused by 405", one.said, 20)
        said = next((each for each in one.messages("received") if each.startswith("SIP/2.0 405")), "")
        allow = next((line for line in said.split("\n") if line.startswith("Allow: ")), "")
        self.check("INVITE" in allow and "REFER" not in allow, "which lists what there is", said)
        self.check("source 4062 " in " ".join(self.rows()), "and its call goes on", self.rows())
        self.ends(one, "it hangs up")
        sound.close()

    def try_ways(self):
        """TCP and TLS, where the settings have them. A BYE comes by the connection of the call."""
        key, certificate = (self.folder / f"gateway.{one}" for one in ("key", "pem"))
        words = ["openssl", "req", "-x509", "-newkey", "rsa:2048", "-nodes", "-days", "2", "-subj", "/CN=localhost"]
        more = ["-addext", "subjectAltName=DNS:localhost", "-keyout", key, "-out", certificate]
        subprocess.run([*words, *more], check=True, capture_output=True)
        tcp, tls = (f"127.0.0.1:{free_port(socket.SOCK_STREAM)}" for _ in range(2))
        own = {"tcp": tcp, "tls": tls, "certificate": str(certificate), "key": str(key)}
        parts = Parts(self.folder, self.udp, self.tcp, self.parts.control, first_member=700_000, phones=own)
        self.others.append(parts)
        refused = lambda address: socket.socket().connect_ex(("127.0.0.1", int(address.rpartition(":")[2]))) != 0
        self.check(refused(self.parts.sip), "without settings nothing takes SIP over TCP")
        for part in "agent", "kamailio":
            parts.start(part)
        sound = self.sound(4110)
        one = Sipp(parts, self.folder, transport="t1", address=tcp).asks("INVITE", sdp(sound.port))
        self.ringing(one.gets("BYE", 30).waits(1), sound)
        self.is_in(4110)
        self.do(f"remove-member {self.last_member()}")
        self.ends(one, "an operator removes a phone that calls over TCP")
        self.check(one.counts("BYE ") == 1, "one BYE comes", one.said())
        sound.close()
        context = ssl.create_default_context(cafile=str(certificate))
        sound = self.sound(4111)
        phone = StreamDialog(tls, "tls", context, password=ACCOUNTS["test"])
        said = phone.invite(offer_of([f"m=audio {sound.port} RTP/AVP 0"]))
        self.check(said.status == 200 and ";transport=tls>" in said.text, "a phone calls over TLS", said.text)
        sound.to = port_in(said.body) if said.status == 200 else None
        self.is_in(4111)
        self.do(f"remove-member {self.last_member()}")
        bye = phone.next(20)
        self.check(bye.startswith("BYE "), "an operator removes it: a BYE comes by TLS", bye)
        another = phone.next(2)
        self.check(not another, "and no second one", another)
        bare = ssl.create_default_context(cafile=str(certificate))
        bare.minimum_version = bare.maximum_version = ssl.TLSVersion.TLSv1_1
        try:
            StreamDialog(tls, "tls", bare).close()
            is_old = True
        except OSError:
            is_old = False
        self.check(not is_old, "TLS 1.1 is refused")
        phone.close()
        sound.close()
        self.comes(lambda: not self.rows(), "their room ends", self.rows, 20)
        parts.close()
