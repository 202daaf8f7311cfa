"""Phones of a few lines that hold calls over UDP (SIP, RFC 3261), give passwords, and say what no phone should."""

import hashlib
import re
import secrets
import socket

from operators.shared import fail


class Answer:
    """What a request is answered: its status, all its text, its To tag and its body."""

    def __init__(self, text=""):
        self.text = text
        head, _, self.body = text.partition("\r\n\r\n")
        self.first = head.partition("\r\n")[0].removeprefix("SIP/2.0 ") or "408 No answer"
        # A request that comes is none.
        self.status = int(self.first[:3]) if self.first[:3].isdigit() else 0
        tag = re.search(r"^To:.*;tag=(\S+)", head, re.MULTILINE)
        self.tag = tag[1] if tag else None
        count = re.search(r"^CSeq: (\d+)", head, re.MULTILINE)
        self.count = int(count[1]) if count else None

    def challenge(self):
        """What it asks a password for: the realm and the nonce."""
        found = dict(re.findall(r'(realm|nonce)="([^"]*)"', self.text))
        if len(found) < 2:
            fail(f"no password is asked for: {self.first}")
        return found["realm"], found["nonce"]


class Dialog:
    """A call of a phone: its requests, each from the phone's own socket unless another one is given."""

    def __init__(self, address, room="1", user="test", password=None, ip="127.0.0.1", call=None):
        self.address, self.room, self.user, self.password = address, room, user, password
        self.socket = socket_at(ip)
        self.call, self.own, self.tag = call or secrets.token_hex(8), secrets.token_hex(4), None
        self.count = 0

    def ask(self, method, body="", seconds=5, one=None, more=(), tag=None, hops=70):
        """The final answer to a request. Its password is given where it is asked for, if the phone has one."""
        answer = self.send(method, body, seconds, one, more, tag, hops)
        if answer.status in (401, 407) and self.password:
            more = [*more, self.credentials(method, *answer.challenge())]
            answer = self.send(method, body, seconds, one, more, tag, hops)
        return answer

    def uri(self):
        return f"sip:{self.room}@{self.address}"

    def credentials(self, method, realm, nonce):
        """The header by which the password answers a challenge (RFC 2617 section 3.2.2)."""
        of = lambda *words: hashlib.md5(":".join(words).encode()).hexdigest()
        count, own = "00000001", secrets.token_hex(4)
        said = of(of(self.user, realm, self.password), nonce, count, own, "auth", of(method, self.uri()))
        words = f'username="{self.user}", realm="{realm}", nonce="{nonce}", uri="{self.uri()}", response="{said}"'
        return f'Proxy-Authorization: Digest {words}, algorithm=MD5, qop=auth, nc={count}, cnonce="{own}"'

    def text(self, method, body, one, more, tag, hops):
        ip, port = one.getsockname()
        self.count += method != "ACK"
        to = tag or self.tag
        lines = [f"{method} {self.uri()} SIP/2.0", f"Via: SIP/2.0/UDP {ip}:{port};branch=z9hG4bK{secrets.token_hex(8)}"]
        lines += [f"From: <sip:{self.user}@127.0.0.1>;tag={self.own}"]
        lines += [f"To: <{self.uri()}>{f';tag={to}' if to else ''}"]
        lines += [f"Call-ID: {self.call}", f"CSeq: {self.count} {method}", f"Max-Forwards: {hops}"]
        lines += [f"Contact: <sip:{self.user}@{ip}:{port}>", *more]
        lines += ["Content-Type: application/sdp"] * bool(body)
        return "\r\n".join([*lines, f"Content-Length: {len(body)}", "", body])

    def send(self, method, body="", seconds=5, one=None, more=(), tag=None, hops=70):
        """The final answer to one request, of status 408 where there is none in time."""
        one = one or self.socket
        ip, _, port = self.address.partition(":")
        one.settimeout(seconds)
        one.sendto(self.text(method, body, one, more, tag, hops).encode(), (ip, int(port)))
        try:
            while (answer := Answer(one.recv(65536).decode())).status < 200 or answer.count != self.count:
                pass
        except OSError:
            return Answer()
        return answer

    def invite(self, body, **more):
        """Begins the call, or offers again, and confirms an answer."""
        answer = self.ask("INVITE", body, 20, **more)
        if answer.status == 200:
            self.tag = answer.tag
            self.tell("ACK")
        return answer

    def tell(self, method, body="", one=None):
        """A request that nobody answers."""
        ip, _, port = self.address.partition(":")
        (one or self.socket).sendto(
            self.text(method, body, one or self.socket, (), None, 70).encode(), (ip, int(port))
        )

    def close(self):
        self.socket.close()


def socket_at(ip):
    one = socket.socket(socket.AF_INET, socket.SOCK_DGRAM)
    one.bind((ip, 0))
    return one
