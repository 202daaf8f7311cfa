"""SIPp as a phone or an exchange (PBX): a scenario of steps, and by its trace the messages that it has sent and got."""

import collections
import re
import socket
import subprocess
import time
from xml.sax.saxutils import quoteattr

from lab.gateway_call.parts import ACCOUNTS
from lab.waits import ended
from operators.serving import free_port

NEWLINE, HEAD = "\n", re.compile(r"^-{20,} .*\n\w+ message (sent|received) .*\n\n", re.MULTILINE)
# The lines that all of its requests have. `{branch}` is what tells transactions apart.
LINES = """{method} {goal} SIP/2.0
Via: SIP/2.0/[transport] [local_ip]:[local_port];branch=[{branch}]
From: <sip:{user}@127.0.0.1>;tag=[pid]from[call_number]
To: <sip:{room}@[remote_ip]:[remote_port]>{tag}
Call-ID: [call_id]
CSeq: {count} {method}
Max-Forwards: 70
Contact: <sip:{user}@[local_ip]:[local_port];transport=[transport]>
"""


def sdp(port, types="0", more=()):
    """A description of sound at a port."""
    head = ["v=0", "o=- 1 1 IN IP4 127.0.0.1", "s=-", "c=IN IP4 127.0.0.1", "t=0 0", f"m=audio {port} RTP/AVP {types}"]
    return "\n".join([*head, *more, ""])


def kind_of(text):
    """What a message is: a request's method, or the status and the method of an answer. Nothing of one that is cut."""
    status = re.match(r"SIP/2\.0 (\d+) ", text)
    method = re.search(r"^CSeq: \d+ (\w+)$", text, re.MULTILINE)
    return method and (f"{status[1]} {method[1]}" if status else method[1])


class Sipp:
    """A scenario, step by step, which `run` carries out."""

    def __init__(self, parts, folder, room="1", user="test", transport="u1", address=None, caller=None, by_proxy=False):
        self.parts, self.room, self.user, self.transport = parts, room, user, transport
        # Whether a proxy stands before the gateway, by which each request within the call goes.
        self.by_proxy = by_proxy
        # Who calls by an exchange's account.
        self.caller = caller or user
        self.address, self.password, self.process = address or parts.sip, ACCOUNTS.get(user), None
        self.name, self.count, self.steps, self.is_within = f"{user}{time.monotonic_ns()}", 0, [], False
        self.folder, self.log = folder, folder / f"sipp{self.name}.log"
        # The method that was asked last, and how many messages of each kind have to come.
        self.method, self.due = "", collections.Counter()

    def send(self, method, body="", more=(), branch="branch"):
        self.count += method != "ACK"
        self.method = method
        words = {"method": method, "room": self.room, "user": self.caller, "count": self.count}
        words["branch"] = branch
        is_routed = self.by_proxy and self.is_within
        words["goal"] = "[next_url]" if is_routed else f"sip:{self.room}@[remote_ip]:[remote_port]"
        more = [*more, "[routes]"] if is_routed else more
        head = LINES.format(tag="[peer_tag_param]" if self.is_within else "", **words)
        head += "".join(f"{line}\n" for line in more)
        head += ("Content-Type: application/sdp\n" if body else "") + "Content-Length: [len]\n\n"
        self.steps.append(f"<send><![CDATA[\n{head}{body}{NEWLINE if body else ''}]]></send>")
        return self

    def takes(self, status, **more):
        """An answer that has to come. Others before it are provisional."""
        self.due[f"{status} {self.method}"] += 1
        words = "".join(f" {key}={quoteattr(value)}" for key, value in more.items())
        self.steps.append('<recv response="100" optional="true"/>' * (self.method == "INVITE"))
        words += ' rrs="true"' * (self.by_proxy and status == 200)
        self.steps.append(f'<recv response="{status}"{words} rtd="true"/>')
        return self

    def asks(self, method, body="", status=200, more=(), ack=True):
        """A request with the account's password, and its answer."""
        if method == "INVITE" and self.password:
            self.send(method, body, more).takes(407, auth="true")
            # It has the branch of the INVITE (RFC 3261 section 17.1.1.3), which is three steps before.
            self.send("ACK", branch="branch-3")
        self.send(method, body, [*more, "[authentication]"] if self.password and method == "INVITE" else more)
        self.takes(status)
        self.is_within = self.is_within or (method == "INVITE" and status == 200)
        return self.send("ACK") if method == "INVITE" and ack else self

    def gets(self, method, seconds=30):
        """A request that has to come, which is answered."""
        self.due[method] += 1
        self.steps.append(f'<recv request="{method}" timeout="{seconds * 1000}"/>')
        copied = "".join(f"[last_{name}:]\n" for name in ("Via", "From", "To", "Call-ID", "CSeq"))
        self.steps.append(f"<send><![CDATA[\nSIP/2.0 200 OK\n{copied}Content-Length: 0\n\n]]></send>")
        return self

    def waits(self, seconds):
        self.steps.append(f'<pause milliseconds="{int(seconds * 1000)}"/>')
        return self

    def run(self, seconds=60):
        """Begins the scenario."""
        path = self.folder / f"sipp{self.name}.xml"
        text = "\n".join(self.steps)
        path.write_text(f'<?xml version="1.0" encoding="ISO-8859-1" ?>\n<scenario name="x">\n{text}\n</scenario>\n')
        port = free_port(socket.SOCK_DGRAM)
        words = ["sipp", self.address, "-sf", path, "-m", "1", "-i", "127.0.0.1", "-p", str(port), "-nostdin"]
        words += ["-t", self.transport, "-trace_msg", "-message_file", self.log, "-timeout", f"{seconds}s"]
        words += ["-timeout_error", "-au", self.user, "-ap", self.password or "none"]
        out = (self.folder / f"sipp{self.name}.out").open("w")
        self.process = subprocess.Popen(words, stdin=subprocess.DEVNULL, stdout=out, stderr=out, cwd=self.folder)
        return self

    def is_done(self):
        """Whether all of the scenario came as it says."""
        return self.process.poll() == 0

    def messages(self, way=None):
        """All messages so far, or those of one way: `sent` or `received`."""
        text = self.log.read_text() if self.log.exists() else ""
        pieces = HEAD.split(text.replace("\r", ""))[1:]
        return [one for is_way, one in zip(pieces[::2], pieces[1::2]) if way in (None, is_way)]

    def said(self):
        """The first line of each message, in order."""
        return [one.partition("\n")[0] for one in self.messages()]

    def firsts(self):
        """The first word of each message that came."""
        return [one.split(" ")[0] for one in self.messages("received")]

    def counts(self, first, method=None):
        """How many messages came that begin so, of a method."""
        had = self.messages("received")
        is_of = lambda one: method is None or re.search(rf"^CSeq: \d+ {method}$", one, re.MULTILINE)
        return sum(bool(one.startswith(first) and is_of(one)) for one in had)

    def surplus(self):
        """The messages that came more often than they have to. What it asks anew may be answered anew."""
        anew = collections.Counter()
        for text, count in collections.Counter(self.messages("sent")).items():
            anew[kind_of(text)] += count - 1
        came = collections.Counter(kind for kind in map(kind_of, self.messages("received")) if kind)
        due = {kind: self.due[kind] + anew[kind.partition(" ")[2]] for kind in came}
        return {kind: count for kind, count in came.items() if kind[0] != "1" and count > due[kind]}

    def answer(self, at=-1):
        """The body of one of the answers with sound, the last one if none is named."""
        found = [one for one in self.messages("received") if one.startswith("SIP/2.0 200") and "m=audio" in one]
        return found[at] if found else ""

    def close(self):
        if self.process and self.process.poll() is None:
            self.process.kill()
            ended(self.process)
