"""The HTTP server of an agent: who may ask it. How many at once, and for how long, is as at the gateway's agent.

A connection has one request. Nothing is done that isn't signed by the fleet's secret.
"""

import hmac
import http.server
import json
import re
import threading
import time
import traceback
import urllib.parse

from body import fields_of
from bounded import SECONDS, Bounded
from fleet_secret import signature
from printable import printable
from refused import FAILED, Refused

# How many octets a request's head and body have at most.
MOST_OF_HEAD, MOST_OCTETS = 16_384, 100_000
# By how many seconds the clocks of two machines may differ.
SKEW = 30
AUTHORIZATION = re.compile("Fleet ([0-9]{1,20}) ([0-9a-f]{64})")


class Signatures:
    """Those of one secret. Each request counts once."""

    def __init__(self, secret):
        self.secret, self.lock, self.seen = secret, threading.Lock(), {}

    def refusal(self, method, host, path, body, authorization):
        """Why a request doesn't count, None where it does."""
        found = AUTHORIZATION.fullmatch(authorization)
        if not found:
            return "An agent takes requests that are signed by the fleet's secret alone."
        wanted, now = signature(self.secret, method, host, path, found[1], body), time.time()
        if not hmac.compare_digest(wanted, found[2]):
            return "The request is signed by another secret, or for another host."
        if abs(now - int(found[1]) / 1e9) > SKEW:
            return f"The request was signed {SKEW} s ago or more: two clocks differ."
        with self.lock:
            while self.seen and next(iter(self.seen.values())) < now:
                del self.seen[next(iter(self.seen))]
            if wanted in self.seen:
                return "The request has come before."
            self.seen[wanted] = now + 2 * SKEW
        return None


class Server(Bounded):
    """A server that hands some connections over to those who tell of what happens."""

    def __init__(self, *given):
        self.handed = set()
        super().__init__(*given)

    def shutdown_request(self, request):
        if request in self.handed:
            self.handed.discard(request)
        else:
            super().shutdown_request(request)


class Followed:
    """The answer to who wants to be told of a room, or of all (None), as long as the connection lasts."""

    def __init__(self, room):
        self.room = room


class Head:
    """What a connection says, up to a bound."""

    def __init__(self, file):
        self.file, self.left = file, MOST_OF_HEAD

    def readline(self, most):
        line = self.file.readline(min(most, self.left))
        self.left -= len(line)
        return line

    def read(self, size):
        return self.file.read(size)

    def close(self):
        self.file.close()


class Handler(http.server.BaseHTTPRequestHandler):
    """`served` gives it `signatures`, `followers`, and `hosts`, the names by which others know the agent.

    Its REQUESTS are by path: the fields that a body must have, and those that it may have.
    """

    protocol_version = "HTTP/1.1"
    server_version, sys_version = "confbridge", ""
    timeout = SECONDS

    def setup(self):
        super().setup()
        self.rfile = Head(self.rfile)

    def handle(self):
        self.close_connection = True
        self.handle_one_request()

    def do_GET(self):
        self.tell(b"")

    def do_POST(self):
        size = self.headers.get("Content-Length", "")
        fits = re.fullmatch("[0-9]{1,6}", size) and int(size) <= MOST_OCTETS
        self.tell(self.rfile.read(int(size)) if fits else None)

    def tell(self, octets):
        """Answers a request with this body, which is None where it isn't read."""
        try:
            indent = 1 if self.command == "GET" else None
            with self.server.at_work(self.request):
                said = self.answered(octets)
            if isinstance(said, Followed):
                self.follow(said.room)
                return
            told = 200, "application/json", json.dumps(said, indent=indent) + "\n"
        except Refused as why:
            told = why.status, "text/plain", printable(str(why))
        except Exception:
            # The fault is for the log alone.
            traceback.print_exc()
            told = 500, "text/plain", FAILED
        self.reply(*told)

    def follow(self, room):
        """Hands the connection over."""
        if not self.followers.fits():
            raise Refused("This agent tells as many as it may. Ask another one.")
        self.server.handed.add(self.request)
        self.followers.add(self.request, room)

    def answered(self, octets):
        if octets is None:
            raise Refused(f"A request has a Content-Length of at most {MOST_OCTETS}.", 413)
        host = self.headers.get("Host", "")
        if host not in self.hosts:
            raise Refused("The request names another host than this agent's.", 421)
        if "Origin" in self.headers:
            raise Refused("A page of a browser asks. An agent answers none.", 403)
        words = self.headers.get("Authorization", "")
        refusal = self.signatures.refusal(self.command, host, self.path, octets, words)
        if refusal:
            raise Refused(refusal, 401)
        path, _, query = self.path.strip("/").partition("?")
        if self.command == "GET":
            return self.questioned(path, dict(urllib.parse.parse_qsl(query, keep_blank_values=True)))
        if path not in self.REQUESTS:
            raise Refused(f"There is no request /{path[:40]}.", 404)
        return self.carried_out(path, fields_of(octets, *self.REQUESTS[path]))

    def reply(self, status, kind, text):
        self.send_response(status)
        self.send_header("Content-Type", f"{kind}; charset=utf-8")
        self.send_header("Content-Length", str(len(text.encode())))
        self.send_header("Cache-Control", "no-store")
        self.send_header("Connection", "close")
        self.end_headers()
        self.wfile.write(text.encode())

    def log_message(self, *_):
        pass


def served(handler, address, **parts):
    """A server that runs."""
    server = Server(address, type(handler.__name__, (handler,), parts))
    server.serve()
    return server
