"""What the agent serves: the page and its requests to browsers, and calls of phones to Kamailio."""

import http.server
import json
import pathlib
import re
import traceback
import urllib.parse

import invitations
from body import FLAG, ROOM, fields_of, is_text, text, whole
from bounded import SECONDS, Bounded
from desk import GONE
from invitations import INVITATION
from refused import FAILED, Refused

FOLDER = pathlib.Path(__file__).parent
FILES = {"/": ("join.html", "text/html")}
SCRIPTS = "devices.js", "join.js", "losses.js", "room.js", "screen.js", "way.js"
FILES |= {f"/{name}": (name, "text/javascript") for name in SCRIPTS}
# The page takes nothing from elsewhere, and no other page shows it in a frame. In a fleet it asks the other gateways.
POLICY = "default-src 'self'; connect-src 'self' {}; style-src 'self' 'unsafe-inline'; frame-ancestors 'none'"


# How many octets of a body are read.
MOST_OCTETS = 100_000
# What names a call; a name, of which the first 40 characters are shown; and a session description.
ID, NAME, SDP = text(200), text(200), text(50_000)
# What a page shows of the call that it was in before.
AGAIN = "a member, its mix and its key", lambda one: (
    isinstance(one, dict) and all(type(one.get(key)) is int for key in ("member", "mix")) and is_text(one.get("key"))
)


class Handler(http.server.BaseHTTPRequestHandler):
    """`served` gives it the calls, the watch, and `sites`, the origins that may ask, by whose names it may be asked.

    Its REQUESTS are by path: the fields that a body must have, and those that it may have.
    """

    # Whether who asks may come again by itself.
    is_for_pages = False
    protocol_version = "HTTP/1.1"
    server_version, sys_version = "confbridge", ""
    timeout = SECONDS

    def do_POST(self):
        size = self.headers.get("Content-Length", "")
        fits = re.fullmatch("[0-9]{1,6}", size) and int(size) <= MOST_OCTETS
        octets = self.rfile.read(int(size)) if fits else None
        try:
            with self.server.at_work(self.request):
                told = 200, "application/json", json.dumps(self.answered(octets))
        except Refused as why:
            told = why.status, "text/plain", str(why)
            if why.again and self.is_for_pages:
                words = {"words": str(why), "again": True, "page": why.page}
                told = why.status, "application/json", json.dumps(words)
        except Exception:
            # The fault is for the log alone.
            traceback.print_exc()
            told = 500, "text/plain", FAILED
        # Who asks may want it closed (RFC 9112 section 9.6).
        self.close_connection = self.close_connection or told[0] != 200
        self.reply(*told)

    def answered(self, octets):
        """What a request with this body is answered, which is None where it isn't read."""
        path = self.path.strip("/")
        if octets is None:
            raise Refused(f"A request has a Content-Length of at most {MOST_OCTETS}.", 413)
        if self.headers.get("Origin") not in self.sites:
            raise Refused(f"A page of another site asks to join. Open {self.sites[0]}/ itself.", 403)
        if path not in self.REQUESTS:
            raise Refused(f"There is no request /{path[:40]}.", 404)
        return self.carried_out(path, fields_of(octets, *self.REQUESTS[path]))

    def is_by_its_name(self):
        """Whether it is asked by a name of its own: that of a site, or its own address. A web site may give a name of
        its own this address, and would read what is answered."""
        names = [urllib.parse.urlsplit(site).netloc for site in self.sites if site]
        return self.headers.get("Host") in [*names, "{}:{}".format(*self.server.server_address)]

    def reply(self, status, kind, text):
        self.send_response(status)
        self.send_header("Content-Type", f"{kind}; charset=utf-8")
        self.send_header("Content-Length", str(len(text.encode())))
        if self.close_connection:
            self.send_header("Connection", "close")
        self.send_header("Cache-Control", "no-store")
        self.send_header("Content-Security-Policy", POLICY.format(" ".join(filter(None, self.sites))))
        if self.headers.get("Origin") in [one for one in self.sites if one]:
            # A page of another gateway, which this one's settings name.
            self.send_header("Access-Control-Allow-Origin", self.headers["Origin"])
        self.end_headers()
        self.wfile.write(text.encode())

    def log_message(self, *_):
        pass


RESTARTED = "The gateway has been restarted. Press Join to come back."


class ForBrowsers(Handler):
    is_for_pages = True
    # Web servers before this one, whose word counts on who asks.
    proxies = ()
    REQUESTS = {
        "offer": [{"room": ROOM, "name": NAME}, {"again": AGAIN, "invitation": INVITATION}],
        "answer": [{"id": ID, "sdp": SDP}],
        "state": [{"id": ID}, {"loses": FLAG}],
        "restart": [{"id": ID, "sdp": SDP}],
        "mute": [{"id": ID, "muted": FLAG}],
        "screen": [{"id": ID, "shown": FLAG}],
        "turn": [{"id": ID, "page": whole(99)}],
        "leave": [{"id": ID}],
    }

    def do_GET(self):
        file, kind = FILES.get(self.path.partition("?")[0], (None, None))
        if not self.is_by_its_name():
            self.reply(403, "text/plain", f"This page has another name. Open {self.sites[0]}/ itself.")
        elif file:
            self.reply(200, kind, (FOLDER / file).read_text())
        else:
            self.reply(404, "text/plain", "There is no such page.")

    def carried_out(self, path, words):
        if path == "offer":
            return self.offered(words)
        call = self.calls.pages.get(words["id"])
        if call is None and self.calls.seen.version < 0:
            # The calls of an agent before this one aren't taken up yet.
            raise Refused(GONE)
        if call is None:
            raise Refused(*self.calls.ended.get(words["id"], (RESTARTED, 410, True)))
        if path == "answer":
            return self.calls.answer(call, words["sdp"])
        if path == "restart":
            return self.calls.restart(call, words["sdp"])
        if path == "mute":
            return self.calls.page_mutes(call, words["muted"])
        if path == "screen":
            return self.calls.shares_screen(call, words["shown"])
        if path == "turn":
            return self.calls.pictures.turn(call, words["page"])
        if path == "state":
            if words.get("loses"):
                self.calls.pictures.spare(call)
            return self.watch.state(call)
        return self.calls.end(call, "It pressed Leave.")

    def offered(self, words):
        """The offer for a page. Where there is a key, who isn't a member already shows an invitation."""
        again, invitation, key = words.get("again"), words.get("invitation"), self.calls.key
        role = None
        if key and again is None:
            invitations.demand(key, invitation, words["room"])
            role = invitation["role"]
            words["name"] = invitation["name"] or words["name"]
        room = room_of(words, self.calls.names)
        return self.calls.offer(room, words["name"], self.source(), again, role)

    def source(self):
        """The address of who asks."""
        ip = self.client_address[0]
        # A web server appends the address from which it was asked.
        told = self.headers.get_all("X-Forwarded-For", [])[-1:] if ip in self.proxies else []
        return told[0].rpartition(",")[2].strip() if told else ip


# Tags of the gateway.
TAGS = "texts", lambda one: isinstance(one, list) and all(map(is_text, one))
# What Kamailio keeps of calls, by these tags.
KEPT = "objects by their tags", lambda one: (
    isinstance(one, dict) and all(is_text(tag) and isinstance(each, dict) for tag, each in one.items())
)
# What a dialog is (RFC 3261 section 12): its Call-ID, the phone's tag and the gateway's.
DIALOG = {"call": ID, "from": ID, "to": ID}


class ForKamailio(Handler):
    # Kamailio has no origin, and each page of a browser has one.
    sites = [None]
    REQUESTS = {
        "phone": [DIALOG | {"room": ROOM, "name": NAME, "source": NAME, "sdp": SDP}, {"account": NAME}],
        "again": [DIALOG | {"source": NAME, "sdp": SDP}, {"account": NAME}],
        "hang-up": [DIALOG],
        "over": [{"tags": TAGS}, {"dialogs": KEPT}],
        "dialogs": [{}],
    }

    def carried_out(self, path, words):
        if path == "phone":
            return self.calls.phone(room_of(words, self.calls.names), words)
        if path == "over":
            return self.calls.over(words["tags"], words.get("dialogs", {}))
        if path == "dialogs":
            return self.calls.dialogs()
        call = self.calls.of_phone(words)
        return self.calls.offers_again(call, words) if path == "again" else self.calls.hang_up(call)


def room_of(words, names):
    """A room by its number, or by a name that the settings give it."""
    room = str(names.get(str(words["room"]).lower(), words["room"]))
    if not re.fullmatch("[0-9]{1,9}", room):
        raise Refused("A room is a number of at most nine digits.", 404)
    return int(room)


def served(handler, address, **parts):
    """A server that runs."""
    server = Bounded(address, type(handler.__name__, (handler,), parts))
    server.serve()
    return server
