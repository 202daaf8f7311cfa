"""A page without a build: it answers HTTP as desk_page does, over the plain desk of the models in the place of a
bridge."""

import http.server
import json
import os
import pathlib
import secrets
import threading
import time

from checks.make.page import TOKEN, WEB
from checks.newer import newer_call
from operators.models.desk import Log
from operators.models.lines import COMMANDS, TURNS

RESERVED = (
    "show", "groups", "history", "calls", "stats", "levels", "lease", "watch", "as", "why", "help", "quit", "stop",
    "names",
)  # fmt: skip
KINDS = {"js": "text/javascript", "css": "text/css"}
MOST_CALLS, MOST_PAST = 256, 512
LONGEST_NAME = 800
# About how many octets the head of a response has.
HEAD = 500


def is_names(text):
    """Whether a text is a JSON object whose values are names."""
    try:
        found = json.loads(text)
    except ValueError:
        return False
    return (
        isinstance(found, dict)
        and all(isinstance(name, str) and len(name.encode()) <= LONGEST_NAME for name in found.values())
    )


class Standin:
    """A desk and the names."""

    def __init__(self, names=None, text="{}"):
        self.log, self.token = Log(), secrets.token_hex(16)
        self.path, self.names, self.version = names and pathlib.Path(names), text, 0
        self.lock, self.is_gone, self.counted = threading.Lock(), False, None
        self.pause, self.run, self.text, self.number = 0, secrets.token_hex(16), None, 0
        self.has_events, self.octets, self.closed = True, 0, None
        # Bugs of the page: of each a web file, a text there, and what stands in its place.
        self.planted = ()

    def waits(self):
        """Answers late, by a pause that may end earlier."""
        end = time.monotonic() + self.pause
        while time.monotonic() < min(end, time.monotonic() + self.pause):
            time.sleep(0.02)

    def call(self, line, operator=0, name="page"):
        """What the bridge answers to a line. The page is operator 0."""
        words = line.split(" ")
        if words[0] not in (*COMMANDS, *TURNS, "group"):
            return "fault 1 3 UnknownWord"
        with self.lock:
            if self.closed not in (None, name):
                return f"no {self.log.version} 27 Closed"
            answer = self.log.call(words, operator)
            if answer.startswith("ok "):
                told = f"call {answer[3:]} {time.time_ns() // 1_000_000} {operator} {name} {line}"
                self.logged().append(told)
            return answer

    def judged(self, line, name, seen):
        """What the page's program answers to a call, and its status: the call isn't sent where another one came first
        after the version that its person saw."""
        newer = seen and newer_call(self.past(), line, name, int(seen))
        if newer:
            return 409, f"Newer: another person touched that row after this desk was seen, nothing was sent\n{newer}"
        return 200, self.call(line, name=name)

    def lease(self):
        """What the stream of events says of the desk's lease."""
        return "open" if self.closed is None else f"closed {self.closed}"

    def ask(self, line, name="-"):
        """Another operator's call."""
        return self.call(line, 1, name)

    def logged(self):
        """The lines of all accepted calls. They go with their log."""
        return vars(self.log).setdefault("told", [])

    def past(self):
        with self.lock:
            return [*self.logged()[-MOST_PAST:], f"end {self.log.version}"]

    def shown(self):
        with self.lock:
            return self.log.desk.shown(self.log.version)

    def history(self, most=MOST_CALLS):
        with self.lock:
            return self.log.history(most)

    def desk(self):
        lines = self.shown() + [f"names {self.version}"]
        with self.lock:
            if lines != self.text:
                self.text, self.number = lines, self.number + 1
            return lines + [f"state {self.run}-{self.number}"]

    def key(self):
        """What the desk's text depends on."""
        return self.log, self.log.version, self.version

    def edited(self, before, after):
        """What turns a desk's lines into others, as the program tells it to browsers."""
        states = [lines[-1].partition(" ")[2] for lines in (before, after)]
        old, new = ("".join(f"{line}\n" for line in lines[:-1]) for lines in (before, after))
        start = len(os.path.commonprefix([old, new]))
        end = len(os.path.commonprefix([old[start:][::-1], new[start:][::-1]]))
        return f"{' '.join(states)} {start} {len(old) - start - end}\n{new[start : len(new) - end]}"

    def rename(self, body):
        head, _, text = body.partition("\n")
        with self.lock:
            if head != f"names {self.version}":
                return f"no {self.version} Newer"
            if not is_names(text):
                return f"no {self.version} NoNames"
            if self.path:
                try:
                    part = self.path.with_name(self.path.name + ".new")
                    with open(os.open(part, os.O_WRONLY | os.O_CREAT | os.O_TRUNC, 0o600), "w") as file:
                        file.write(text)
                    part.rename(self.path)
                except OSError:
                    return f"no {self.version} Unsaved"
            self.names, self.version = text, self.version + 1
            return f"ok {self.version}"

    def file(self, path):
        """A web file as the program serves it, and its kind."""
        if path == "/":
            return (WEB / "page.html").read_text().replace(TOKEN, self.token), "text/html"
        kind = KINDS.get(path.rpartition(".")[2])
        if kind and path in (f"/{file.name}" for file in WEB.iterdir()):
            text = (WEB / path[1:]).read_text()
            for name, old, new in self.planted:
                text = text.replace(old, new) if path == f"/{name}" else text
            return text, kind
        return None


def handler_of(standin):
    class Handler(http.server.BaseHTTPRequestHandler):
        def log_message(self, *_):
            pass

        def tell(self, status, text, kind="text/plain"):
            body = text.encode()
            self.send_response(status)
            policy = "default-src 'none'; script-src 'self'; style-src 'self'; connect-src 'self'"
            fields = {
                "Content-Type": f"{kind}; charset=utf-8",
                "Content-Length": len(body),
                "Cache-Control": "no-store",
                "Content-Security-Policy": policy,
            }
            for name, value in fields.items():
                self.send_header(name, value)
            self.end_headers()
            standin.octets += len(body) + HEAD
            self.wfile.write(body)

        def event(self, name, told):
            told = told.replace("\n", "\ndata: ")
            event = f"event: {name}\ndata: {told}\n\n".encode()
            standin.octets += len(event)
            self.wfile.write(event)

        def stream(self):
            """The stream of events, until the browser closes it."""
            self.send_response(200)
            for name, value in {"Content-Type": "text/event-stream", "Cache-Control": "no-store"}.items():
                self.send_header(name, value)
            self.end_headers()
            key, lines, told = standin.key(), standin.desk(), len(standin.logged())
            self.event("hello", lines[-1].partition(" ")[2])
            was_gone, beat, lease = False, time.monotonic(), standin.lease()
            self.event("lease", lease)
            while True:
                time.sleep(0.02)
                if standin.pause:
                    continue
                if standin.is_gone != was_gone:
                    was_gone = standin.is_gone
                    self.event("bridge", "gone" if was_gone else "anew")
                if standin.lease() != lease:
                    lease = standin.lease()
                    self.event("lease", lease)
                if not was_gone and standin.key() != key:
                    told = told if key[0] is standin.log else 0
                    for line in standin.logged()[told:]:
                        self.event("call", line)
                    key, before, lines, told = standin.key(), lines, standin.desk(), len(standin.logged())
                    self.event("desk", standin.edited(before, lines))
                if time.monotonic() - beat >= 2:
                    beat = time.monotonic()
                    self.event("beat", str(int(1000 * beat)))

        def do_GET(self):
            standin.waits()
            if self.path == "/events" and standin.has_events:
                return self.stream()
            if standin.file(self.path):
                return self.tell(200, *standin.file(self.path))
            if self.path == "/names":
                return self.tell(200, f"names {standin.version}\n{standin.names}")
            if self.path == "/stats":
                return self.count()
            path, _, query = self.path.partition("?")
            if path not in ("/desk.txt", "/history.txt", "/past.txt"):
                return self.tell(404, "NotFound\n")
            if standin.is_gone:
                return self.tell(502, "Gone: the bridge is not there, nothing was sent\n")
            told = {"/desk.txt": standin.desk, "/history.txt": standin.history, "/past.txt": standin.past}
            lines = told[path]()
            if path == "/desk.txt" and query == f"after={lines[-1].partition(' ')[2]}":
                return self.tell(204, "")
            return self.tell(200, "".join(f"{line}\n" for line in lines))

        def count(self):
            """What is counted, or that nothing is, as where the bridge is an older one."""
            if standin.is_gone:
                return self.tell(502, "Gone: the bridge is not there, nothing was sent\n")
            if standin.counted is None:
                return self.tell(501, "Unknown: this bridge doesn't know the question, it is an older one\n")
            counted = standin.counted() if callable(standin.counted) else standin.counted
            return self.tell(200, json.dumps(counted), "application/json")

        def do_POST(self):
            body = self.rfile.read(int(self.headers["Content-Length"])).decode()
            standin.waits()
            if self.headers["X-Desk-Token"] != standin.token:
                return self.tell(403, "NoToken: load the page again, its token is of an earlier run\n")
            if self.path == "/names" and body.split(" ")[0] != "names":
                return self.tell(
                    400, "NoNames: a change is the word names, the version that was seen, and a JSON object of texts\n"
                )
            if self.path == "/names":
                return self.tell(200, standin.rename(body) + "\n")
            if body.split(" ")[0] in RESERVED:
                told = "Reserved: calls alone are for the page, and no line such as show, watch, as or help\n"
                return self.tell(400, told)
            if standin.is_gone:
                return self.tell(502, "Gone: the bridge is not there, nothing was sent\n")
            status, told = standin.judged(body, self.headers["X-Desk-Person"] or "page", self.headers["X-Desk-Seen"])
            return self.tell(status, f"{told}\n")

    return Handler


def serve(standin, port=0, handler=None):
    """Serves a page until the process ends, by a handler of its own or the plain one. The server, whose `server_port`
    is its port."""
    server = http.server.ThreadingHTTPServer(("127.0.0.1", port), handler or handler_of(standin))
    server.daemon_threads = True
    # A browser that closes is no fault.
    server.handle_error = lambda *_: None
    server.thread = threading.Thread(target=server.serve_forever, daemon=True)
    server.thread.start()
    return server


def fill(standin, rooms, size):
    """Makes so many rooms of so many members, each with sound, a picture and a slot, in one step that no operator
    made."""
    desk = standin.log.desk
    for room in range(1, rooms + 1):
        desk.rooms.append({"room": room, "rate": 8000})
        for place in range(size):
            m = 1000 * room + place
            address = f"10.{room}.0.{place + 1}:5000"
            desk.members.append(
                dict(member=m, room=room, address=address, codec="pcmu", out_audio=900_000 + m, seq=0, ts=0)
            )
            desk.sources += [
                dict(ssrc=200_000 + m, member=m, media="audio"), dict(ssrc=300_000 + m, member=m, media="video")
            ]
            desk.slots.append(dict(out=500_000 + m, member=m, index=0, seq=0, ts=0))
        desk.floors.append({"room": room, "member": 1000 * room})
    standin.log.version += 1
