"""The stream of events of the page's program: what browsers are told, what that costs the bridge, and who gets none.

The bridge is a plain desk of the models behind a socket that counts its questions."""

import contextlib
import pathlib
import socket
import socketserver
import threading
import time

from checks import standin
from operators.shared import fail

# How many browsers may have the stream, and how many connections are served at a time.
MOST_STREAMS, MOST = 24, 32
# How long questions are counted, in seconds.
COUNTED = 4
TABS = 10
# The longest wait for an event, in seconds.
LONGEST = 20
# More octets than the send buffer of a socket has (tcp(7), `tcp_wmem`) and the program keeps behind it.
ENOUGH = int(pathlib.Path("/proc/sys/net/ipv4/tcp_wmem").read_text().split()[2]) + (2 << 20)


def check(holds, text):
    if not holds:
        fail(text)


class PlainBridge:
    """A plain desk that operators connect to. Another operator's line of `meanwhile` comes right before a question is
    answered, once."""

    def __init__(self, one):
        self.one, self.asked, self.meanwhile, self.lock, self.lease = one, [], {}, threading.Lock(), "lease off"
        bridge = self

        class Operator(socketserver.StreamRequestHandler):
            def handle(self):
                name = "-"
                for octets in self.rfile:
                    line = octets.decode().rstrip("\n")
                    name = line[3:] if line.startswith("as ") else name
                    told = bridge.told(line, name)
                    self.wfile.write("".join(f"{row}\n" for row in told).encode())

        self.server = socketserver.ThreadingTCPServer(("127.0.0.1", 0), Operator)
        self.server.daemon_threads = True
        # The page closes its connection where it ends.
        self.server.handle_error = lambda *_: None
        self.port = self.server.server_address[1]
        threading.Thread(target=self.server.serve_forever, daemon=True).start()

    def told(self, line, name):
        """The answer to a line of somebody with this name. It is counted."""
        with self.lock:
            self.asked.append(line)
            meanwhile = self.meanwhile.pop(line, None)
        if meanwhile:
            self.one.ask(meanwhile)
        if line.startswith("as "):
            return [line]
        if line == "show":
            return self.one.shown()
        if line.startswith("history "):
            return self.one.history(int(line.split()[1]))
        if line.startswith("calls "):
            return self.one.past()
        if line == "stats":
            return ["end"]
        if line == "lease":
            return [self.lease]
        return [self.one.call(line, name=name)]

    def counted(self, seconds):
        """How often each question is asked in so many seconds."""
        with self.lock:
            self.asked.clear()
        time.sleep(seconds)
        with self.lock:
            return {line: self.asked.count(line) for line in set(self.asked)}


class Stream:
    """A browser's stream of events."""

    def __init__(self, port, buffer=None):
        self.socket = socket.socket()
        if buffer:
            self.socket.setsockopt(socket.SOL_SOCKET, socket.SO_RCVBUF, buffer)
        self.socket.settimeout(20)
        self.socket.connect(("127.0.0.1", port))
        self.socket.sendall(f"GET /events HTTP/1.1\r\nHost: 127.0.0.1:{port}\r\n\r\n".encode())
        self.file = self.socket.makefile("rb")

    def head(self):
        """The status, and the fields."""
        status, *fields = iter(lambda: self.file.readline().decode().strip(), "")
        return int(status.split()[1]), dict(field.lower().split(": ", 1) for field in fields)

    def event(self):
        """The next event: its name and its data."""
        lines = list(iter(lambda: self.file.readline().decode().rstrip("\n"), ""))
        check(lines and lines[0].startswith("event: "), f"the stream has {lines[:2]}")
        return lines[0][7:], "\n".join(line[6:] for line in lines[1:])

    def next(self, name):
        """The data of the next event of this name, and how long it took. Beats alone don't keep a reader waiting."""
        begun = time.monotonic()
        while time.monotonic() - begun < LONGEST:
            found, told = self.event()
            if found == name:
                return told, time.monotonic() - begun
        return fail(f"in {LONGEST} s the stream has no event `{name}`")

    def close(self):
        self.file.close()
        self.socket.close()


def edited(text, told):
    """The desk's text after an event, and the states before and after it."""
    head, _, inserted = told.partition("\n")
    before, after, start, removed = head.split(" ")
    return text[: int(start)] + inserted + text[int(start) + int(removed) :], before, after


def tells_changes(page, ask):
    """A stream tells each call, and what turns the desk's text into the next one."""
    with contextlib.closing(Stream(page.port)) as one:
        status, fields = one.head()
        kind = fields.get("content-type"), fields.get("cache-control")
        check((status, *kind) == (200, "text/event-stream", "no-store"), f"the stream begins by {status} {fields}")
        check("default-src 'none'" in fields.get("content-security-policy", ""), "the stream has no strict policy")
        hello, _ = one.next("hello")
        (text, state), slowest = loaded(page), 0
        check(hello.rpartition("-")[0] == state.rpartition("-")[0], f"the stream begins by {hello}, and not by {state}")
        for line in "add-room 41", "add-room 42 44100", "remove-room 41", "group add-room 43 / remove-room 42":
            said = ask(line)
            check(said.startswith("ok "), f"`{line}` is told {said}")
            call, took = one.next("call")
            slowest = max(slowest, took)
            words = call.split(" ")
            check(words[0] == "call" and words[1] == said[3:], f"after `{line}` the stream tells {call}")
            told, _ = one.next("desk")
            text, before, after = edited(text, told)
            check(before == state, f"the desk of {state} is told from {before} on")
            state, (_, _, whole) = after, page.ask("GET", "/desk.txt")
            check(whole == f"{text}state {state}\n", f"after `{line}` the events make another desk")
        check(slowest <= 0.5, f"a call is told after {slowest:.2f} s")
        version, _ = page.names()
        page.rename(f'names {version}\n{{"room 43": "x"}}')
        text, _, _ = edited(text, one.next("desk")[0])
        check(f"\nnames {version + 1}\n" in text, "new names are not told")
        beats = [one.next("beat")[1] for _ in range(2)]
        check(1 < beats[1] < 4, f"beats come after {beats} s")
    return slowest


def loaded(page):
    """The desk's text without its state, and that state."""
    text, _, state = page.ask("GET", "/desk.txt")[2].rstrip("\n").rpartition("\n")
    return f"{text}\n", state[6:]


def tells_calls_first(page, bridge):
    """A call that comes between two of the program's questions is told before the desk that it made."""
    with contextlib.closing(Stream(page.port)) as one:
        one.head()
        one.next("hello")
        (text, state), last = loaded(page), 0
        for at, question in enumerate(("show", "calls 512")):
            bridge.meanwhile[question] = f"add-room {61 + at}"
            bridge.one.ask(f"add-room {71 + at}")
            end = time.monotonic() + LONGEST
            while f"room {61 + at}\n" not in text:
                check(time.monotonic() < end, f"a change before `{question}` is answered isn't told")
                name, told = one.event()
                if name == "call":
                    last = int(told.split(" ")[1])
                if name != "desk" or told.split(" ")[0] != state:
                    continue
                text, _, state = edited(text, told)
                version = int(text.rpartition("\nend ")[2].split("\n")[0])
                check(version <= last, f"the desk of version {version} is told before its call")


def costs_one(page, bridge):
    """Ten tabs that have the stream and count cost the bridge no more than one, and load the desk by one question."""
    counts = []
    for tabs in 1, TABS:
        streams = [Stream(page.port) for _ in range(tabs)]
        for stream in streams:
            stream.head()
            stream.next("hello")
        stop = threading.Event()

        def counts_on(at, stop=stop):
            time.sleep(at)
            while not stop.wait(1):
                page.ask("GET", "/stats")

        for at in range(tabs):
            threading.Thread(target=counts_on, args=(at / tabs,), daemon=True).start()
        time.sleep(1)
        bridge.counted(0)
        bridge.one.ask(f"add-room {50 + tabs}")
        for stream in streams:
            stream.next("desk")
            page.ask("GET", "/history.txt")
        counts.append(bridge.counted(COUNTED))
        loads = dict.fromkeys(["show", "history 256", "calls 512"], 0) | counts[-1]
        check(sum(loads[line] for line in ("show", "calls 512")) <= 2, f"{tabs} tabs ask {loads} while nothing changes")
        stop.set()
        for stream in streams:
            stream.close()
        time.sleep(1.2)
    total = [sum(one.values()) for one in counts]
    check(total[1] <= total[0] * 1.15 + 2, f"one tab asks {counts[0]}, and {TABS} tabs {counts[1]}")
    check(counts[1].get("stats", 0) <= COUNTED + 1, f"{TABS} tabs count {counts[1]} times")
    return total


def bounds(page):
    """24 browsers have the stream; another one is told so in words, and requests still find a place."""
    streams = [Stream(page.port) for _ in range(MOST_STREAMS)]
    for stream in streams:
        check(stream.head()[0] == 200, "one of 24 streams is refused")
    status, _, text = page.ask("GET", "/events")
    check(status == 503 and text.startswith("Full: "), f"a stream too many is told {status} {text}")
    idle = [socket.create_connection(("127.0.0.1", page.port)) for _ in range(2 * MOST)]
    for _ in range(5):
        check(page.ask("GET", "/desk.txt")[0] == 200, "beside 24 streams the desk isn't there")
    for one in [*idle, *streams]:
        one.close()
    end = time.monotonic() + 5
    while page.ask("GET", "/stats")[0] and time.monotonic() < end:
        one = Stream(page.port)
        status = one.head()[0]
        one.close()
        if status == 200:
            return
        time.sleep(0.2)
    fail("streams that were closed keep their places")


def drops_slow(page, bridge):
    """A browser that doesn't read loses its stream, and keeps nobody waiting; another one is told all."""
    one = bridge.one
    standin.fill(one, 64, 16)
    slow, good = Stream(page.port, 4096), Stream(page.port)
    check(slow.head()[0] == good.head()[0] == 200, "a stream is refused")
    told, turn = 0, 0
    while told < ENOUGH:
        turn += 1
        shift = 1_000_000 * (turn % 2)
        with one.lock:
            for kind, key in ("members", "out_audio"), ("sources", "ssrc"), ("slots", "out"):
                for row in getattr(one.log.desk, kind):
                    row[key] = row[key] % 1_000_000 + shift
            one.log.version += 1
        told += len(good.next("desk")[0])
    got, end = 0, time.monotonic() + LONGEST
    with contextlib.suppress(ConnectionError):
        while more := slow.socket.recv(65536):
            got += len(more)
            check(time.monotonic() < end, "a browser that didn't read keeps its stream")
    check(got < told, f"a browser that didn't read got {got} octets of {told}")
    slow.close()
    good.close()
    return told


def is_followed(page, bridge):
    """All that is said of the stream."""
    slowest = tells_changes(page, bridge.one.ask)
    tells_calls_first(page, bridge)
    one, many = costs_one(page, bridge)
    bounds(page)
    told = drops_slow(page, bridge)
    print(
        f"a stream tells a call after {slowest:.2f} s at most; in {COUNTED} s one tab costs the bridge {one} "
        f"questions, and {TABS} tabs {many}; 24 streams, and a slow one of {told >> 20} MiB is dropped"
    )
