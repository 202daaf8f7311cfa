"""Goes through a call at the page, over HTTP, against a bridge that runs.

An operator adds rooms, one of them for music, and members, subscribes, mutes, moves a member, reverts, undoes four
times and does one again. After each line the page's desk is what the bridge's `show` says. A second operator's change
is there within half a second. Bad requests are refused by name and change nothing. A silent bridge keeps nobody
waiting, and a bridge that comes back is found again. A stream of events tells each change, costs the bridge no more for
ten tabs than for one, and drops who doesn't read it. In node, the page's functions choose the lines of clicks as they
should. In chromium, two browsers go through a call by clicks, forms and a drag: after each step both draw what `show`
says, and the second one within half a second. Sliders, keys, names, many members at once, a bridge that is gone, a room
of 64 and 64 rooms of 16 are tried by hand. The browser's accessibility tree has a name for each control. One session is
an operator's shift. In Firefox, where it is installed, two browsers go through a call, too. What a member's packets
lack on their way to the bridge is told as lost, and shown. Names are kept in a file, and bad ones are told. With
--http-only neither node nor a browser is needed, and nothing tries the page's script. With --model no program is
needed: the page is served over the plain desk of the models, and what a bridge counts is handed to it, too.
"""

import concurrent.futures
import contextlib
import dataclasses
import http.client
import json
import os
import pathlib
import re
import shutil
import signal
import socket
import statistics
import subprocess
import tempfile
import time

from checks import standin
from checks.aloud import reads_aloud
from checks.costing import costs_little
from checks.counting import shows_counts
from checks.driving import drive, opened
from checks.following import PlainBridge, is_followed
from checks.handling import handle, names_things, stays_small
from checks.judging import judges, judges_calls
from checks.lasting import finds_another, keeps_the_desk, shows_stale
from checks.losing import shows_loss, tells_loss
from checks.make.page import LINES, WEB
from checks.page_plants import PLANTS
from checks.persons import tells_persons
from checks.shift import works_a_shift
from checks.showing import take_pictures
from checks.staying import stays
from checks.watching import watches
from operators.models.desk import Log
from operators.serving import Operator, free_port, settings
from operators.shared import CRATES, add_program_or_build, fail, found_program, try_command

NEEDS = "a program, node and chromium, two minutes"

MARKUP_TOKEN = re.compile(rb'<meta name="desk-token" content="([0-9a-f]{32})">')
CALLS = [
    "add-room 1",
    "add-room 2",
    "add-member 10 1 127.0.0.1:6000 pcmu 9001 0 0",
    "add-member 11 1 127.0.0.1:6002 pcmu 9002 0 0",
    "add-source 101 10 video",
    "add-source 201 10 audio",
    "add-slot 501 11 0 0 0",
    "subscribe 501 101",
    "mute 201",
    "group pin 1 101 / give-floor 1 10",
    "move-member 10 2",
    "add-room 3 44100",
    "add-member 12 3 127.0.0.1:6004 l16 9003 0 0",
]
# After so many seconds a bridge that was told to stop has ended, on a busy machine and without proofs, too.
ENDS = 120
# How many browsers ask at once.
MANY = 32
# Calls that the bridge refuses, with the number and the name of each refusal.
REFUSED = [
    ("mute 999", "4 NoSource"),
    ("add-room 4 16000", "9 BadValue"),
    ("move-member 11 3", "21 RateMismatch"),
    ("add-member 13 3 127.0.0.1:6006 pcmu 9004 0 0", "21 RateMismatch"),
    ("revert 99", "23 NotInForce"),
    ("revert 3", "25 Conflict 5 0 3 NoMember"),
]


def options(parser):
    add_program_or_build(parser)
    parser.add_argument(
        "--page", metavar="PROGRAM", help="the page's program (crates/desk_page/out/desk_page if not given)"
    )
    parser.add_argument("--browser", default="chromium", metavar="COMMAND", help="the browser (%(default)s)")
    parser.add_argument("--firefox", default="firefox-esr", metavar="COMMAND", help="the other browser (%(default)s)")
    parser.add_argument("--http-only", action="store_true", help="try neither the page's functions nor a browser")
    parser.add_argument("--model", action="store_true", help="serve the page over a plain desk, without a program")
    parser.add_argument(
        "--pictures", type=pathlib.Path, metavar="FOLDER", help="only take pictures of the page for documents"
    )


def check(holds, text):
    if not holds:
        fail(text)


def started(crate, given, words, seconds, folder):
    """A program that runs, or one that is built without proofs."""
    program = found_program(given, crate)
    command = [program, *words] if program else try_command(words, seconds)
    null = subprocess.DEVNULL
    with (pathlib.Path(folder) / f"{crate}.stderr").open("w") as said:
        return subprocess.Popen(command, cwd=CRATES / crate, stdin=null, stdout=null, stderr=said)


def connected(program, port):
    """A connection to a program, once it listens."""
    while program.poll() is None:
        try:
            return socket.create_connection(("127.0.0.1", port), timeout=60)
        except ConnectionRefusedError:
            time.sleep(0.1)
    return fail(f"a program ended with status {program.returncode} before it listened")


def signal_all(program, number):
    """Sends a signal to a program and to what it has started: `rt try` runs a program as a process below its own."""
    parents = {}
    for path in pathlib.Path("/proc").glob("[0-9]*/stat"):
        with contextlib.suppress(OSError):
            parents[int(path.parent.name)] = int(path.read_text().rpartition(")")[2].split()[1])
    found = [program.pid]
    for parent in found:
        found += [one for one in parents if parents[one] == parent]
    for one in found:
        with contextlib.suppress(ProcessLookupError):
            os.kill(one, number)


class Page:
    """What a browser does."""

    def __init__(self, port, bridge=None):
        self.port, self.bridge, self.token = port, bridge, ""

    def ask(self, method, path, body=None, fields=None):
        """The status, the fields and the body of a response."""
        connection = http.client.HTTPConnection("127.0.0.1", self.port, timeout=20)
        try:
            connection.request(method, path, body=body, headers=fields or {})
            response = connection.getresponse()
            return response.status, response, response.read().decode()
        finally:
            connection.close()

    def load(self):
        status, response, text = self.ask("GET", "/")
        check(status == 200, f"the page's status is {status}")
        check(
            "default-src 'none'" in (response.getheader("content-security-policy") or ""),
            "the page has no strict policy",
        )
        self.token = MARKUP_TOKEN.search(text.encode())[1].decode()
        for path in "/page.js", "/hands.js", "/page.css":
            check(self.ask("GET", path)[0] == 200, f"{path} isn't there")

    def call(self, line, **fields):
        """What a call is answered: a status and a text."""
        given = {"X-Desk-Token": self.token} | {f"X-Desk-{name}": value for name, value in fields.items()}
        status, _, text = self.ask("POST", "/call", line.encode(), given)
        return status, text.strip()

    def desk(self):
        """The lines of `show`."""
        return self.desk_and_state()[0]

    def desk_and_state(self):
        """The lines of `show`, and what the program calls the text."""
        *lines, named, state = self.lines_of("/desk.txt")
        check(named.startswith("names ") and state.startswith("state "), f"behind the desk stand {named} and {state}")
        return lines, state[6:]

    def history(self):
        """The lines of `history 256`."""
        return self.lines_of("/history.txt")

    def lines_of(self, path):
        status, _, text = self.ask("GET", path)
        check(status == 200, f"the status of {path} is {status}: {text}")
        return text.splitlines()

    def names(self):
        """The version of the names, and their text."""
        status, _, text = self.ask("GET", "/names")
        head, _, text = text.partition("\n")
        check(status == 200 and head.startswith("names "), f"the names are {status} {head}")
        return int(head[6:]), text

    def rename(self, body):
        """What a change of names is answered: a status and a text."""
        status, _, text = self.ask("POST", "/names", body.encode(), {"X-Desk-Token": self.token})
        return status, text.strip()


def shown(operator, line="show"):
    """The lines of `show` or `history`, as an operator gets them."""
    lines = operator.shown(line)
    check(lines and lines[-1].startswith("end "), f"the bridge answers `{line}` by {lines}")
    return lines


def is_as_told(page, operator, line):
    """The page has the desk and the history of the bridge, after a line."""
    check(page.desk() == shown(operator), f"after `{line}` the page shows another desk than the bridge")
    past = page.history()
    is_same = past == shown(operator, "history 256")
    check(is_same, f"after `{line}` the page has another history than the bridge: {past}")
    tells_machines(page)
    return past


def tells_machines(page):
    """The JSON of the desk and of the history has what their lines have."""
    lines, told = page.desk(), json.loads(page.ask("GET", "/desk")[2])
    rows = {"room": "rooms", "member": "members", "source": "sources", "slot": "slots", "sub": "subs", "mute": "mutes"}
    rows |= {"gain": "gains", "pin": "pins", "floor": "floors"}
    for word, key in rows.items():
        kind = [line.split(" ")[1:] for line in lines if line.startswith(f"{word} ")]
        given = [[str(value) for value in row.values() if value is not None] for row in told[key]]
        check(given == kind, f"the JSON of the desk has the {key} {given}, and its lines {kind}")
    check(f"end {told['end']['version']}" == lines[-1], f"the JSON of the desk ends by {told['end']}")
    past, told = page.history(), json.loads(page.ask("GET", "/history")[2])
    line = lambda one: f"{one['number']} {one['operator']} {one['call']}"  # noqa: E731
    done, undone = ([line(one) for one in told[key]] for key in ("done", "undone"))
    given = [*done, *(["undone"] if undone else []), *undone, f"end {told['end']['version']}"]
    check(given == past, f"the JSON of the history has {given}, and its lines {past}")


def seated(bridge, port):
    """An operator of a bridge, once it answers. It listens before all of its memory is there, and frees a seat some
    time after its operator left."""
    for _ in range(100):
        operator = Operator(connected(bridge, port))
        with contextlib.suppress(ConnectionError):
            if any(line.startswith("end ") for line in operator.shown()):
                return operator
        time.sleep(0.1)
    return fail("the bridge has no seat for an operator")


def go_through(page, operator):
    """The calls of a small session, each followed by a look at both desks."""
    version = 0
    for line in CALLS:
        version += 1
        check(page.call(line) == (200, f"ok {version}"), f"`{line}` is not answered `ok {version}`")
        is_as_told(page, operator, line)
    check("room 3 44100" in page.desk(), "the page doesn't show the rate of a music room")
    for line, refusal in REFUSED:
        told = page.call(line)
        check(told == (200, f"no {version} {refusal}"), f"`{line}` is told as {told}")
    version += 1
    mute = CALLS.index("mute 201") + 1
    check(page.call(f"revert {mute}") == (200, f"ok {version}"), "a revert is refused")
    numbers = [line.split()[0] for line in is_as_told(page, operator, "revert")]
    check(str(mute) not in numbers and numbers[-2] == str(version), f"after a revert the page's history is {numbers}")
    for word in "undo", "undo", "undo", "undo", "redo":
        version += 1
        check(page.call(f"{word} {version - 1}") == (200, f"ok {version}"), f"`{word}` is refused")
        past = is_as_told(page, operator, word)
    numbers = [line.split()[0] for line in past]
    accepted = [str(number) for number in range(1, len(CALLS) + 2)]
    wanted = [*accepted[:-3], "undone", *accepted[:-4:-1], "end"]
    check(numbers == wanted and past[0].endswith(" add-room 1 8000"), f"the page's history is {past}")
    return version


def sees_others(page, operator, version):
    """Another operator's change is at the page within half a second."""
    told = operator.ask("add-room 7")
    check(told == f"ok {version + 1}", f"the other operator is told {told}")
    end = time.monotonic() + 0.5
    while f"end {version + 1}" not in page.desk():
        check(time.monotonic() < end, "the page doesn't see another operator's change within half a second")
        time.sleep(0.05)
    check(
        page.call(f"undo {version}")[1].startswith(f"no {version + 1} 14 "), "an undo of an older version isn't refused"
    )
    return version + 1


def names_callers(page, operator, version):
    """A call goes to the bridge by the name of whom it is of, and the page tells the log as the bridge does."""
    anna, bob = ("Anna%20B.", {"Person": "Anna%20B."}), ("bob", {"Person": "bob"})
    called = [anna, ("page", {}), bob, bob]
    begun = int(time.time() * 1000)
    for at, (_, fields) in enumerate(called):
        told = page.call(f"{'add' if at % 2 == 0 else 'remove'}-room 9", **fields)
        check(told == (200, f"ok {version + at + 1}"), f"a call of {fields} is told as {told}")
    lines = page.lines_of("/past.txt")
    check(lines == shown(operator, "calls 512"), f"the page's log is {lines}")
    told = [line.split(" ")[4] for line in lines[-1 - len(called) : -1]]
    check(told == [name for name, _ in called], f"the names of these calls are {told}")
    moments = [int(line.split(" ")[2]) for line in lines[-1 - len(called) : -1]]
    check(begun - 1000 < moments[0] <= moments[-1] < begun + 60_000, f"the moments are {moments} from {begun} on")
    last = json.loads(page.ask("GET", "/past")[2])
    check(last["end"]["version"] == version + len(called), f"the log as JSON ends by {last['end']}")
    one = last["calls"][-1]
    check(f"call {one['number']} {one['moment']} {one['operator']} {one['name']} {one['call']}" == lines[-2], f"{one}")
    for bad in "", "n" * 65, "Anna B.", "J\u00f6rg":
        status, text = page.call("add-room 9", Person=bad.encode())
        check(status == 400 and text.startswith("NoPerson"), f"a call of `{bad}` is told as {status} {text}")
    return version + len(called)


def refuses(page, operator, version):
    """Bad requests are refused by name, and the bridge has none of them."""
    good = {"X-Desk-Token": page.token}
    own = f"http://127.0.0.1:{page.port}"
    for wanted, name, method, path, body, fields in [
        (403, "ForeignHost", "GET", "/desk", None, {"Host": "desk.example"}),
        (403, "ForeignHost", "POST", "/call", b"mute 101", {**good, "Host": f"evil.example:{page.port}"}),
        (403, "ForeignOrigin", "POST", "/call", b"mute 101", {**good, "Origin": "http://evil.example"}),
        (403, "NoToken", "POST", "/call", b"mute 101", {"Origin": own}),
        (403, "NoToken", "POST", "/call", b"mute 101", {"X-Desk-Token": "0" * 32}),
        (405, "NotAllowed", "GET", "/call", None, good),
        (404, "NotFound", "GET", "/elsewhere", None, {}),
        (400, "NoLine", "POST", "/call", b"mute 101\nmute 201", good),
        (400, "NoLine", "POST", "/call", b"", good),
        (400, "NoLine", "POST", "/call", "mute é".encode(), good),
        (400, "Reserved", "POST", "/call", b"stop", good),
        (400, "Reserved", "POST", "/call", b"quit", good),
        (400, "Reserved", "POST", "/call", b"show", good),
        (400, "Reserved", "POST", "/call", b"history 256", good),
        (400, "Reserved", "POST", "/call", b"stats", good),
        (400, "Reserved", "POST", "/call", b"watch", good),
        (400, "Reserved", "POST", "/call", b"calls 20", good),
        (400, "Reserved", "POST", "/call", b"as bob", good),
        (400, "Reserved", "POST", "/call", b"why", good),
        (400, "Reserved", "POST", "/call", b"help", good),
        (400, "Reserved", "POST", "/call", b"lease", good),
        (400, "Reserved", "POST", "/call", b"/page.js", good),
        (400, "NoVersion", "POST", "/call", b"mute 101", {**good, "X-Desk-Seen": "new"}),
        (404, "NotFound", "GET", "/page.html", None, {}),
        (404, "NotFound", "GET", "/../page.js", None, {}),
        (405, "NotAllowed", "POST", "/history", b"", good),
        (405, "NotAllowed", "POST", "/metrics", b"", good),
        (403, "ForeignHost", "GET", "/metrics", None, {"Host": "desk.example"}),
        (400, "NoLine", "POST", "/call", b"a" * 4097, good),
        (400, "Reserved", "POST", "/call", b"names 0", good),
        (403, "NoToken", "POST", "/names", b"names 0\n{}", {"Origin": own}),
        (400, "NoNames", "POST", "/names", b"{}", good),
        (405, "NotAllowed", "PUT", "/names", b"names 0\n{}", good),
        (413, "", "POST", "/names", b"names 0\n" + b" " * 262_144, good),
    ]:
        status, _, text = page.ask(method, path, body, fields)
        check(
            status == wanted and text.startswith(name), f"{method} {path} {body}: {status} {text}, not {wanted} {name}"
        )
    refuses_long(page, good)
    check(page.ask("GET", "/")[0] == 200, "behind a body of 1 MiB the page isn't there")
    check(shown(operator)[-1] == f"end {version}", "a bad request has reached the bridge")


def refuses_long(page, fields):
    """A body of 1 MiB is refused before it is whole, and what still comes of it is dropped."""
    lines = [
        f"{name}: {value}"
        for name, value in {"Host": f"127.0.0.1:{page.port}", "Content-Length": 1_048_576, **fields}.items()
    ]
    with socket.create_connection(("127.0.0.1", page.port), timeout=20) as one:
        one.sendall("\r\n".join(["POST /call HTTP/1.1", *lines, "", "a" * 4_096]).encode())
        with one.makefile("rb") as answer:
            check(answer.read().startswith(b"HTTP/1.1 413 "), "a body of 1 MiB isn't refused with 413")
        # The page reads on for a second behind its response. Octets that come later reset the connection.
        with contextlib.suppress(ConnectionError):
            one.sendall(b"a" * (1_048_576 - 4_096))


def keeps_names(page, path):
    """Names go to the file by a change of those that were seen. What is no names, comes too late or can't be written
    changes nothing."""
    first, _ = page.names()
    text = '{"member 10": "Bob", "room 1": "<script>"}'
    check(page.rename(f"names {first}\n{text}") == (200, f"ok {first + 1}"), "new names are refused")
    check(
        page.names() == (first + 1, text) and path.read_text() == text, "new names aren't told, or aren't in the file"
    )
    check(path.stat().st_mode & 0o777 == 0o600, "others may read the file of names")
    head = f"names {first + 1}\n"
    longest = '{"a": "' + "n" * 800 + '"}'
    for body, reason in [
        (f"names {first}\n{{}}", "Newer"),
        ("names 7 7\n{}", "Newer"),
        (head + "{", "NoNames"),
        (head + "[]", "NoNames"),
        (head + '{"member 10": 7}', "NoNames"),
        (head + longest.replace("n", "nn", 1), "NoNames"),
    ]:
        told = page.rename(body)
        check(told == (200, f"no {first + 1} {reason}"), f"names {body[:40]} are told as {told}")
    away = path.parent.with_name("away")
    path.parent.rename(away)
    told = page.rename(head + longest)
    away.rename(path.parent)
    check(told == (200, f"no {first + 1} Unsaved"), f"names that can't be written are told as {told}")
    check(page.names() == (first + 1, text) and path.read_text() == text, "names that were refused have changed some")
    # What is written to /dev/full finds a disk without space.
    path.with_name(f"{path.name}.new").symlink_to("/dev/full")
    told = page.rename(head + longest)
    path.with_name(f"{path.name}.new").unlink()
    check(told == (200, f"no {first + 1} Unsaved"), f"names for which the disk has no space are told as {told}")
    check(page.names() == (first + 1, text) and path.read_text() == text, "a full disk has changed some names")
    check(page.rename(head + longest) == (200, f"ok {first + 2}"), "a name of 800 octets is refused")
    check(page.rename(f"names {first + 2}\n{{}}") == (200, f"ok {first + 3}"), "no names are refused")


def is_closed(connection):
    """Whether the page has closed a connection, over which nothing else comes."""
    connection.setblocking(False)
    try:
        return connection.recv(1) == b""
    except BlockingIOError:
        return False


def takes_others(page, operator, version):
    """Connections that say nothing keep nobody out, and those that say little keep others out for half a second."""
    silent = [socket.create_connection(("127.0.0.1", page.port), timeout=10) for _ in range(200)]
    check(page.ask("GET", "/")[0] == 200, "200 connections that say nothing keep others out")
    # The page has 32 places, and the oldest silent connection gives its place to a new one.
    check(all(is_closed(one) for one in silent[:168]), "the page keeps more than 32 connections that say nothing")
    check(page.ask("GET", "/")[0] == 200, "behind 200 connections that say nothing the page answers once")
    check(shown(operator)[-1] == f"end {version}", "connections that say nothing have changed the desk")
    for one in silent:
        one.close()
    slow = [socket.create_connection(("127.0.0.1", page.port), timeout=10) for _ in range(32)]
    for one in slow:
        one.sendall(b"G")
    time.sleep(0.7)
    check(page.ask("GET", "/")[0] == 200, "32 connections that have sent one octet keep others out")
    for one in slow:
        one.close()


def knows_its_state(page, ask, version):
    """A browser that has the desk's text is told nothing, until the desk is another one. The version after that."""
    after = lambda state: page.ask("GET", f"/desk.txt?after={state}")  # noqa: E731
    state = page.desk_and_state()[1]
    for _ in range(2):
        status, _, text = after(state)
        check((status, text) == (204, ""), f"a text that a browser has is told as {status} {text}")
    check(ask("add-room 6") == f"ok {version + 1}", "another operator's room is refused")
    time.sleep(0.2)
    status, _, text = after(state)
    check(status == 200 and "room 6\n" in text, f"another desk is told as {status} {text}")
    check(ask("remove-room 6") == f"ok {version + 2}", "another operator's removal is refused")
    time.sleep(0.2)
    for old in state, "", f"{state}0", state[:-1]:
        check(after(old)[0] == 200, f"after the state {old} a browser is told nothing")
    # A plain desk has no JSON.
    status = page.ask("GET", f"/desk?after={page.desk_and_state()[1]}")[0] if page.bridge else 200
    check(status == 200, f"JSON is told as {status} to a browser that has the lines")
    return version + 2


def serves_many(page, operator):
    """32 browsers that ask at once all get the desk and the history. One whose connection has to make way for another
    tries again, as the page's script does."""
    wanted = shown(operator), shown(operator, "history 256")

    def asks(_):
        for turn in range(30):
            try:
                return page.desk(), page.history()
            except (OSError, http.client.HTTPException):
                time.sleep(0.05 * turn)
        return None

    with concurrent.futures.ThreadPoolExecutor(MANY) as pool:
        for told in pool.map(asks, range(3 * MANY)):
            check(told == wanted, f"one of {MANY} browsers at once is told {told}")


def stands_silence(page, bridge, version):
    """A bridge that says nothing keeps nobody else waiting, and a call is sent once."""
    # The connection has the page's name then, and the next call goes to the bridge with no other line before it.
    check(page.call("mute 999")[1].startswith(f"no {version} "), "a mute of no source isn't refused")
    signal_all(bridge, signal.SIGSTOP)
    try:
        with concurrent.futures.ThreadPoolExecutor() as pool:
            waits = pool.submit(page.call, "add-room 8")
            time.sleep(0.2)
            begun = time.monotonic()
            check(
                page.ask("GET", "/page.js")[0] == 200 and time.monotonic() - begun < 0.5,
                "a silent bridge keeps the page waiting",
            )
            status, text = waits.result()
            check(status == 504 and text.startswith("Lost"), f"a call without an answer is told {status} {text}")
    finally:
        signal_all(bridge, signal.SIGCONT)
    time.sleep(0.5)
    rows, past = page.desk(), page.history()
    check(
        rows.count("room 8") <= 1 and rows[-1] in (f"end {version}", f"end {version + 1}"), "a lost call was sent again"
    )
    is_told = any(line.endswith(" add-room 8 8000") for line in past)
    check(is_told == ("room 8" in rows), f"the history doesn't tell whether a lost call was accepted: {past[-3:]}")


def finds_seats(page, bridge, port):
    """Where all seats are taken the page says so, and takes the next free one."""
    others = [seated(bridge, port) for _ in range(2)]
    status, _, text = page.ask("GET", "/desk")
    check(status == 503 and text.startswith("Busy"), f"with all seats taken the desk is {status} {text}")
    others[0].tell("quit")
    time.sleep(0.5)
    check(page.ask("GET", "/desk")[0] == 200, "the page doesn't take a free seat")
    others[1].tell("quit")
    check(bridge.poll() is None, "the bridge has ended")


def find_commands(browser):
    """Ends where a command isn't there that runs the page's script."""
    for command, package in ("node", "nodejs"), (browser, "chromium"):
        if not shutil.which(command):
            fail(
                f"there is no command `{command}`: install Debian's package {package}, or leave the page's script "
                "untried with --http-only"
            )


TRIES = "page_lines.js", "page_figures.js", "page_people.js"


def tried_by_node(files, tests):
    """What node says of tries of the page's functions, by the texts of their web files."""
    with tempfile.TemporaryDirectory() as folder:
        path = pathlib.Path(folder)
        for name, text in files.items():
            (path / name).write_text(text)
        (path / "package.json").write_text('{ "type": "module" }')
        (path / "all.js").write_text("".join(f'export * from "./{name}";\n' for name in files))
        here = pathlib.Path(__file__)
        words = ["node", here.with_name("page_run.mjs"), path / "all.js", here.with_name(tests)]
        return subprocess.run(words, capture_output=True, text=True, check=False)


def try_functions():
    """The functions of the page that touch no page, by themselves. The tries notice each bug that is planted."""
    files = {part: (WEB / part).read_text() for part in LINES.split()}
    for tests in TRIES:
        done = tried_by_node(files, tests)
        check(done.returncode == 0, f"the page's functions are wrong\n{done.stdout}{done.stderr}")
        print(done.stdout.strip())
    for name, old, new in PLANTS:
        check(files[name].count(old) == 1, f"web/{name} doesn't have `{old}` once: plant another bug there")
        planted = files | {name: files[name].replace(old, new)}
        missed = all(tried_by_node(planted, tests).returncode == 0 for tests in reversed(TRIES))
        check(not missed, f"no try of the page's functions notices `{new}` in place of `{old}`")
    print(f"{len(PLANTS)} bugs planted in the page's functions, each noticed")


def browse(args, folder, page, operator):
    """Two browsers go through a call."""
    address = f"http://127.0.0.1:{page.port}/"
    told = lambda most: shown(operator, f"history {most}")  # noqa: E731
    times = drive(args.browser, folder, address, lambda: shown(operator), told, operator.ask)
    check(max(times) <= 0.5, f"a change took {max(times):.2f} s to the second browser")
    print(f"a second browser sees a step after {statistics.median(times):.2f} s, and {max(times):.2f} s at most")


# What is tried by hand begins with this desk.
DESK = [
    *("add-room 1", "add-room 2"),
    *(f"add-member {it} 1 10.8.0.{it}:6000 pcmu {9000 + it} 0 0" for it in (10, 11, 12)),
    *(
        "add-source 201 10 audio",
        "add-source 202 11 audio",
        "add-source 101 10 video",
        "add-slot 501 11 0 0 0",
        "give-floor 1 10",
    ),
]


@dataclasses.dataclass
class Bridge:
    """What browsers are compared with, and what befalls them: another operator's call, the lines of `show` and of
    `history N`, how the bridge goes, comes back, and is replaced by one with another desk, and the file of names."""

    ask: object
    shown: object
    told: object
    go: object
    come: object
    other: object
    names: pathlib.Path


def try_by_hand(args, folder, address, bridge):
    """Two browsers try what operators do by hand."""
    ask = bridge.ask
    for line in DESK:
        check(ask(line).startswith("ok "), f"`{line}` is refused")
    one, two = opened(args.browser, folder, address), opened(args.browser, folder, address)
    try:
        handle(one, two, ask)
        names_things(one, two, bridge.names)
        keeps_the_desk(one, folder, ask, bridge.shown, bridge.told)
        shows_stale(one, bridge.go, bridge.come)
        finds_another(one, bridge.other, bridge.shown, bridge.told)
        stays_small(one, [standing(*size) for size in ((1, 2), (1, 64), (64, 16))])
        stays(one)
        watches(one)
        tells_persons(one, two)
        judges(one, two)
        reads_aloud(one)
        works_a_shift(one)
        costs_little(one)
    finally:
        one.close()
        two.close()


# The desk of a bridge that comes in place of another one.
OTHER = ["add-room 7", "add-member 70 7 10.8.1.70:6000 pcmu 9070 0 0", "add-source 270 70 audio", "mute 270"]


def standing(rooms, size):
    """A page over a plain desk with so many rooms of so many members: its port, another operator's call, and a source
    of a member."""
    one = standin.Standin()
    standin.fill(one, rooms, size)
    return standin.serve(one).server_port, one.ask, 201_000


class Told:
    """What an operator is told of a plain desk."""

    def __init__(self, one):
        self.one = one

    def shown(self, line="show"):
        return self.one.shown() if line == "show" else self.one.history()


def by_model(args, folder):
    """Two browsers go through a session at a page over a plain desk."""
    names = pathlib.Path(folder) / "names" / "names.json"
    names.parent.mkdir()
    one = standin.Standin(names)
    page = Page(standin.serve(one).server_port)
    page.load()
    keeps_names(page, names)
    address = f"http://127.0.0.1:{page.port}/"
    drive(args.browser, folder, address, one.shown, one.history, one.ask)
    clean(one.ask, one.shown)

    def sets(is_gone):
        one.is_gone = is_gone

    def other():
        sets(True)
        time.sleep(1)
        one.log = Log()
        sets(False)
        for line in OTHER:
            check(one.ask(line).startswith("ok "), f"`{line}` is refused")

    go, come = lambda: sets(True), lambda: sets(False)
    knows_its_state(page, one.ask, one.log.version)
    serves_many(page, Told(one))
    try_by_hand(args, folder, address, Bridge(one.ask, one.shown, one.history, go, come, other, names))
    with contextlib.closing(opened(args.browser, folder, address)) as browser:
        shows_counts(browser, one.ask, lambda counted: setattr(one, "counted", counted))
    print("a session at the page over a plain desk, no fault")


def by_firefox(command, folder):
    """Two of another browser go through a session at a page over a plain desk, where it is installed."""
    if not shutil.which(command):
        print(f"not tried in {command}, which isn't there: install Debian's package firefox-esr")
        return
    one = standin.Standin()
    address = f"http://127.0.0.1:{standin.serve(one).server_port}/"
    drive(command, folder, address, one.shown, one.history, one.ask)
    with (
        contextlib.closing(opened(command, folder, address)) as first,
        contextlib.closing(opened(command, folder, address)) as second,
    ):
        tells_persons(first, second)
        judges(first, second)
    print(f"a session at the page in {command}, no fault")


def clean(ask, shown_lines):
    """Removes all rooms."""
    for row in shown_lines():
        if row.startswith("room "):
            check(ask(f"remove-room {row.split()[1]}").startswith("ok "), f"{row} can't be removed")


def refuses_bad_names(args, folder):
    """A program whose file of names has none ends, and leaves the file as it is."""
    bad = pathlib.Path(folder) / "bad.json"
    bad.write_text('{"member 10":')
    words = ["--listen", "127.0.0.1:0", "--names", str(bad)]
    program = started("desk_page", args.page, words, args.seconds, folder)
    check(
        program.wait(timeout=600) == 4 and bad.read_text() == '{"member 10":',
        "a file without names isn't refused, or not kept",
    )


def serves_folder(args, folder):
    """With --web the program serves the files of a folder as they are at each request, and no others."""
    web, port = pathlib.Path(folder) / "web", free_port(socket.SOCK_STREAM)
    shutil.copytree(WEB, web)
    words = ["--listen", f"127.0.0.1:{port}", "--web", str(web)]
    program = started("desk_page", args.page, words, args.seconds, folder)
    try:
        connected(program, port).close()
        page = Page(port)
        page.load()
        for path in sorted(web.glob("*.*s*")):
            check(page.ask("GET", f"/{path.name}")[2] == path.read_text(), f"/{path.name} isn't the folder's file")
        (web / "hands.js").write_text("changed")
        kind = page.ask("GET", "/hands.js")[1].getheader("content-type")
        check(page.ask("GET", "/hands.js")[2] == "changed", "a file that was changed is served as it was")
        check(kind == "text/javascript; charset=utf-8", f"a script is served as {kind}")
        (web / "long.js").write_bytes(b"x" * ((1 << 20) + 1))
        (web / "folder.css").mkdir()
        (pathlib.Path(folder) / "outside.js").write_text("outside")
        for name in "view.jsx", "page.html", "../outside.js", "%2e%2e/outside.js", "gone.js", "long.js", "folder.css":
            status, _, text = page.ask("GET", f"/{name}")
            check(status == 404 and text.startswith("NotFound"), f"/{name} is told {status} {text[:80]}")
    finally:
        program.terminate()
        program.wait()
    program = started("desk_page", args.page, ["--listen", "127.0.0.1:0", "--web", folder], args.seconds, folder)
    check(program.wait(timeout=600) == 4, "a folder without the page isn't refused")


def follows(args, folder):
    """What the page's program tells by itself, over a bridge that counts its questions."""
    bridge, port = PlainBridge(standin.Standin()), free_port(socket.SOCK_STREAM)
    words = ["--bridge", f"127.0.0.1:{bridge.port}", "--listen", f"127.0.0.1:{port}"]
    program = started("desk_page", args.page, words, args.seconds, folder)
    try:
        connected(program, port).close()
        page = Page(port)
        page.load()
        judges_calls(page, bridge)
        is_followed(page, bridge)
    finally:
        program.terminate()
        program.wait()


def tried(args, folder, page, programs, words, names, udp):
    """Browsers at the page of a bridge that runs. Where the bridge is replaced, it is the last of the programs, at the
    same port for media."""
    port = page.bridge
    it = [seated(programs[-1], port)]

    def ask(line):
        return it[0].ask(line)

    def told(most):
        return shown(it[0], f"history {most}")

    def other():
        it[0].tell("stop")
        programs[-1].wait(timeout=ENDS)
        programs.append(started("confbridge", args.binary, words, args.seconds, folder))
        it[0] = seated(programs[-1], port)
        for line in OTHER:
            check(ask(line).startswith("ok "), f"`{line}` is refused")

    def signals(number):
        return lambda: signal_all(programs[-1], number)

    browse(args, folder, page, it[0])
    clean(ask, lambda: shown(it[0]))
    bridge = Bridge(ask, lambda: shown(it[0]), told, signals(signal.SIGSTOP), signals(signal.SIGCONT), other, names)
    address = f"http://127.0.0.1:{page.port}/"
    try_by_hand(args, folder, address, bridge)
    with contextlib.closing(opened(args.browser, folder, address)) as browser:
        shows_loss(browser, ask, udp)
    it[0].tell("quit")


def session(args, folder):
    names = pathlib.Path(folder) / "names" / "names.json"
    names.parent.mkdir()
    udp, tcp, port = free_port(socket.SOCK_DGRAM), free_port(socket.SOCK_STREAM), free_port(socket.SOCK_STREAM)
    words = ["serve", settings(folder, udp, tcp)]
    addresses = ["--bridge", f"127.0.0.1:{tcp}", "--listen", f"127.0.0.1:{port}", "--names", str(names)]
    programs = [
        started("confbridge", args.binary, words, args.seconds, folder),
        started("desk_page", args.page, addresses, args.seconds, folder),
    ]
    try:
        page, operator = Page(port, tcp), seated(programs[0], tcp)
        connected(programs[1], port).close()
        page.load()
        keeps_names(page, names)
        version = names_callers(page, operator, sees_others(page, operator, go_through(page, operator)))
        refuses(page, operator, version)
        takes_others(page, operator, version)
        version = knows_its_state(page, operator.ask, version)
        serves_many(page, operator)
        version += tells_loss(page, operator.ask, udp)
        stands_silence(page, programs[0], version)
        operator.tell("stop")
        programs[0].wait(timeout=ENDS)
        status, _, text = page.ask("GET", "/desk")
        check(status == 502 and text.startswith("Gone"), f"without a bridge the desk is {status} {text}")
        programs.append(started("confbridge", args.binary, words, args.seconds, folder))
        finds_seats(page, programs[-1], tcp)
        if not args.http_only:
            tried(args, folder, page, programs, words, names, udp)
        check(page.call("add-room 9")[1].startswith("ok "), "the page doesn't find the bridge that came back")
    finally:
        # `rt try` ends the program that it runs once it is asked to end, and leaves it behind where it is killed.
        for program in programs:
            program.terminate()
            program.wait()
    print(f"a session of {version} versions at the page, no fault")


def run(args):
    if not args.http_only:
        find_commands(args.browser)
        try_functions()
    with tempfile.TemporaryDirectory(ignore_cleanup_errors=True) as folder:
        if args.pictures:
            take_pictures(args.browser, folder, args.pictures)
        elif args.model:
            by_model(args, folder)
            by_firefox(args.firefox, folder)
        else:
            refuses_bad_names(args, folder)
            serves_folder(args, folder)
            follows(args, folder)
            session(args, folder)
            if not args.http_only:
                by_firefox(args.firefox, folder)
    return 0
