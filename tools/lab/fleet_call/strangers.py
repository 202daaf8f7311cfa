"""Strangers at a fleet: requests without its secret, rooms that nobody joins, and what somebody has written to etcd."""

import base64
import itertools
import json
import socket
import time
import urllib.request

from checks.bridges import status_of
from lab.fleet_call.parts import ROOMS_OF_SOURCE, SECRET, USER, Store, signature, signed, until

from known import NEW  # noqa: E402

# How many strangers ask, and the first of the rooms that they ask for.
COUNT, FIRST = 32, 5001
# What somebody writes to etcd in place of a room's groups. The room is 4242.
NO_ROWS = [
    ["group add-room 4242", "stop"], ["stop"], ["group add-room 4242 / remove-room 1"], ["undo 1"], "stop", {"a": 1},
    ["group add-room 4242\nstop"], ["group add-room 4242 / add-member 7 1 127.0.0.1:9 pcmu 7 0 0"],
    ["group add-room 4243"], ["group add-room 4242 / mute 1"], [7], [], ["group add-room 4242 / watch"],
]  # fmt: skip
# And in place of an operator's call, behind a member of the room that has a voice.
MADE = "group add-room 4242 / add-member 7 4242 127.0.0.1:9 pcmu 70 0 0 / add-source 71 7 audio"
NO_CALLS = [
    "stop", "undo 1", "revert 1", "watch", "remove-room 4242", "add-room 4243", "move-member 7 1", "mute 72",
    "mute 071", "unmute 71", "remove-member 1001", "remove-member 8", "take-floor 1", "unpin 1", "mute 71\nstop",
    "add-member 8 1 127.0.0.1:8 pcmu 8 0 0", "add-member 8 4242 127.0.0.1:9 pcmu 8 0 0", "group mute 71 / stop",
    "group mute 71 / remove-room 1", "group mute 71 / mute 71", "group", "",
    " / ".join(["group mute 71", *32 * ["unmute 71", "mute 71"]]),
]  # fmt: skip
NO_ROWS += [[MADE, f"call 1 {one}"] for one in NO_CALLS] + [[MADE, f"call {one}mute 71"] for one in ("", "-1 ", "x ")]
NO_ROWS += [["call 1 mute 71"], [MADE, *(f"call {at} {'un' * (at % 2)}mute 71" for at in range(66))]]
# And as a change of a room.
NO_CHANGES = [
    {"gone": [], "come": [[1, "call 1 stop"]]}, {"gone": [], "come": [[1, "call 1 remove-room 1"]]},
    {"gone": [], "come": [[1, "stop"]]}, {"gone": [], "come": [[1, "add-room 4243"]]}, {"gone": [], "come": "mute 1"},
    {"gone": ["add-room 4242"], "come": [[0, "undo 1"]]}, {"gone": [7], "come": []}, {"come": []}, "stop", None,
    {"gone": [], "come": [[0, "add-room 4242 / stop"]]}, {"gone": [], "come": [[-1, "add-room 4242"]]},
]  # fmt: skip
# And in place of a room's record.
NO_RECORDS = [7, "x", [], {}, {"on": "a"}, None]
# How many connections are opened that say half a request, and how many threads an agent may have.
HALVES, THREADS = 400, 150


def put(store, key, value):
    """Writes to etcd as anybody may who has its password. A value of bytes is written as it is."""
    octets = value if isinstance(value, bytes) else json.dumps(value).encode()
    key, octets = (base64.b64encode(one).decode() for one in (key.encode(), octets))
    return store.ask("kv/put", key=key, value=octets)


class Strangers:
    """The steps of a fleet's check that have strangers."""

    def unsigned(self, path, body=None, **headers):
        """The status of a request with these headers, and what it is answered."""
        agent = self.agents["b"]
        request = urllib.request.Request(f"{agent.url}/{path}", body, headers)
        return agent.sent(request)

    def step_secret(self):
        """Requests that aren't signed, or not by the secret, for this agent and now."""
        before, agent = (self.desks(), self.records()), self.agents["b"]
        host, body = agent.url.partition("://")[2], json.dumps({"room": 1, "member": 1001}).encode()
        now = time.time_ns()

        def word(secret=SECRET, at=host, moment=now, path="/leave", given=body):
            return f"Fleet {moment} {signature(secret, 'POST', at, path, moment, given)}"

        for text, headers, status, words in (
            ("no signature", {}, 401, "signed by the fleet's secret alone"),
            ("another secret", {"Authorization": word(b"x" * 40)}, 401, "signed by another secret"),
            ("another host's", {"Authorization": word(at="10.0.0.1:1")}, 401, "for another host"),
            ("another path's", {"Authorization": word(path="/join")}, 401, "signed by another secret"),
            ("another body's", {"Authorization": word(given=b"{}")}, 401, "signed by another secret"),
            ("an old one", {"Authorization": word(moment=now - 60 * 10**9)}, 401, "signed 30 s ago or more"),
            ("a name that isn't the agent's", {"Host": f"evil.example:{agent.port}"}, 421, "names another host"),
            ("a page", {"Origin": agent.url, "Authorization": word(moment=now)}, 403, "A page of a browser asks"),
        ):
            self.told(self.unsigned("leave", body, **headers), status, words, f"a leave, {text}")
        for text, headers, status in (
            ("no signature", {}, 401),
            ("another name", {"Host": "evil.example"}, 421),
            ("a page", {"Origin": "http://evil.example"}, 403),
        ):
            said = self.unsigned("", **headers)
            self.check(said[0] == status and "bridges" not in str(said[1]), f"a question, {text}: {status}", said)
        twice = signed(SECRET, f"{agent.url}/where?room=1")
        said = agent.sent(twice), agent.sent(twice)
        self.check([status for status, _ in said] == [200, 401], "a request that comes twice counts once", said)
        self.check((self.desks(), self.records()) == before, "no desk and no record changes", before)

    def step_questions(self):
        """Strangers who ask for rooms, and never join."""
        before, agents = (self.desks(), self.records()), [*self.agents.values()]
        said = []
        for at, room in enumerate(range(FIRST, FIRST + COUNT)):
            said.append(agents[at % 3].sent(signed(SECRET, f"{agents[at % 3].url}/where?room={room}")))
            said.append(agents[at % 3].ask("where", room=room))
        placed = [one for status, one in said if status != 200 or one["placed"]]
        self.check(not placed, f"{2 * COUNT} questions for rooms that aren't there name a bridge", placed)
        time.sleep(0.6)
        self.check((self.desks(), self.records()) == before, "and change no desk and no record", before)
        here = next(iter(self.records()))
        said = agents[0].sent(signed(SECRET, f"{agents[0].url}/where?room={here}"))
        good = said[0] == 200 and said[1]["placed"] and said[1]["bridge"] == self.places()[here][0]
        self.check(good, "a question for a room that is there says where", said)

    def step_empty(self):
        """One source opens rooms that nobody joins."""
        before = self.records().keys()
        rooms = range(FIRST, FIRST + ROOMS_OF_SOURCE)
        said = [self.agents["abc"[room % 3]].ask("join", room=room, source="a stranger") for room in rooms]
        self.check({status for status, _ in said} == {200}, f"a source opens {len(rooms)} rooms", said)
        said = self.agents["a"].ask("join", room=FIRST + 100, source="a stranger")
        words = f"a stranger has opened {ROOMS_OF_SOURCE} rooms of this fleet, as many as one may"
        self.told(said, 429, words, "one more is refused")
        begun = time.monotonic()
        for room in rooms:
            self.join("a", room + 200, source="127.0.0.9", address=f"127.0.0.9:{room}")
        said = self.join("b", FIRST + 300, source="127.0.0.9", address="127.0.0.9:9")
        self.told(said, 429, "127.0.0.9 has opened", "who joins rooms of its own from one address has as many")
        joined = self.join("a", FIRST)
        self.told(joined, 200, "'member'", "somebody joins one of the empty rooms")
        kept = before | {FIRST} | {room + 200 for room in rooms}
        self.comes(lambda: self.records().keys() == kept, "the others end", 30)
        took = time.monotonic() - begun
        self.check(9 < took, f"not before 10 s have passed ({took:.1f} s)", took)
        self.comes(lambda: self.stand_once(kept), "the desks are without them")
        for room in kept - before:
            for row in self.rows(room):
                if row.startswith("member "):
                    self.agents["c"].ask("leave", room=room, member=int(row.split(" ")[2]))
        self.comes(lambda: self.records().keys() == before, "and the fleet is as it was")

    def step_leave(self):
        """A member leaves its own room, and no other one."""
        room, other = sorted(self.desks()["b"][0])[:2]
        member = int(next(row.split(" ")[2] for row in self.rows(other) if row.startswith("member ")))
        before = self.rows(other)
        said = self.agents["c"].ask("leave", room=room, member=member)
        self.told(said, 404, f"Room {room} has no member {member}", "a leave that names another room's member")
        self.check(self.rows(other) == before, "leaves that one as it was")

    def step_etcd_lines(self):
        """Somebody has the password of etcd, and writes what agents wouldn't."""
        store, before = Store([self.etcd.url], USER), self.desks()
        self.written_groups(store)
        self.written_records(store)
        self.check(self.desks() == before, "no desk has changed", (before, self.desks()))
        self.written_call(store)
        room = next(iter(self.records()))
        put(store, f"/confbridge/fleet/draining/{self.places()[room][0]}", {"move": "yes"})
        put(store, "/confbridge/fleet/draining/a", {"move": True})
        self.comes(lambda: not self.desks()["a"][0], "what etcd says of a drain moves rooms")
        time.sleep(1.5)
        self.check(self.bridges["a"].is_up(), "and stops no bridge")
        for name in "abc":
            store.swap([(f"/confbridge/fleet/draining/{name}", None, None)])
        self.goes(31, "a", "room 31 goes back")
        logs = {name: one.log.read_bytes() for name, one in self.agents.items()}
        strange = {name: log[-300:] for name, log in logs.items() if not all(32 <= it < 127 or it == 10 for it in log)}
        self.check(not strange, "agents' logs have printable octets alone", strange)

    def written_groups(self, store):
        """Groups that make anything but the room's rows."""
        record = {"on": None, "ready": False, "members": 1, "version": 0, "tried": [], "why": "", "after": 0}
        for groups in NO_ROWS:
            put(store, "/confbridge/desks/4242", groups)
            for name in self.bridges:
                put(store, "/confbridge/fleet/rooms/4242", record | {"to": name, "source": "", "placed": 0})
                said = until(lambda: (self.etcd.store.room(4242)[0] or {}).get("to") != name, 10)
                good = said is not None and 4242 not in self.places() and self.bridges[name].is_up()
                if not good:
                    self.check(False, f"{groups} in etcd", (said, self.places().get(4242), self.logs()[name]))
        self.check(True, f"{len(NO_ROWS)} things in place of a room's groups: no bridge gets a line of them")
        # The change first: the room may still be on its way to a bridge.
        put(store, "/confbridge/desks/4242/0000", NO_CHANGES[0])
        put(store, "/confbridge/desks/4242", ["group add-room 4242"])
        for change, name in zip(NO_CHANGES, itertools.cycle(self.bridges)):
            put(store, "/confbridge/desks/4242/0000", change)
            put(store, "/confbridge/fleet/rooms/4242", record | {"to": name, "source": "", "placed": 0})
            said = until(lambda: (self.etcd.store.room(4242)[0] or {}).get("to") != name, 10)
            if said is None or 4242 in self.places() or not self.bridges[name].is_up():
                self.check(False, f"{change} in etcd", (said, self.places().get(4242), self.logs()[name]))
        self.check(True, f"{len(NO_CHANGES)} things in place of a change: no bridge gets a line of them")
        for key in "fleet/rooms/4242", "desks/4242", "desks/4242/":
            store.swap([(f"/confbridge/{key}", None, None)])

    def written_call(self, store):
        """A room and a call in the form that agents give them."""
        put(store, "/confbridge/desks/4242", [MADE, "call 1 mute 71"])
        put(store, "/confbridge/fleet/rooms/4242", NEW | {"to": "c"})
        self.comes(lambda: "mute 71" in self.rows(4242), "a room and a call of the right form are made")
        self.bridges["c"].do("remove-room 4242")
        self.comes(lambda: 4242 not in self.records(), "and removed")

    def written_records(self, store):
        """Values that are no records, and keys that are no rooms."""
        for value in [*NO_RECORDS, b"\x80", b"{", b"[" * 90_000]:
            put(store, "/confbridge/fleet/rooms/4242", value)
            put(store, "/confbridge/fleet/bridges/z", value)
        for key in "rooms/x", "rooms/\x1b]0;x\x07", "bridges/\x1b[2J", "load/x", "rooms/-1", "draining/a/b":
            put(store, f"/confbridge/fleet/{key}", {"move": True})
        time.sleep(1)
        knows = lambda: all(one.knows() == 3 for one in self.agents.values())
        self.comes(knows, "values and keys that are no agent's are passed over")
        for folder in "rooms/", "bridges/", "load/", "draining/":
            for key, (value, _) in store.read(f"/confbridge/fleet/{folder}").items():
                if not (isinstance(value, dict) and ("on" in value or "udp" in value)):
                    store.swap([(f"/confbridge/fleet/{folder}{key}", None, None)])

    def step_halves(self):
        """Connections that say half a request."""
        agent = self.agents["c"]
        halves = []
        for _ in range(HALVES):
            one = socket.create_connection(("127.0.0.1", agent.port), 20)
            one.sendall(b"POST /join HTTP/1.1\r\nHost: x\r\nContent-Length: 100\r\n")
            halves.append(one)
        begun = time.monotonic()
        said, took = agent.ask(""), time.monotonic() - begun
        threads = int(status_of(agent.process)["Threads"])
        self.check(said[0] == 200, f"an honest question beside {HALVES} halves of requests, {took:.2f} s", said)
        self.check(threads <= THREADS, f"the agent has {threads} threads", threads)
        ended = until(lambda: all(map(has_ended, halves)), 30)
        self.check(ended is not None, "each half is ended before long")
        for one in halves:
            one.close()


def has_ended(connection):
    """Whether the other side has closed a connection."""
    connection.setblocking(False)
    try:
        return connection.recv(1) == b""
    except BlockingIOError:
        return False
    except OSError:
        return True
