"""What signalling asks of an agent, by JSON over HTTP. Any agent answers, and passes on what is another one's.

    GET  /                all bridges and rooms, and the calls of operators that may be lost
    GET  /where?room=12   its bridge, or the one that it would get now. It is a question: nothing changes. `at` says by
                          its `udp` which one is best for a room without a bridge
    GET  /where?room=12&follow   the same as server-sent events: now, and whenever it changes. Without `room`: those of
                          all rooms, as they change
    GET  /pages           where browsers join at the bridges. An agent that is cut off refuses
    POST /join    {"room": 12, "address": "10.0.0.9:6000", "voice": SSRC, "camera": SSRC, "slots": 3, "codec": "pcmu"}
                  A room gets its bridge now. Without `address` it gets no member: a gateway adds its own, and the room
                  goes where there is none after 10 s. `source` says for whom a room is opened (left out: the host of
                  `address`), and `at` is as that of a question
    POST /leave   {"room": 12, "member": 12001}
    POST /move    {"room": 12, "to": "b"}
    POST /drain   {"bridge": "a", "move": true}: no new rooms, and `stop` once it has none. `move` sends them elsewhere,
                  and `off` takes a drain back
    POST /lead    {"room": 12, "source": .., "at": ..} or {"room": 12, "to": "b"}: what an agent asks the leader, to
                  place a room or to move one
"""

import contextlib
import json
import re
import time
import urllib.error
import urllib.request

from body import FLAG, ROOM, text, whole
from desk import in_words
from fleet_rooms import LEAST
from fleet_secret import signed
from known import NEW
from past import MEMBERS
from refused import Refused
from server import Followed, Handler

# How many seconds a request waits for a room that moves, or for the fleet to know what it was told; and for etcd, where
# that has just been lost.
PATIENCE, READING = 5, 2
MOVING = 409
U32 = 2**32 - 1
NOBODY = "The agent of this room's bridge doesn't answer. Try again in a second."
# How many octets of another agent's answer are read.
MOST_OCTETS = 100_000


def room_of(words):
    if not re.fullmatch("[0-9]{1,9}", str(words["room"])):
        raise Refused("A room is a number of at most nine digits.", 404)
    return int(words["room"])


class Asked:
    def __init__(self, agent, secret, most):
        """`most`: how many rooms that one source has opened there may be."""
        self.agent, self.copy, self.secret, self.most = agent, agent.copy, secret, most

    @contextlib.contextmanager
    def told(self):
        """Who asks an agent that has lost the others is told so."""
        try:
            yield
        except Refused as why:
            raise self.agent.in_words(why) from None

    def place(self, words):
        """What is known, once a room has a bridge or goes to one: the leader has chosen it."""
        room = room_of(words)
        if room not in self.copy.current(READING).rooms:
            source = words.get("source", words.get("address", "").partition(":")[0])
            at = {"at": words["at"]} if "at" in words else {}
            if "passed" not in words:
                self.led({"room": room, "source": source} | at)
            # Others may have heard of it before this agent has.
            if not self.copy.until(lambda known: room in known.rooms, PATIENCE):
                raise Refused("Two agents don't know the same. Try again in a second.", MOVING)
        return self.copy.known

    def led(self, words):
        """Has the leader change something."""
        self.copy.current(READING)
        if not self.copy.until(lambda known: known.leader, PATIENCE):
            raise Refused("The fleet has no leader in this moment. Try again in some seconds.")
        leader = self.copy.known.leader
        if leader == self.agent.url:
            return self.lead(words)
        return self.passed_on(f"{leader}/lead", words)

    def lead(self, words):
        self.agent.demand()
        leader, room = self.agent.leader, room_of(words)
        if "to" in words:
            return {"revision": leader.move(room, words["to"])}
        return {"revision": leader.place(room, words.get("source", ""), words.get("at"), self.most)}

    def found(self, words):
        """What is known, where a room is there."""
        known = self.copy.current(READING)
        if room_of(words) not in known.rooms:
            raise Refused(f"There is no room {words['room']}.", 404)
        return known

    def where(self, words):
        """The bridge of a room, and whether it has that already."""
        room = room_of(words)
        with self.copy.lock:
            known = self.copy.current(READING)
            if room in known.rooms:
                return bridge_of(room, known) | {"placed": True}
            bridge = known.chosen(at=words.get("at"))
            return {"bridge": bridge, **known.bridges[bridge], "placed": False}

    def place_of(self, room):
        """What those are told who follow a room: None where nobody knows it in this moment."""
        with self.copy.lock:
            known = self.copy.known
            record = known.rooms.get(room, (None, 0))[0]
            if not self.copy.is_current or record and record["on"] not in known.bridges:
                return None
            bridge = record and record["on"]
            return {"room": room, "bridge": bridge} | (known.bridges[bridge] if bridge else {})

    def at_bridge(self, path, words, find, work):
        """Does a work where a room is, once `find` says what is known of it. It waits for a room that moves."""
        end = time.monotonic() + PATIENCE
        while True:
            try:
                known = find(words)
                told = bridge_of(room_of(words), known)
                if told["bridge"] in self.agent.bridges:
                    self.agent.demand()
                    return work(self.agent.bridges[told["bridge"]], room_of(words), words) | {"udp": told["udp"]}
                if "passed" in words:
                    raise Refused("Two agents don't know the same. Try again in a second.", MOVING)
                if not known.has_agent(told["bridge"]):
                    raise Refused(NOBODY, MOVING)
                return self.passed_on(f"{told['agent']}/{path}", words)
            except Refused as why:
                if why.status != MOVING or "passed" in words or time.monotonic() > end:
                    raise
            time.sleep(0.1)

    def stands(self, bridge, room):
        """A room's record, once it is on a bridge whose lock is held, and stays there."""
        bridge.see()
        # All that are to come, and not this one alone: an etcd that is slow would make each of them a wait for the others.
        self.agent.bring_all(bridge)
        record, revision = self.copy.known.rooms.get(room, (None, 0))
        if not record or record["on"] != bridge.name or record["to"] or room not in bridge.rooms:
            raise Refused((record or NEW)["why"] or f"Room {room} moves. Try again in a second.", MOVING)
        return record, revision

    def join(self, words):
        if "address" not in words:
            return self.at_bridge("join", words, self.place, self.open_here)
        address, codec = words["address"], words.get("codec", "pcmu")
        if not re.fullmatch(r"[0-9.]+:[0-9]+", address) or codec not in ("pcmu", "l16"):
            raise Refused("A member has an address such as 10.0.0.9:6000, and the codec pcmu or l16.", 400)
        if not 0 < room_of(words) < LEAST // MEMBERS:
            raise Refused(f"A room is a number from 1 to {LEAST // MEMBERS - 1}.", 404)
        return self.at_bridge("join", words, self.place, self.join_here)

    def open_here(self, bridge, room, _):
        """Opens a room, or lets one stay for as long as a newcomer takes."""
        with bridge.lock:
            self.stands(bridge, room)
            bridge.empty.pop(room, None)
        return {"bridge": bridge.name, "page": bridge.settings["page"], "sip": bridge.settings["sip"]}

    def join_here(self, bridge, room, words):
        with bridge.lock:
            record, revision = self.stands(bridge, room)
            refusal, joined = bridge.join(room, words)
            if refusal and not bridge.members(room):
                bridge.remove(room)
                self.copy.end_room(room, revision)
            if refusal:
                raise Refused(f"{in_words(refusal)} ({bridge.name}: {refusal})")
            # It is a member. Where etcd doesn't answer just now, its rows are kept later.
            with contextlib.suppress(Refused):
                self.agent.keep(bridge, {room: (record, revision)})
        return joined | {"bridge": bridge.name}

    def leave(self, words):
        return self.at_bridge("leave", words, self.found, self.leave_here)

    def leave_here(self, bridge, room, words):
        with bridge.lock:
            record, revision = self.stands(bridge, room)
            if words["member"] not in bridge.members(room):
                raise Refused(f"Room {room} has no member {words['member']}.", 404)
            refusal = bridge.leave(room, words["member"])
            if refusal:
                raise Refused(f"The bridge refuses: {refusal}", 404)
            self.agent.keep(bridge, {room: (record, revision)})
        return {"bridge": bridge.name}

    def move(self, words):
        room, to = room_of(words), words["to"]
        begun = self.led({"room": room, "to": to})["revision"]
        if not begun:
            raise Refused(f"Room {room} changes in this moment. Try again in a second.", MOVING)
        record = lambda known: known.rooms.get(room, (NEW, 0))[0]
        is_over = lambda known: known.revision(room) == 0 or known.revision(room) > begun and record(known)["to"] is None
        if not self.copy.until(is_over, PATIENCE):
            raise Refused(f"Room {room} is still on its way to {to}.", MOVING)
        where = record(self.copy.known)
        if where["on"] != to:
            raise Refused(f"Room {room} stays on {where['on']}. {where['why']}")
        return {"bridge": to}

    def drain(self, words):
        name, bridges = words["bridge"], self.copy.current(READING).bridges
        if name not in bridges:
            raise Refused(f"There is no bridge {name}.", 404)
        if name not in self.agent.bridges:
            if "passed" in words:
                raise Refused("Two agents don't know the same. Try again in a second.", MOVING)
            return self.passed_on(f"{bridges[name]['agent']}/drain", words)
        drain = None if words.get("off") else {"move": bool(words.get("move"))}
        self.copy.put(f"draining/{name}", drain)
        # Once it has no room, the bridge is stopped, since this agent was asked for it.
        self.agent.bridges[name].may_stop = drain is not None
        return {"bridge": name}

    def passed_on(self, url, words):
        """What another agent answers."""
        try:
            request = signed(self.secret, url, json.dumps(words | {"passed": True}).encode())
            with urllib.request.urlopen(request, timeout=10) as said:
                return json.loads(said.read(MOST_OCTETS))
        except urllib.error.HTTPError as why:
            raise Refused(why.read(MOST_OCTETS).decode("ascii", "backslashreplace"), why.code) from None
        except (OSError, ValueError):
            raise Refused(NOBODY, MOVING) from None


def bridge_of(room, known):
    """A room's bridge and what is known of that."""
    record = known.rooms[room][0]
    bridge = record["on"] or record["to"]
    if bridge not in known.bridges:
        raise Refused(record["why"] or f"Room {room} is on its way. Try again in a second.", MOVING)
    return {"bridge": bridge, **known.bridges[bridge]}


class ForFleet(Handler):
    """The requests of signalling and of other agents. They come from no page."""

    asked = None
    # `passed`: another agent has passed the request on.
    REQUESTS = {
        "where": [{"room": ROOM}, {"at": text(200)}],
        "join": [
            {"room": ROOM},
            {
                "address": text(200), "voice": whole(U32), "camera": whole(U32), "slots": whole(16), "codec": text(4),
                "source": text(200), "at": text(200), "passed": FLAG,
            },
        ],
        "leave": [{"room": ROOM, "member": whole(U32)}, {"passed": FLAG}],
        "move": [{"room": ROOM, "to": text(200)}],
        "lead": [{"room": ROOM}, {"source": text(200), "at": text(200), "to": text(200), "passed": FLAG}],
        "drain": [{"bridge": text(200)}, {"move": FLAG, "off": FLAG, "passed": FLAG}],
    }  # fmt: skip

    def carried_out(self, path, words):
        with self.asked.told():
            return getattr(self.asked, path)(words)

    def questioned(self, path, query):
        with self.asked.told():
            return self.answer(path, query)

    def answer(self, path, query):
        if path == "where" and "follow" in query:
            return Followed(room_of(query) if "room" in query else None)
        if path == "where":
            return self.asked.where({"room": ""} | query)
        if path == "pages":
            self.asked.agent.demand()
            bridges = self.asked.copy.known.bridges.values()
            return {"pages": sorted({one["page"] for one in bridges} - {""})}
        if path:
            raise Refused(f"There is no question /{path[:40]}.", 404)
        agent, copy = self.asked.agent, self.asked.copy
        with copy.lock:
            known = copy.current(READING)
            rooms = {room: record for room, (record, _) in known.rooms.items()}
            told = {"bridges": known.bridges, "draining": known.draining, "agents": [*known.agents]}
            told |= {"leader": known.leader, "lost": [*agent.lost]}
            return told | {"rooms": rooms}
