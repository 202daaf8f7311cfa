"""Gateways beside the bridges of a fleet: what becomes of calls whose room moves. No media pass here."""

import itertools
import json
import time

from lab.fleet_call.parts import PAGES, until
from lab.gateway_call.again import Page
from lab.gateway_call.parts import AWAY, Parts
from lab.gateway_call.refusals import answer_of, offer_of
from operators.serving import Answering

# The rooms that this uses, and the SSRC of a browser that keeps it: real ones draw another one for each call.
HERE, THERE, FALLEN, SSRC = 60, 61, 66, 600_000
# After how many seconds a member that the fleet has brought is still to be there.
STAYS = 3
# How many strangers only ask, and the first of their rooms.
STRANGERS, NOBODY = 32, 6001


class Engine(Answering):
    """The control port of rtpengine, answered as if all media came."""

    def __init__(self):
        self.ports, self.calls = itertools.count(40_000, 2), {}
        super().__init__()

    def answer(self, octets):
        cookie, _, words = octets.partition(b" ")
        said = json.dumps({"result": "ok"} | self.told(json.loads(words)))
        return cookie + b" " + said.encode()

    def told(self, words):
        call = words.get("call-id")
        if words["command"] == "offer":
            self.calls[call] = 0
        if words["command"] in ("offer", "answer"):
            return {"sdp": offer_of([f"m=audio {next(self.ports)} RTP/AVPF 0 96", "a=ice-ufrag:x", "a=setup:actpass"])}
        if words["command"] == "query":
            self.calls[call] = self.calls.get(call, 0) + 1
            stats = {"packets": self.calls[call], "errors": 0}
            return {"tags": {"browser": {"medias": [{"streams": [{"stats": stats}]}]}}}
        if words["command"] == "delete":
            self.calls.pop(call, None)
        return {"calls": []} if words["command"] == "list" else {}


class Gateway(Parts):
    """An agent of examples/gateway beside a bridge, and browsers that ask it."""

    def __init__(self, folder, bridge, engine, agent, first_member, **more):
        fleet = f"http://127.0.0.1:{agent.port}"
        super().__init__(folder, bridge.udp, bridge.tcp, engine.port, first_member, fleet, **more)
        self.start("agent")

    def offered(self, room):
        """The id of a call that isn't answered yet."""
        status, told = self.ask("offer", room=str(room), name="test")
        return told["id"] if status == 200 else None

    def answered(self, id, ssrc):
        return self.ask("answer", id=id, sdp=answer_of(ssrc=ssrc))

    def joined(self, room, ssrc=SSRC):
        """The id of a call, and what the browser is told."""
        status, told = self.ask("offer", room=str(room), name="test")
        return (told["id"], self.answered(told["id"], ssrc)) if status == 200 else (None, (status, told))


class Gatewayed:
    """The step of a fleet's check that has gateways beside its bridges."""

    def step_gateways(self):
        engine = self.begun(Engine())
        self.gateways = {
            name: self.begun(Gateway(self.folder, self.bridges[name], engine, self.agents[name], first))
            for name, first in (("a", 1_000_200_000), ("b", 1_000_000_000), ("c", 1_000_100_000))
        }
        b, c = self.gateways["b"], self.gateways["c"]
        # Signalling's own members stay in the rooms, whatever becomes of calls.
        own, other = self.held(HERE, "b"), self.held(THERE, "c")
        self.page, ids = Page(b, "moved", SSRC, HERE), [c.joined(THERE, SSRC + 1)]
        said = self.page.said, ids[0][1]
        self.check([one[0] for one in said] == [200, 200], "browsers join at the gateways of two bridges", said)
        self.bridges["b"].do(f"mute {SSRC}")
        self.only_asks(b)
        words = f"Room {HERE} is on bridge b of the fleet now. Join it at {PAGES}/b/?room={HERE}"
        self.told(c.joined(HERE)[1], 421, words, "at the gateway of another bridge one is told where the room is")
        self.goes(HERE, "c", "the room of a call moves there")
        self.follows_room(self.page, c, "c", SSRC + 10, "its room has moved")
        self.check(self.members(HERE) == sorted([own, self.page.told["member"]]), "nobody is a member twice")
        self.moves_while_joining(c)
        self.ends_below(b)
        self.page.parts.ask("leave", id=self.page.id)
        text = "no call leaves a row behind, once all who may come again had their time"
        self.comes(lambda: self.members(HERE) == [own], text, AWAY + 20)
        for room, one in (HERE, own), (THERE, other):
            self.agents["a"].ask("leave", room=room, member=one)
        c.ask("leave", id=ids[0][0])
        gone = lambda: not {HERE, THERE} & (self.places().keys() | self.records().keys())
        self.comes(gone, "rooms and their records go with the last call or member that leaves")
        for one in self.gateways.values():
            one.close()

    def follows_room(self, page, gateway, name, ssrc, text):
        """A page whose room is on another bridge now comes again there without a click. It is the member that it was,
        and muted as that one was."""
        member = page.told["member"]
        told = f"{text}: its page is told where it is, and comes again by itself"
        self.comes(lambda: page.may_come() and page.parted["page"] == f"{PAGES}/{name}", told)
        time.sleep(STAYS)
        kept = member in self.members(page.room)
        self.check(kept, f"{text}: {STAYS} s later the member that was brought is still there", self.rows(page.room))
        page.parts = gateway
        said = (0, "")

        def comes():
            nonlocal said
            said = page.comes_again(ssrc)
            return said[0] == 200

        self.comes(comes, f"{text}: the gateway there takes the call over")
        good = said[0] == 200 and said[1]["member"] == member
        self.check(good, f"{text}: it is the member that it was", said)
        rows = self.rows(page.room)
        self.check(f"mute {ssrc}" in rows, f"{text}: what an operator muted stays muted, under its new SSRC", rows)
        state = page.state()
        good = state[0] == 200 and state[1]["muted"] == [ssrc] and state[1]["room"] == page.room
        self.check(good, f"{text}: its page says so", state)

    def only_asks(self, gateway):
        """Strangers ask for offers, and never join."""
        rooms = lambda: (self.places().keys(), self.records().keys())
        before, ids = rooms(), [gateway.offered(room) for room in range(NOBODY, NOBODY + STRANGERS)]
        time.sleep(0.6)
        text = f"{STRANGERS} offers, {len(ids) - ids.count(None)} of them made, which nobody answers, open no room"
        self.check(rooms() == before, text, (before, rooms()))
        for id in filter(None, ids):
            gateway.ask("leave", id=id)

    def members(self, room):
        return sorted(int(row.split(" ")[2]) for row in self.rows(room) if row.startswith("member "))

    def moves_while_joining(self, c):
        """A room moves between a browser's offer and its answer."""
        late = c.offered(HERE)
        self.goes(HERE, "b", "a room moves while a browser joins it")
        words = f"Room {HERE} is on bridge b of the fleet now"
        said = c.answered(late, SSRC + 2)
        if said[0] == 200:
            # The room was still there, and has gone since.
            until(lambda: c.ask("state", id=late)[0] == 410)
            said = c.ask("state", id=late)
        self.check(said[0] in (410, 421) and words in str(said[1]), f"the browser is told so: `{words}`", said)

    def ends_below(self, gateway):
        """The bridge of a browser's call ends. Another member stays in the room, wherever that goes."""
        port = next(self.ports)
        member = self.held(FALLEN, "b", voice=port)
        page = Page(gateway, "fallen", SSRC + 4, FALLEN)
        self.check(page.said[0] == 200, "a browser joins at a bridge that is killed then", page.said)
        if page.said[0] != 200:
            return
        self.bridges["b"].do(f"mute {SSRC + 4}")
        self.comes(lambda: f"mute {SSRC + 4}" in str(self.etcd.store.groups([FALLEN])), "an operator mutes it")
        self.bridges["b"].close()
        place = lambda: self.places().get(FALLEN, [])
        self.comes(lambda: place() in (["a"], ["c"]), "its room goes to another bridge")
        name = [*place(), "c"][0]
        self.follows_room(page, self.gateways[name], name, SSRC + 14, "its bridge is killed")
        page.parts.ask("leave", id=page.id)
        self.bridges["b"].start()
        self.comes(lambda: self.agents["a"].knows() == 3, "the bridge is started anew")
        self.agents["a"].ask("leave", room=FALLEN, member=member)

    def held(self, room, name, **more):
        """A member in a room on a bridge. A room without one would end while a machine that is late goes on."""
        said = self.join("a", room, **more)
        self.check(said[0] == 200, f"room {room} is opened", said)
        self.goes(room, name, f"it goes to {name}")
        return said[1]["member"]

    def goes(self, room, name, text):
        """Moves a room to a bridge. An agent that keeps the room's rows in this moment is faster than a move."""
        moves = lambda: self.places().get(room) == [name] or self.agents["a"].ask("move", room=room, to=name)[0] == 200
        self.comes(moves, text)
