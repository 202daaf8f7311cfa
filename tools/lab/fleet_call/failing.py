"""What may fail without a room's bridge: its agent, the leader, the way to etcd; and those who follow rooms."""

import json
import signal
import threading
import time
import urllib.request

from lab.fleet_call.gateways import Engine, Gateway
from lab.fleet_call.guarding import LONG, NOWHERE
from lab.fleet_call.machines import Clock, Way
from lab.fleet_call.parts import CLOSED, LEASE, PAGES, SECRET, AgentPart, BridgePart, signed
from lab.gateway_call.again import Page

from copied import Copy  # noqa: E402
from etcd import packed  # noqa: E402
from known import FLEET, NEW  # noqa: E402

# A room that is moved from here and there, and one of a bridge that is cut off.
FOLLOWED, CUT = 62, 63
# Rooms of the bridges that are drained for a while: a drained bridge without a room is stopped.
HELD = {"a": 6301, "b": 6302}


class Following(threading.Thread):
    """A connection that follows a room: what is told, and when."""

    def __init__(self, agent, query):
        super().__init__(daemon=True)
        self.said = urllib.request.urlopen(signed(SECRET, f"{agent.url}/where?{query}"), timeout=120)
        self.kind, self.told = self.said.headers["Content-Type"], []
        self.start()

    def run(self):
        try:
            for line in self.said:
                if line.startswith(b"data: "):
                    self.told.append((time.monotonic(), json.loads(line[6:])))
        except OSError:
            pass

    def bridges(self, room):
        return [one["bridge"] for _, one in self.told if one["room"] == room]

    def close(self):
        self.said.close()


class Failing:
    """The steps of a fleet's check in which something else than a bridge fails."""

    def step_agent_alone(self):
        """An agent is killed, while its bridge runs."""
        self.settles([*self.records()])
        room, before = self.one_on("b"), self.desks()
        where = self.places()
        self.agents["b"].process.send_signal(signal.SIGKILL)
        said = lambda: any("b runs, and its agent doesn't" in text for text in self.logs().values())
        self.comes(said, "an agent is killed alone: the leader says that its bridge runs", 30)
        time.sleep(LEASE)
        self.check(self.places() == where, "no room goes elsewhere", (where, self.places()))
        self.comes(self.bridges["b"].is_closed, "its desk is closed")
        said = self.agents["a"].sent(signed(SECRET, f"{self.agents['a'].url}/where?room={room}"))
        self.check(said[0] == 200 and said[1]["bridge"] == "b", "a question for one says where it is", said)
        words = "The agent of this room's bridge doesn't answer"
        self.told(self.join("a", room), 409, words, "who joins one is told so")
        said = self.join("c", 64)
        self.check(said[0] == 200 and said[1]["bridge"] != "b", "a new room goes to another bridge", said)
        self.agents["a"].ask("leave", room=64, member=said[1]["member"])
        self.agents["b"].close()
        self.agents["b"].start()
        self.comes(lambda: self.join("a", room)[0] == 200, "it is started anew: members join there again", 60)
        self.comes(lambda: self.bridges["b"].lease(), "and the desk is open")
        after = self.desks()
        same = [name for name in "ac" if after[name][0] != before[name][0]]
        self.check(not same, "the other desks have what they had", (before, after))

    def step_leader(self):
        """The leader's agent stands still for longer than a lease, and goes on."""
        self.settles([*self.records()])
        leader = self.agents["a"].ask("")[1]["leader"]
        name = next(name for name, one in self.agents.items() if one.url == leader)
        other = next(one for one in "abc" if one != name)
        where = self.places()
        self.agents[name].process.send_signal(signal.SIGSTOP)
        leads = lambda: self.agents[other].ask("")[1]["leader"] not in (leader, None)
        self.comes(leads, "the leader's agent stands still: another one leads", 30)
        said = self.join(other, 65)
        self.check(said[0] == 200 and said[1]["bridge"] != name, "and gives a new room a bridge", said)
        time.sleep(LEASE)
        self.agents[name].process.send_signal(signal.SIGCONT)
        self.comes(lambda: self.agents[name].knows() == 3, "it goes on", 60)
        self.agents[other].ask("leave", room=65, member=said[1]["member"])
        self.comes(lambda: self.places() == where, "and each room is where it was", 30)
        leaders = {one.ask("")[1]["leader"] for one in self.agents.values()}
        self.check(len(leaders) == 1 and leader not in leaders, "all know the same leader", leaders)

    def step_lease_lost(self):
        """An agent's lease is lost, while the agent and its bridge run."""
        self.settles([*self.records()])
        room, before, old = self.one_on("b"), self.desks(), self.lease_of("b")
        self.etcd.store.ask("lease/revoke", ID=old)
        text = "an agent's lease is lost, and its bridge answers: it has another lease"
        self.comes(lambda: self.lease_of("b") not in (None, old), text)
        time.sleep(LEASE)
        after = self.desks()
        self.check(after == before, "no desk changes, and no room goes elsewhere", (before, after))
        self.comes(lambda: self.join("a", room)[0] == 200, "members join there", 60)

    def lease_of(self, name):
        """The lease of an agent, None where it has none."""
        key = packed(f"{FLEET}agents/127.0.0.1:{self.agents[name].port}")
        found = self.etcd.store.ask("kv/range", key=key).get("kvs")
        return found[0]["lease"] if found else None

    def step_follows(self):
        """Signalling follows a room that moves, loses its bridge and ends."""
        port = next(self.ports)
        member = self.join("a", FOLLOWED, voice=port)[1]["member"]
        self.goes_on(FOLLOWED, "c")
        one, every = Following(self.agents["b"], f"room={FOLLOWED}&follow"), Following(self.agents["b"], "follow")
        self.check(one.kind == "text/event-stream", "a question that follows is answered by events", one.kind)
        self.comes(lambda: one.bridges(FOLLOWED) == ["c"], "the first one says where the room is")
        self.goes(FOLLOWED, "a", "the room moves")
        self.comes(lambda: one.bridges(FOLLOWED) == ["c", "a"], "who follows is told so, once")
        udp = f"127.0.0.1:{self.bridges['a'].udp}"
        self.check(one.told[-1][1]["udp"] == udp, "with the address for members", one.told[-1])
        clock, copy, known = Clock(), Copy(self.etcd.store), []
        threading.Thread(target=copy.run, daemon=True).start()
        self.comes(lambda: copy.is_current, "the test follows what is known")
        copy.heard.append(lambda key: known.append(time.monotonic()) if key == "bridges/a" else None)
        self.bridges["a"].close()
        self.comes(lambda: len(one.told) == 3, "its bridge is killed: who follows is told the next one")
        told, on = one.told[-1]
        took = clock.at(told) - clock.at(known[0]) if known else None
        self.check(known and took <= 1, f"{took} s after it is known that the bridge is gone", known)
        copy.closed.set()
        copy.ends()
        self.comes(lambda: self.records()[FOLLOWED]["on"] == on["bridge"], "which is the room's")
        seen = [moment for moment, it in every.told if it["room"] == FOLLOWED and it["bridge"] == on["bridge"]]
        self.check(seen and abs(seen[-1] - told) < 1, "who follows all rooms is told the same", (seen, told))
        self.bridges["a"].start()
        self.comes(lambda: self.agents["b"].knows() == 3, "the bridge is started anew")
        self.agents["b"].ask("leave", room=FOLLOWED, member=member)
        self.comes(lambda: one.bridges(FOLLOWED)[-1] is None, "the last member leaves: who follows is told the end")
        said = self.agents["b"].sent(signed(SECRET, f"{self.agents['b'].url}/where?room=x&follow"))
        self.told(said, 404, "A room is a number", "who follows no room")
        for each in one, every:
            each.close()

    def goes_on(self, room, name):
        if self.places().get(room) != [name]:
            self.goes(room, name, f"room {room} goes to {name}")

    def step_cut_off(self):
        """A machine that members reach, and the others don't: their way to etcd and to its address is cut."""
        way = self.begun(Way(self.folder, self.etcd.ports[0]))
        bridge = self.begun(BridgePart("d", self.folder, self.bridges["a"].program))
        more = {"etcd_url": way.url, "udp": f"{NOWHERE}:{bridge.udp}", "lease": LONG}
        agent = self.begun(AgentPart(bridge, self.folder, self.etcd, **more))
        self.comes(lambda: agent.knows() == 4, "a fourth machine comes", 60)
        members = {}
        for name, room in HELD.items():
            members[room] = self.join("a", room)[1]["member"]
            self.comes(lambda room=room: self.at(room), f"{name} gets a room that keeps it")
            self.goes_to(room, name)
        ssrc = next(self.ports)
        member = self.join("a", CUT, voice=ssrc)[1]["member"]
        self.comes(lambda: self.at(CUT), "a room is opened")
        self.goes_to(CUT, "d")
        page, there = self.page_at(bridge, agent)
        way.tell("cut")
        # It answers once it is cut.
        way.octets()
        bridge.do(f"set-gain {member} {ssrc} 7")
        self.comes(lambda: "d is cut off" in agent.log.read_text(), "it is cut off, and its agent says so", 30)
        self.refuses(agent)
        self.comes(bridge.is_closed, "its desk is closed", 30)
        said = bridge.operator.ask(f"group mute {ssrc}")
        self.check(said.endswith(CLOSED), "what an operator does there is refused", said)
        on = lambda: (self.records().get(CUT) or {}).get("on") in (*"abc",)
        self.comes(on, "its room goes elsewhere", 30)
        self.leaves_cut_off(page, there)
        way.tell("join")
        self.comes(lambda: CUT not in bridge.desk()[0], "the way is there again: it gives the room up", 60)
        gain = f"set-gain {member} {ssrc} 7"
        text = "it says which call is lost, since it came between the cut and the end of the lease"
        self.comes(lambda: self.tells_lost(agent, gain), text)
        page.parts.ask("leave", id=page.id)
        member = next(int(row.split(" ")[2]) for row in self.rows(CUT) if row.startswith("member "))
        self.agents["a"].ask("leave", room=CUT, member=member)
        for part in self.gateways["d"], there, agent, bridge, way:
            part.close()
        for name in HELD:
            self.agents["a"].ask("drain", bridge=name, off=True)
        for room, one in members.items():
            self.agents["a"].ask("leave", room=room, member=one)
        self.comes(lambda: self.agents["a"].knows() == 3, "it is switched off, and forgotten", 30)

    def page_at(self, bridge, agent):
        """A page in a room of the machine that is cut off, and the gateway of the bridge to which that goes then."""
        engine = self.begun(Engine())
        self.gateways = {"d": self.begun(Gateway(self.folder, bridge, engine, agent, 1_000_200_000, bridge_ip=NOWHERE))}
        there = self.begun(Gateway(self.folder, self.bridges["c"], engine, self.agents["c"], 1_000_300_000))
        page = Page(self.gateways["d"], "cut", next(self.ports), CUT)
        while page.said[0] == 421:
            # Its agent was late on a busy machine, and the leader doesn't reach its bridge: the room has gone.
            self.goes_to(CUT, "d")
            page = Page(self.gateways["d"], "cut", next(self.ports), CUT)
        self.check(page.said[0] == 200, "a browser joins at its gateway", page.said)
        for name in HELD:
            self.agents["a"].ask("drain", bridge=name)
        kept = lambda: str(page.told["member"]) in str(self.etcd.store.groups([CUT]))
        self.comes(kept, "and is kept")
        return page, there

    def leaves_cut_off(self, page, there):
        """The page is told that its bridge is cut off, and comes again where the room is now."""
        state = lambda: page.state()[1]
        self.comes(lambda: state()["cut"], "its page is told", 30)
        words = "This bridge is cut off from its fleet: your room may be on another one by now."
        self.comes(lambda: words in state()["trouble"], f"in words: `{words}`", 30)
        self.check(f"{PAGES}/c" in state()["pages"], "and where it may ask", state())
        member, page.parts = page.told["member"], there
        said = page.comes_again(next(self.ports))
        good = said[0] == 200 and said[1]["member"] == member
        self.check(good, "it comes again at the bridge that has the room now, as the member that it was", said)

    def refuses(self, agent):
        """An agent that is cut off refuses each request, and says what may be lost."""
        words = "The rooms of d may be on others by now, and that desk is closed. Ask another agent."
        asked = [("join", {"address": "127.0.0.1:9"}), ("leave", {"member": 1}), ("move", {"to": "a"})]
        said = [agent.ask(path, room=CUT, **more) for path, more in asked] + [agent.ask("drain", bridge="d")]
        said += [agent.sent(signed(SECRET, f"{agent.url}/{path}")) for path in ("", f"where?room={CUT}", "pages")]
        good = lambda status, text: status == 503 and words in text and "no word of its fleet" in text
        wrong = [one for one in said if not good(one[0], str(one[1]))]
        self.check(not wrong, f"it refuses {len(said)} requests: `{words}`", wrong)

    def at(self, room):
        return self.records().get(room, NEW)["on"]

    def goes_to(self, room, name):
        goes = lambda: self.at(room) == name or self.agents["a"].ask("move", room=room, to=name)[0] == 200
        self.comes(goes, f"it goes to {name}")
