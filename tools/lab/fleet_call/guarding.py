"""Bridges whose agents have lost the others, stand still or have ended: their desks are closed to operators."""

import signal
import socket
import threading
import time

from lab.fleet_call.gateways import Engine, Gateway
from lab.fleet_call.machines import Clock, Way
from lab.fleet_call.parts import CLOSED, LEASE, AgentPart, BridgePart
from lab.gateway_call.again import Page
from lab.models.served import Front
from operators.models.desk import Log
from operators.serving import free_port

# A room of a bridge whose agent is cut off, and two of a machine whose agent is started anew meanwhile. For how many
# seconds the lease of that one lasts: operators call between the cut and its end.
ALONE, KEPT, REMOVED, LONG = 67, 68, 69, 10
# How many seconds a desk may be open for longer than its lease, and an address that no machine has here.
LATE, NOWHERE = 1, "198.18.0.1"
# A room with so many calls that a slow bridge takes longer for all than a lease lasts, and its seconds for each.
MANY, CALLS, SLOW = 70, 40, 0.3


class Model(Front):
    """A bridge that is a model, and a part of this test's own process."""

    def __init__(self, name):
        super().__init__(("127.0.0.1", 0), 2, 1)
        self.name, self.udp, self.tcp = name, free_port(socket.SOCK_DGRAM), self.server_address[1]
        threading.Thread(target=self.serve_forever, daemon=True).start()

    def close(self):
        self.shutdown()
        self.server_close()


class Older(Model):
    """One from before leases."""

    def gets_lease(self, word, name):
        return "fault 1 3 UnknownWord"


class Slow(Model):
    """One that takes its time for each call."""

    def __init__(self, name):
        super().__init__(name)
        self.log = SlowLog()


class SlowLog(Log):
    def call(self, words, op=0):
        time.sleep(SLOW)
        return super().call(words, op)


class Guarded:
    """The steps of a fleet's check in which a desk is closed."""

    def step_closes(self):
        """An agent's way to etcd is cut. The leader reaches its bridge, so that the rooms stay."""
        way = self.begun(Way(self.folder, self.etcd.ports[0]))
        bridge = self.begun(BridgePart("e", self.folder, self.bridges["a"].program))
        agent = self.begun(AgentPart(bridge, self.folder, self.etcd, etcd_url=way.url))
        self.comes(lambda: agent.knows() == 4, "a further machine comes", 60)
        member, voice, camera = self.alone_on(bridge)
        gateway = self.begun(Gateway(self.folder, bridge, self.begun(Engine()), agent, 1_000_400_000))
        page = Page(gateway, "closed", next(self.ports), ALONE)
        self.check(page.said[0] == 200, "a browser joins at its gateway", page.said)
        bridge.operator.ask("as ann")
        bridge.do(f"mute {voice}")
        self.closes(bridge, agent, lambda: way.tell("cut"), "its way to etcd is cut")
        self.comes(lambda: "e is cut off" in agent.log.read_text(), "and its agent says so", 30)
        self.refuses_calls(bridge, voice, camera)
        self.refuses_page(bridge, page)
        self.is_opened_by_hand(bridge, agent, voice, page)
        way.tell("join")
        self.opens(bridge, agent, f"pin {ALONE} {camera}", "the way is there again")
        self.stands_still(bridge, agent, member, voice)
        self.dies(bridge, agent, member, voice)
        calls = [f"mute {voice}", f"unmute {voice}", f"pin {ALONE} {camera}"]
        calls += [f"set-gain {member} {voice} {q8}" for q8 in (8, 9)]
        self.calls_are(ALONE, calls, "all that was accepted is kept, and nothing else")
        self.check(agent.ask("")[1]["lost"] == [], "nothing is lost", agent.ask(""))
        self.agents["a"].ask("leave", room=ALONE, member=member)
        self.comes(lambda: ALONE not in self.records(), "its room ends")
        self.goes_off(gateway, agent, bridge, way)

    def goes_off(self, *parts):
        for part in parts:
            part.close()
        self.comes(lambda: self.agents["a"].knows() == 3, "it is switched off, and forgotten", 30)

    def alone_on(self, bridge, room=ALONE):
        """A member of a room on a bridge, with its voice and its camera."""
        voice = next(self.ports)
        said = self.join("a", room, voice=voice, camera=voice + 100_000)
        self.check(said[0] == 200, "a member joins a room", said)
        self.goes_to(room, bridge.name)
        return said[1]["member"], voice, voice + 100_000

    def closes(self, bridge, agent, ends, text, lease=LEASE):
        """Something ends the lease of an agent: the desk closes in time."""
        good = lambda: 0 < (bridge.lease() or 0) <= 1000 * lease
        self.comes(good, "an agent gives its desk a lease, which is no longer than its own")
        clock = Clock(lambda: [agent.process.pid, bridge.process.pid])
        begun = clock.now()
        ends()
        self.comes(bridge.is_closed, f"{text}: the desk closes", 10 * lease)
        took = clock.now() - begun
        self.check(took <= lease + LATE, f"after {took:.1f} s, at a lease of {lease} s", took)

    def refuses_calls(self, bridge, voice, camera):
        """A closed desk refuses each call, and tells all else."""
        rows, version = bridge.desk()
        calls = [f"unmute {voice}", f"group unmute {voice} / pin {ALONE} {camera}", f"remove-room {ALONE}"]
        calls += [f"undo {version}", f"redo {version}", f"revert {version}", "add-room 6401"]
        said = {bridge.operator.ask(line) for line in calls}
        self.check(said == {f"no {version}{CLOSED}"}, f"{len(calls)} calls are refused by{CLOSED}", said)
        said = bridge.operator.ask("mute x")
        self.check(said == "fault 2 6 BadNumber", "a faulty line is told as one", said)
        said = bridge.operator.ask("lease")
        self.check(said == "lease 0 agent-fleet", "`lease` tells by whom the desk is closed", said)
        bridge.operator.ask(calls[0])
        why = bridge.operator.shown("why")
        good = any(line.startswith("refused 27 Closed") for line in why)
        self.check(good or not bridge.program, "`why` says so in words", why)
        self.check(bridge.desk() == (rows, version), "nothing has changed", bridge.desk())

    def has_page(self, bridge, page):
        """Whether a page's member is on the desk."""
        members = [row.split(" ")[2] for row in self.rows_at(bridge) if row.startswith("member ")]
        return str(page.told["member"]) in members

    def rows_at(self, bridge):
        return bridge.desk()[0].get(ALONE, [])

    def refuses_page(self, bridge, page):
        """A page at a closed desk is told so, and leaves."""
        said = page.parts.ask("screen", id=page.id, shown=True)
        self.told(said, 503, "This bridge takes no changes now", "a page that shows its screen")
        page.goes_on = False
        said = page.parts.ask("leave", id=page.id)
        good = said[0] == 200 and self.has_page(bridge, page)
        self.check(good, "a page that leaves is a member still", (said, self.rows_at(bridge)))

    def is_opened_by_hand(self, bridge, agent, voice, page):
        """An operator opens the desk. The agent is started anew, still without etcd: it closes it."""
        said = bridge.operator.ask("lease off")
        self.check(said == "lease off", "an operator opens the desk", said)
        bridge.do(f"unmute {voice}")
        self.comes(lambda: not self.has_page(bridge, page), "who has left goes from the desk")
        agent.close()
        self.check(bridge.lease() is None, "its agent ends, and the desk stays open", bridge.lease())
        agent.start()
        self.comes(bridge.is_closed, "its agent is started anew while it is cut off: the desk is closed at once", 60)
        said = bridge.operator.ask(f"mute {voice}")
        self.check(said.endswith(CLOSED), "a call is refused", said)

    def opens(self, bridge, agent, line, text):
        """The desk opens again, and takes a call."""
        self.comes(lambda: bridge.lease(), f"{text}: the desk opens", 60)
        bridge.do(line)
        kept = lambda: (self.calls(ALONE) or [""])[-1] == line
        self.comes(kept, "a call is taken, and kept", 60)

    def stands_still(self, bridge, agent, member, voice):
        """An agent stands still for longer than its lease, and goes on."""
        stops = lambda: agent.process.send_signal(signal.SIGSTOP)
        self.closes(bridge, agent, stops, "its agent stands still")
        said = bridge.operator.ask(f"set-gain {member} {voice} 7")
        self.check(said.endswith(CLOSED), "a call is refused", said)
        agent.process.send_signal(signal.SIGCONT)
        self.opens(bridge, agent, f"set-gain {member} {voice} 8", "it goes on")

    def dies(self, bridge, agent, member, voice):
        """An agent dies, and another one is started."""
        self.closes(bridge, agent, lambda: agent.process.send_signal(signal.SIGKILL), "its agent is killed")
        said = bridge.operator.ask(f"set-gain {member} {voice} 7")
        self.check(said.endswith(CLOSED), "a call is refused", said)
        agent.close()
        agent.start()
        self.opens(bridge, agent, f"set-gain {member} {voice} 9", "another one is started")

    def step_older(self):
        """The agent of a bridge that knows no leases says so once."""
        bridge = self.begun(Older("g"))
        agent = self.begun(AgentPart(bridge, self.folder, self.etcd))
        self.comes(lambda: agent.knows() == 4, "the agent of an older bridge comes", 60)
        words = "g knows no leases: while it is cut off its desk takes calls, which may be lost"
        self.comes(lambda: words in agent.log.read_text(), f"it says `{words}`")
        time.sleep(LEASE)
        self.check(agent.log.read_text().count(words) == 1, "and says it once", agent.log.read_text())
        self.goes_off(agent, bridge)

    def step_slow(self):
        """Operators' calls are made again at a bridge that takes longer for them than the lease of its desk lasts."""
        bridge = self.begun(Slow("h"))
        agent = self.begun(AgentPart(bridge, self.folder, self.etcd))
        self.comes(lambda: agent.knows() == 4, "the agent of a slow bridge comes", 60)
        member, voice, _ = self.alone_on(self.bridges["b"], MANY)
        calls = [f"set-gain {member} {voice} {q8}" for q8 in range(CALLS)]
        for call in calls:
            self.bridges["b"].do(call)
        self.calls_are(MANY, calls, f"operators call {CALLS} times in a room")
        self.comes(lambda: self.agents["a"].ask("move", room=MANY, to="h")[0] in (200, 400), "it goes there", 60)
        with bridge.lock:
            found = [line.split(" ", 2)[2] for line in bridge.log.history(CALLS)[:-1]]
        self.check(found == calls, "each call is one of its own there", (found, agent.log.read_text()))
        self.agents["a"].ask("leave", room=MANY, member=member)
        self.comes(lambda: MANY not in self.records(), "its room ends", 60)
        self.goes_off(agent, bridge)

    def step_closed_anew(self):
        """A machine is cut off, and its agent is started anew meanwhile: it tells which calls are lost."""
        way = self.begun(Way(self.folder, self.etcd.ports[0]))
        bridge = self.begun(BridgePart("f", self.folder, self.bridges["a"].program))
        more = {"etcd_url": way.url, "udp": f"{NOWHERE}:{bridge.udp}", "lease": LONG}
        agent = self.begun(AgentPart(bridge, self.folder, self.etcd, **more))
        self.comes(lambda: agent.knows() == 4, "a machine comes", 60)
        members = {room: self.alone_on(bridge, room) for room in (KEPT, REMOVED)}
        member, voice, camera = members[KEPT]
        bridge.do(f"mute {voice}")
        bridge.do(f"pin {KEPT} {camera}")
        self.calls_are(KEPT, [f"mute {voice}", f"pin {KEPT} {camera}"], "operators' calls are kept")
        lines = self.calls_late(way, bridge, *members[KEPT])
        agent.process.send_signal(signal.SIGKILL)
        agent.close()
        agent.start()
        self.comes(bridge.is_closed, "its agent is started anew meanwhile: the desk is closed", 60)
        on = lambda room: (self.records().get(room) or {}).get("on") in (*"abc",)
        self.comes(lambda: on(KEPT) and on(REMOVED), "its rooms go elsewhere", 60)
        way.tell("join")
        self.comes(lambda: KEPT not in bridge.desk()[0], "the way is there again: it gives the room up", 60)
        lost = agent.ask("")[1]["lost"]
        told = [one.partition(" since rooms had gone: ")[2] for one in lost]
        self.check(told == lines, f"it tells which {len(lines)} calls are lost, and no other one", (told, lines))
        self.check(all(one in agent.log.read_text() for one in lost), "also in its log", lost)
        self.comes(lambda: bridge.lease(), "the desk is open again", 60)
        for room, (one, _, _) in members.items():
            self.agents["a"].ask("leave", room=room, member=one)
        self.comes(lambda: not {KEPT, REMOVED} & self.records().keys(), "the rooms end")
        self.goes_off(agent, bridge, way)

    def calls_late(self, way, bridge, member, voice, camera):
        """Operators call between the cut and the end of the lease. Their calls that count still."""
        way.tell("cut")
        # It answers once it is cut.
        way.octets()
        bridge.do(f"set-gain {member} {voice} 7")
        bridge.do(f"unmute {voice}")
        bridge.do(f"undo {bridge.desk()[1]}")
        bridge.do(f"group unpin {KEPT} / give-floor {KEPT} {member}")
        bridge.do(f"remove-room {REMOVED}")
        late = [f"set-gain {member} {voice} 7", f"group unpin {KEPT} / give-floor {KEPT} {member}"]
        return [*late, f"remove-room {REMOVED}"]

    def tells_lost(self, agent, words):
        """Whether an agent names a call among those that may be lost."""
        status, told = agent.ask("")
        return status == 200 and any(one.endswith(words) for one in told["lost"])
