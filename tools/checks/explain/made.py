"""A call that nobody held: what a bridge would have on the wire, by the model, as IPv4 packets with their moments."""

from checks.camera import asked_numbers
from checks.captures.writing import tcp_packet, udp_packets
from operators.captures.lines import ACK, FIN, SYN
from operators.explain.desks import commands_for
from operators.models.desk import with_rate
from operators.models.mix import compressed
from operators.models.reports import ReportBridge
from operators.packets import rtp

BRIDGE, DESK, OPERATOR = "127.0.0.1:5004", "127.0.0.1:7000", "127.0.0.1:40000"
ONE, OTHER, STRANGER = "127.0.0.1:6000", "127.0.0.1:6002", "127.0.0.1:6004"
BEGIN, GAP = 1_800_000_000_000_000_000, 20_000_000
SETUP = [
    "add-room 1",
    "add-member 10 1 ONE pcmu 9001 0 0",
    "add-member 11 1 OTHER pcmu 9002 65530 0",
    "add-source 201 10 audio",
    "add-source 202 11 audio",
    "add-source 101 10 video",
    "add-slot 501 11 0 65535 1000",
    "subscribe 501 101",
]
# A history has so many calls at most.
MANY = 10**6
# Each 23rd packet of video is lost, and but for this one sent again.
LOST, NEVER_AGAIN = 23, 22
# What an operator says, by the tick before which it does.
CALLS = {24: "mute 202", 34: "undo 9", 50: "group set-gain 10 202 128 / mute 101", 60: "undo 11", 65: "mute 202"}


class Made:
    """A call of so many ticks. Member 10 sends sound of wrong types too, and a stranger sends something; video loses
    packets."""

    setup = SETUP

    def __init__(self, ticks=80, shows=None, bridge=(BRIDGE, DESK), members=(ONE, OTHER)):
        self.packets, self.bridge, self.moment, (self.one, self.other), (
            udp, tcp
        ) = [], ReportBridge(), BEGIN, members, bridge
        self.udp, self.tcp, self.seqs, self.seq = udp, tcp, {OPERATOR: 1000, tcp: 5000}, 0
        # The packets of video, those that were asked for, with the tick at which they are sent again; and the accepted
        # calls, as `calls` tells them, by an operator with a name.
        self.video, self.again, self.accepted, self.name = {}, [], [], "-"
        self.bridge.answer("bridge 1 bridge renew")
        self.put(tcp_packet(OPERATOR, tcp, 999, SYN))
        self.put(tcp_packet(tcp, OPERATOR, 4999, SYN | ACK))
        for line in self.setup:
            self.call(line.replace("ONE", self.one).replace("OTHER", self.other))
        for tick in range(ticks):
            self.turn(tick, shows)
        self.put(tcp_packet(OPERATOR, tcp, self.seqs[OPERATOR], FIN))

    def put(self, packet, after=0):
        self.packets.append((self.moment + after, packet))

    def segment(self, source, target, text, after=0):
        octets = text.encode()
        self.put(tcp_packet(source, target, self.seqs[source], 24, octets), after)
        self.seqs[source] += len(octets)

    def call(self, line):
        """An operator's line, and its answer 100 us later."""
        self.moment += 200_000
        self.segment(OPERATOR, self.tcp, line + "\n")
        said = self.said_to(line)
        if said[0].startswith("ok "):
            words = " ".join(with_rate(line.split(" ")))
            self.accepted.append(f"call {said[0][3:]} {self.moment // 10**6} 0 {self.name} {words}")
        self.segment(self.tcp, OPERATOR, "".join(f"{one}\n" for one in said), 100_000)

    def said_to(self, line):
        """What the bridge answers."""
        if line == "show":
            return self.bridge.desk.shown(self.bridge.version)
        if line == "groups":
            commands = commands_for(self.bridge.desk.shown(self.bridge.version)[:-1])
            return [f"group {' / '.join(commands)}", f"end {self.bridge.version}"]
        if line.startswith("as "):
            self.name = line.removeprefix("as ")
            return [line]
        if line == "calls":
            return [*self.accepted, f"end {self.bridge.version}"]
        return self.bridge.log.history(MANY) if line == "history" else self.bridge.answer(f"desk 0 {line}")

    def sends(self, said, after=200_000):
        """What the bridge sends for a line of its script."""
        for line in said:
            words = line.split(" ")
            if words[0] in ("tx", "ct", "up", "re"):
                to = words[{"tx": 3, "ct": 3, "up": 1, "re": 4}[words[0]]]
                for packet in udp_packets(self.udp, to, bytes.fromhex(words[-1])):
                    self.put(packet, after)
                after += 10_000
            if words[0] == "up":
                self.again += [
                    (self.tick + 2, seq) for seq in asked_numbers(bytes.fromhex(words[2]))[0] if seq != NEVER_AGAIN
                ]

    def comes(self, address, octets):
        """A datagram, and what the bridge answers."""
        self.moment += 100_000
        for packet in udp_packets(address, self.udp, octets):
            self.put(packet)
        self.sends(self.bridge.answer(f"rx {self.moment} {address} {octets.hex()}"))

    def begin(self, tick):
        """The moment of a tick, before which its datagrams come."""
        moment = BEGIN + GAP * (tick + 1)
        self.moment, self.tick = moment - 10_000_000, tick
        return moment

    def end(self, moment, reports=False):
        """What a tick brings, and a wait and perhaps reports behind it."""
        lines = (0, "tick {}"), (100_000, f"wait {{}} {self.one} 101"), (150_000, "report {}")
        for after, line in lines[: 2 + reports]:
            self.moment = moment + after
            self.sends(self.bridge.answer(line.format(self.moment)))

    def turn(self, tick, shows):
        """20 ms of the call: what comes, then the tick, and what it brings."""
        moment = self.begin(tick)
        if tick in CALLS:
            self.call(CALLS[tick])
        if shows == tick:
            self.call("show")
        for address, ssrc, step in ((self.one, 201, 7), (self.other, 202, 11)):
            sound = bytes(compressed((at * step * 97) % 8000 - 4000) for at in range(tick * 160, tick * 160 + 160))
            if (tick + ssrc) % 17:
                self.comes(address, rtp(tick, tick * 160, ssrc, sound, pt=0))
        for part in range(2):
            self.video[self.seq] = rtp(self.seq, tick * 1800, 101, bytes([tick, part]) * 20, marker=part)
            if self.seq % LOST != LOST - 1:
                self.comes(self.one, self.video[self.seq])
            self.seq += 1
        for due in [one for one in self.again if one[0] <= tick]:
            self.again.remove(due)
            self.comes(self.one, self.video[due[1]])
        if tick % 8 == 0:
            self.comes(STRANGER, rtp(tick, tick * 160, 77, b"\xd5" * 160, pt=8))
            self.comes(self.other, rtp(tick + 5000, tick * 160, 202, b"\xd5" * 160, pt=8))
        self.end(moment, tick == 70)
