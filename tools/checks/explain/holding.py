"""Holds a call over sockets in which some members have planted faults, and captures it."""

import io
import pathlib
import socket
import time

from checks.bridges import accepted
from checks.captures.recorder import Recorder
from checks.explain.desk import Desk, lacking
from checks.explain.judging import SHOWN, Record
from checks.explain.made import OTHER, STRANGER
from checks.explain.planted import FAULTS, NEW, SAID, TICKS, whole
from checks.explain.stalls import Stalls
from operators.captures.files import frames_of
from operators.captures.links import Packets
from operators.captures.notes import Notes
from operators.demo import picture, tone
from operators.packets import number, rtp
from operators.serving import Operator, port_of, settings, started, udp_socket

EACH = 0.02
# So many items at most wait for a lane that isn't behind.
FEW = 10
# For how long lanes are let come to their ends, and how long it may take until a bridge has ended, in seconds.
SETTLES, PATIENCE = 5, 600


class Member:
    """A member with a fault: its number, its sound, and a socket for each address that it sends from."""

    def __init__(self, place, name):
        self.place, self.name, self.number, self.ssrc = place, name, 11 + place, 202 + place
        self.sockets = {address: udp_socket() for address in (OTHER, STRANGER, NEW)}
        self.fault, self.others = FAULTS[name][0] if name in FAULTS else whole, others_of(place)

    def address(self):
        return f"127.0.0.1:{port_of(self.sockets[OTHER])}"

    def packets(self, tick):
        """What it sends in a tick: how much later, by which socket, and the octets."""
        for after, address, octets in self.fault(tick):
            ssrc = self.others[number(octets[8:12])].to_bytes(4, "big")
            yield after / 1e9, self.sockets[address], octets[:8] + ssrc + octets[12:]

    def says(self, tick):
        """What an operator says about it."""
        lines = SAID[self.name][0].get(tick, ()) if self.name in SAID else ()
        for line in lines:
            words = line.split(" ")
            yield " ".join(str(self.others.get(int(word), word)) if word.isdigit() else word for word in words)


def others_of(place):
    """What stands in the made calls, and what is there for it in the call of the member at a place."""
    return {202: 202 + place, 777: 777 + place, 77: 3000 + place, 11: 11 + place}


def longest_pause(octets, udp, begin, end):
    """For how many seconds longer than a tick a bridge sent nothing between two moments, though somebody was heard:
    also where the system itself stood still, and counts no wait."""
    packets = Packets(Notes()).of(frames_of(io.BytesIO(octets), Notes()))
    moments = [packet.moment for packet in packets if packet.source == udp and begin < packet.moment < end]
    return max((b - a for a, b in zip(moments, moments[1:])), default=0) / 1e9 - EACH


class Held:
    """A call that was held: its record, whether the capture has all of it, and what its desk doesn't tell."""

    def __init__(self, program, lanes, names, folder):
        self.members = [Member(place, name) for place, name in enumerate(names)]
        self.one, self.late, self.rows, self.known = udp_socket(), 0, None, None
        bridge, udp, tcp = started(program, settings(folder, lanes=lanes))
        self.udp, self.tcp = f"127.0.0.1:{udp}", f"127.0.0.1:{tcp}"
        recorder = Recorder([udp, tcp], pathlib.Path(folder) / "call.pcap")
        recorder.begin()
        with socket.create_connection(("127.0.0.1", tcp), timeout=60) as connection:
            self.operator = Operator(connection)
            accepted(self.operator, *self.setup())
            self.rows, self.known = "\n".join(self.operator.shown()), time.time_ns()
            with Stalls(bridge.pid) as stalls:
                self.hold(("127.0.0.1", udp))
                ended = time.time_ns()
                self.settle()
            self.lacking = list(self.lacking_at_desk())
            self.operator.tell("stop")
            bridge.wait(PATIENCE)
        self.is_whole, octets = recorder.end(), recorder.path.read_bytes()
        faults = tuple((member.name, member.others) for member in self.members)
        stood = max(stalls.longest, longest_pause(octets, self.udp, self.known, ended))
        self.record = Record(faults, octets, self.rows, self.known, self.udp, self.late, stood)

    def settle(self):
        """Waits until lanes have come to what was sent last, as far as they do in time."""
        end = time.monotonic() + SETTLES
        while time.monotonic() < end:
            time.sleep(0.2)
            lanes = [line for line in self.operator.shown("stats") if line.startswith("lane ")]
            if all(int(line.rpartition(" ")[2]) < FEW for line in lanes):
                return

    def lacking_at_desk(self):
        """What the desk doesn't tell of the faults, though it should."""
        said = [self.operator.shown(word) for word in ("stats", "show", "calls")]
        for member in self.members:
            yield from lacking(member.name, Desk(*said, member.others, member.address()))

    def setup(self):
        yield from ("add-room 1", f"add-member 10 1 127.0.0.1:{port_of(self.one)} pcmu 9001 0 0")
        yield from ("add-source 201 10 audio", "add-source 101 10 video")
        for member in self.members:
            yield f"add-member {member.number} 1 {member.address()} pcmu {9002 + member.place} 0 0"
            yield f"add-source {member.ssrc} {member.number} audio"
        yield from ("add-slot 501 11 0 0 0", "give-floor 1 10")

    def hold(self, to):
        begun = time.monotonic() + EACH
        for tick in range(TICKS):
            due = []
            payloads = [rtp(tick, tick * 160, 201, tone(440, tick), pt=0)]
            payloads += [rtp(2 * tick + n, tick * 1800, 101, part, marker=n) for n, part in enumerate(picture(tick))]
            due += [(0, self.one, octets) for octets in payloads]
            for member in self.members:
                due += member.packets(tick)
                accepted(self.operator, *member.says(tick))
            if tick % SHOWN == SHOWN // 2:
                self.operator.shown()
            for after, sender, octets in sorted(due, key=lambda one: one[0]):
                wait = begun + tick * EACH + after - time.monotonic()
                if wait > 0:
                    time.sleep(wait)
                self.late = max(self.late, -wait)
                sender.sendto(octets, to)
