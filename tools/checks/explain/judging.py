"""Judges what is told of the captures of a call: by what was planted, in each worse capture of it."""

import dataclasses
import io
import random

from checks.captures.writing import pcap
from checks.explain.made import BEGIN, GAP
from checks.explain.planted import FAULTS, SAID, Call, wanted
from checks.explain.varied import Varied, variations, wrong
from operators.captures.files import frames_of
from operators.captures.links import RAW
from operators.captures.notes import Notes
from operators.explain.explaining import explained
from operators.explain.given import given_by
from operators.explain.telling import Telling

# Where packets leave later than this, in seconds, or a thread of the bridge stands still for longer, the machine is
# busy.
LATEST, STOOD = 0.02, 0.03
# The kinds of what is so then, and nobody planted it; such a fault that is planted may not show.
BY_SENDERS = {"late", "early", "clock", "spacing", "still"}
BY_BRIDGE = {"overrun", "still", "busy"}
# `show` is asked for at each of so many ticks.
SHOWN = 20
# Another bridge in a capture: its addresses, and those of its members.
OTHERS = ("127.0.0.1:5104", "127.0.0.1:7100"), ("127.0.0.1:6100", "127.0.0.1:6102")
ALL = (0, float("inf"))


@dataclasses.dataclass(frozen=True)
class Record:
    """The capture of a call whose members have faults: the faults, each with what in that call stands for what its
    kinds are about; the octets; the rows of its desk before these, with their moment; the bridge's address; and by how
    much packets left too late, and the bridge stood still, in seconds."""

    faults: tuple
    octets: bytes
    rows: str
    known: int
    udp: str
    late: float = 0
    stood: float = 0

    def names(self):
        return ", ".join(name for name, _ in self.faults)

    def unsure(self):
        """The kinds of what the machine itself may have made so."""
        return (BY_SENDERS if self.late > LATEST else set()) | (BY_BRIDGE if self.stood > STOOD else set())

    def wanted(self, begin, broken=None):
        """What has to be told by a capture that begins at a moment, and what may be. At a moment its clock may be
        set."""
        begin, broken = (moment and (moment - self.known) / 1e9 for moment in (begin, broken))
        found = set(), set()
        for name, others in self.faults:
            for kinds, more in zip(found, wanted(name, begin, broken)):
                kinds |= {(kind, others.get(about, about)) for kind, about in more}
        return found


def made(name):
    """The record of a call with a fault that nobody held: no machine is busy in it."""
    says = {tick: ["show"] for tick in range(SHOWN // 2, 150, SHOWN)}
    if name in SAID:
        says |= {tick: [*lines, *says.get(tick, ())] for tick, lines in SAID[name][0].items()}
    call = Call(says=says) if name in SAID else Call(FAULTS[name][0], says=says)
    rows = "\n".join(Call(ticks=0).bridge.desk.shown(len(Call.setup)))
    octets = pcap(sorted(call.packets, key=lambda one: one[0]), RAW, units=10**9)
    return Record(((name, {}),), octets, rows, BEGIN + GAP // 4, "5004")


def differences(record, seed, cuts):
    """How many worse captures of a call were explained, and of which of them other things were told than what they
    show: how they are worse, their octets, and the differences."""
    packets = [(frame.moment, frame.octets) for frame in frames_of(io.BytesIO(record.octets), Notes())]
    others = Call(bridge=OTHERS[0], members=OTHERS[1]).packets
    worse = variations(
        random.Random(seed), packets, cuts, (given_by(record.rows), record.known), others, {"udp": record.udp}
    )
    found, count = [], -1
    for one in (Varied("whole", record.octets, {}, packets[0][0]), *worse):
        count += 1
        it = explained(io.BytesIO(one.octets), **one.named)
        told = Telling(it, None, ALL).found() if it.run else []
        must, may = record.wanted(one.begin, one.broken)
        if it.run and it.run.unknown and one.broken is None:
            # A call that the capture lost makes it one that begins where the desk is known again.
            later = record.wanted(max(end for _, end in it.run.unknown))
            must, may = must & later[0], may | later[1]
        # Where a call was held, its machine may be busy for a moment.
        unsure = record.unsure() | ({"busy"} if record.late or record.stood else set())
        must = {fault for fault in must if it.run and fault[0] not in unsure}
        differ = wrong([one for one in told if one.kind not in unsure], may, must)
        if differ:
            found.append((one.how, one.octets, differ))
    return count, found
