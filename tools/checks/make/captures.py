"""Makes the captures that DEBUGGING explains, of calls that nobody held: what a bridge would have on the wire, by the
model.

In each call member 10 sends the sound 201 and the video 101, and Bob, who is member 11, the sound 202.
  call.pcap     all is well
  pcma.pcap     Bob sends PCMA
  port.pcap     Bob's packets come from another port than the desk has
  muted.pcap    an operator mutes Bob
  still.pcap    a packet of the video is lost, and its sender answers nobody
  late.pcap     Bob's packets begin to come 120 ms later than before
  lacking.pcap  as the first one, but a datagram of Bob's isn't in it
  opus.pcap     Bob sends Opus
  keys.pcap     Bob presses two keys
  silence.pcap  Bob's microphone is off
  slow.pcap     Bob's clock is slow
  half.pcap     Bob's packets hold half of the sound that they should
  nat.pcap      Bob's address changes
  full.pcap     the bridge's receive buffer runs over
  two.pcap      another bridge is in it

And one for each further sentence of `explain`, by DEBUGGING's table of them: alone, back, broken, busy, early, fast,
gain, gap, jump, lost, many, noise, nothing, padding, scattered, seldom, slot, ssrc, stranger.
"""

import pathlib

from checks.explain.hostile import PORT, strangers
from checks.explain.made import BEGIN, GAP, ONE, OPERATOR, OTHER, STRANGER, Made
from checks.explain.planted import FAULTS, HERE, SAID, Call, burst, one, overrun
from checks.explain.varied import beside, written
from operators.captures.links import UDP
from operators.demo import picture, tone
from operators.packets import number, rtp

NEEDS = "nothing, some seconds"

SETUP = [
    "add-room 1",
    "add-member 10 1 ONE pcmu 9001 0 0",
    "add-member 11 1 OTHER pcmu 9002 0 0",
    "add-source 201 10 audio",
    "add-source 202 11 audio",
    "add-source 101 10 video",
    "add-slot 501 11 0 0 0",
    "give-floor 1 10",
]
# Captures of planted faults.
PLANTED = {
    "opus": "Opus", "keys": "keys", "noise": "comfort noise", "silence": "silence", "slow": "a slow clock",
    "half": "half packets", "nat": "another address", "full": "a full receive buffer", "fast": "a fast clock",
    "seldom": "seldom packets",
    "jump": "numbers that jump", "lost": "loss", "nothing": "nothing", "scattered": "scattered numbers",
    "ssrc": "another SSRC", "stranger": "a stranger",
}  # fmt: skip
# And those in which an operator says something.
SPOKEN = {"alone": "another room", "back": "a source that comes back", "gain": "a gain of 0", "slot": "no floor"}
# The addresses of the second bridge, and of its members.
OTHERS = ("127.0.0.1:5104", "127.0.0.1:7100"), ("127.0.0.1:6100", "127.0.0.1:6102")
# Bob's packets are late from this tick on, by so many ticks.
LATE, LATER = 100, 6
# A tick whose frame lacks its first packet, one whose sound the capture lacks, and one before which Bob is muted.
LOST, LACKING, MUTED = 100, 112, 120


def options(parser):
    parser.add_argument("folder", metavar="FOLDER", help="where they are written")


class Shown(Made):
    """A call of DEBUGGING, in which something is wrong."""

    setup = SETUP

    def __init__(self, wrong, ticks):
        self.wrong = wrong
        super().__init__(ticks)

    def from_bob(self, tick):
        """Bob's packet of a tick."""
        is_pcma = self.wrong == "pcma"
        octets = bytes([0xD5]) * 160 if is_pcma else tone(1000, tick)
        self.comes(
            STRANGER if self.wrong == "port" else OTHER, rtp(tick, tick * 160, 202, octets, pt=8 if is_pcma else 0)
        )

    def frame(self, tick):
        for part, payload in enumerate(picture(tick)):
            if self.wrong != "still" or tick != LOST or part:
                self.comes(ONE, rtp(tick * 2 + part, tick * 1800, 101, payload, marker=part))

    def turn(self, tick, shows):
        """20 ms of the call: what comes, then the tick, and what it brings."""
        moment = self.begin(tick)
        if self.wrong == "muted" and tick == MUTED:
            self.call("mute 202")
        self.comes(ONE, rtp(tick, tick * 160, 201, tone(440, tick), pt=0))
        if self.wrong != "late" or tick < LATE:
            self.from_bob(tick)
        elif tick >= LATE + LATER:
            self.from_bob(tick - LATER)
        self.frame(tick)
        self.end(moment, tick % 250 == 249)


class Busy(Call):
    """A call in which the bridge answers an operator's line late."""

    def call(self, line):
        if line != "show":
            super().call(line)
            return
        self.segment(OPERATOR, self.tcp, line + "\n", -150_000_000)
        self.segment(self.tcp, OPERATOR, "".join(f"{one}\n" for one in self.said_to(line)))


def broken(tick):
    """Each tenth tick a compound comes whose first packet is none that may stand there."""
    yield 0, *one(tick)
    if tick % 10 == 0:
        yield 100_000, OTHER, bytes([0x80, 204, 0, 1]) + bytes(4)


def padded(tick):
    """Each tenth packet has more padding than octets."""
    address, octets = one(tick)
    yield 0, address, bytes([octets[0] | 0x20]) + octets[1:-1] + b"\xff" if tick % 10 == 5 else octets


def without_all(packets):
    """The packets but for the datagrams to the bridge in the ticks in which its receive buffer is full."""
    begin = BEGIN + HERE // 5 * 5 * GAP
    return [
        (moment, octets)
        for moment, octets in packets
        if not (octets[9] == UDP and octets[22:24] == PORT and begin <= moment < begin + 5 * GAP)
    ]


def is_lacking(packet):
    """Whether an IPv4 packet has the sound of Bob that a capture lacks."""
    octets = packet[28:]
    return (
        packet[9] == 17 and octets[:2] == b"\x80\0" and number(octets[2:4]) == LACKING and number(octets[8:12]) == 202
    )


def made():
    """The packets of each capture, by its name."""
    ticks = {"call": 150, "pcma": 150, "port": 150, "muted": 150, "still": 250, "late": 250}
    found = {wrong: Shown(wrong, count).packets for wrong, count in ticks.items()}
    found["lacking"] = [(moment, packet) for moment, packet in found["call"] if not is_lacking(packet)]
    found |= {name: Call(FAULTS[fault][0]).packets for name, fault in PLANTED.items()}
    found |= {name: Call(says=SAID[fault][0]).packets for name, fault in SPOKEN.items()}
    found |= {name: Call(fault).packets for name, fault in (("early", burst), ("broken", broken), ("padding", padded))}
    found["busy"] = Busy(says={60: ["show"]}).packets
    found["gap"] = without_all(Call(overrun).packets)
    found["many"] = strangers(20, Made(2).packets)
    found["two"] = beside(found["call"], Call(bridge=OTHERS[0], members=OTHERS[1]).packets)
    return found


def write(folder):
    for name, packets in made().items():
        (pathlib.Path(folder) / f"{name}.pcap").write_bytes(written(packets))


def run(args):
    write(args.folder)
    return 0
