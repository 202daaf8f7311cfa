"""A call of four members, and steps of it: what members send, and what they then get."""

import select
import time

from checks.bridges import accepted, operator_at, until
from checks.refusing import PATIENCE, own_threads
from operators.models.mix import expanded, octets_of
from operators.packets import nack, number, payload_of, pli, rtp, seq_of
from operators.serving import port_of, started, udp_socket

# Each member's tone, as a mu-law octet; its slot, but for the first one, who sends the video.
TONES = {10: 0xCE, 11: 0x4E, 12: 0xBC, 13: 0x2A}
SLOTS = {11: 501, 12: 502, 13: 503}
VIDEO = 101
FIRST_SEQ, FIRST_TS = 65535, 1000
# How many seconds are between reports.
BETWEEN_REPORTS = 5
# What a packet of 20 ms has: a payload type, a codec, and so many samples.
SPEECH, MUSIC = (0, "pcmu", 160), (11, "l16", 882)


def word(value):
    return value.to_bytes(4, "big")


def cname(ssrc):
    """The bridge's CNAME, as a packet beside the report of an SSRC (RFC 3550 section 6.5)."""
    return bytes.fromhex("81ca0004") + word(ssrc) + b"\x01\x06bridge" + bytes(4)


# What a compound that asks a sender for something begins with (RFC 3550 section 6.4.2).
TO_SENDER = bytes.fromhex("80c9000100000001") + cname(1)


def is_report(octets):
    """Whether a datagram is a report, as one comes each 5 s: a sender report, or a receiver report with a block."""
    return octets[1] == 200 or octets[1] == 201 and octets[0] > 0x80


def without_times(report):
    """A report with zeros for what depends on the time: timestamps of a sender report, the jitter of a block."""
    begin, end = (8, 20) if report[1] == 200 else (20, 24)
    return report[:begin] + bytes(end - begin) + report[end:]


class Call:
    """A bridge with four members in a room. The first sends video, and the others have slots."""

    def __init__(self, program, path, heap):
        self.bridge, udp, self.tcp = started(program, path, environment=heap.environment)
        self.udp, self.seq, self.ts = ("127.0.0.1", udp), 0, 0
        self.members = {number: udp_socket() for number in TONES}
        self.got = {number: [] for number in TONES}
        self.has_reports, self.operator = False, None

    def begin(self, lanes):
        """An operator makes the desk."""
        self.threads = own_threads(self.bridge, lanes)
        self.operator = operator_at(self.tcp, PATIENCE)
        self.ask(
            "add-room 1",
            *(f"add-member {it} 1 127.0.0.1:{port_of(one)} pcmu {9000 + it} 0 0" for it, one in self.members.items()),
        )
        self.ask(
            f"add-source {VIDEO} 10 video",
            *(f"add-slot {slot} {it} 0 {FIRST_SEQ} {FIRST_TS}" for it, slot in SLOTS.items()),
        )

    def ask(self, *lines):
        accepted(self.operator, *lines)

    def send(self, member, octets):
        self.members[member].sendto(octets, self.udp)

    def take(self, seconds=0.005):
        """Takes what has come to the members, or comes within a moment. Reports are dropped unless the step has
        them."""
        ready, seconds = select.select(self.members.values(), [], [], seconds)[0], 0
        while ready:
            for member, one in self.members.items():
                octets = one.recv(65536) if one in ready else b""
                if octets and not is_report(octets):
                    self.got[member].append(octets)
                elif octets and self.has_reports:
                    self.got[member].append(without_times(octets))
            ready = select.select(self.members.values(), [], [], 0)[0]

    def frame(self, *payloads):
        """The packets of the next frame of the video."""
        first, self.seq, self.ts = self.seq, self.seq + len(payloads), self.ts + 3000
        return [
            rtp(first + at, self.ts, VIDEO, payload, at + 1 == len(payloads)) for at, payload in enumerate(payloads)
        ]

    def show(self):
        """Sends video until two slots show it and have two packets at least, the last one among them."""
        self.ask(*(f"subscribe {SLOTS[it]} {VIDEO}" for it in (11, 12)))

        def is_shown():
            (packet,) = self.frame(b"frame %d" % self.seq)
            self.send(10, packet)
            # The first ones are on probation. On a busy machine the others take longer.
            end, shown = time.monotonic() + 0.05 * self.seq, False
            while not shown and time.monotonic() < end:
                self.take()
                shown = all(
                    len(self.got[it]) > 1 and payload_of(self.got[it][-1]) == payload_of(packet) for it in (11, 12)
                )
            return shown

        until(is_shown, "no video comes")

    def talk(self, heard, kinds):
        """Members send 0.8 s of audio, of a kind for each, until each begins to hear the others that it hears."""
        self.ask(*(f"add-source {200 + it} {it} audio" for it in heard))
        time.sleep(0.05)
        for at in range(40):
            for it in heard:
                pt, _, count = kinds[it]
                self.send(it, rtp(at, count * at, 200 + it, tone(kinds[it], [it]), pt=pt))

        def is_heard():
            self.take()
            return all(self.got[it] and self.got[it][-1][0] & 15 == len(others) for it, others in heard.items())

        until(is_heard, "no mix of all others comes")
        self.take()

    def close(self):
        self.bridge.kill()
        self.bridge.wait()
        pipes = (self.bridge.stdout, self.bridge.stderr, self.operator and self.operator.lines)
        for one in (*self.members.values(), *(pipe for pipe in pipes if pipe)):
            one.close()


# Steps. Each tells what members send, and what each may then get, in this order, of which so many packets have to come.


def forwarded(call, member, packets):
    """The packets of a frame in the stream of a member's slot, which goes on or begins."""
    last = call.got[member][-1:]
    seq, ts = (seq_of(last[0]) + 1, number(last[0][4:8]) + 3000) if last else (FIRST_SEQ, FIRST_TS)
    return [bytes([0x81, it[1]]) + rtp(seq + at, ts, SLOTS[member], it[8:])[2:] for at, it in enumerate(packets)]


def frame(call):
    call.show()
    call.ask(f"subscribe {SLOTS[13]} {VIDEO}")
    packets = call.frame(b"first", b"second")
    return [(10, it) for it in packets], {it: forwarded(call, it, packets) for it in SLOTS}, 2


def tone(kind, members):
    """The payload of a packet with the sum of members' tones."""
    _, codec, count = kind
    return octets_of(codec, [sum(expanded(TONES[it]) for it in members)]) * count


def mixes(call, member, others, kind):
    """The next mixes of a member who goes on hearing others."""
    pt, _, count = kind
    behind = b"".join(word(200 + it) for it in others) + tone(kind, others)
    seq, ts = seq_of(call.got[member][-1]), number(call.got[member][-1][4:8])
    return [
        bytes([0x80 + len(others), pt]) + rtp(seq + at, ts + count * at, 9000 + member, behind)[2:]
        for at in range(1, 40)
    ]


def next_mixes(call, heard, kinds):
    """Nothing is sent; each member gets its next mixes."""
    call.talk(heard, kinds)
    return [], {it: mixes(call, it, others, kinds[it]) for it, others in heard.items()}, 1


def tick(call):
    call.ask("add-room 2", "move-member 13 2")
    heard = {10: [11, 12], 11: [10, 12], 12: [10, 11]}
    return next_mixes(call, heard, dict.fromkeys(heard, SPEECH))


def tick_of_both(call):
    call.ask("remove-member 12", "remove-member 13", "add-room 2 44100")
    call.ask(*(f"add-member {it} 2 127.0.0.1:{port_of(call.members[it])} l16 {9000 + it} 0 0" for it in (12, 13)))
    return next_mixes(call, {10: [11], 11: [10], 12: [13], 13: [12]}, {10: SPEECH, 11: SPEECH, 12: MUSIC, 13: MUSIC})


def two_asked(call):
    call.show()
    again = call.got[11][-2:]
    return [(11, nack(SLOTS[11], seq_of(again[0]), 1))], {11: again}, 2


def compound(call):
    call.show()
    last = call.got[11][-1]
    block = word(SLOTS[11]) + bytes(4) + word(seq_of(last)) + bytes(12)
    sent = bytes.fromhex("81c9000700000009") + block + nack(SLOTS[11], seq_of(last))[8:] + pli(SLOTS[11])[8:]
    return [(11, sent)], {11: [last], 10: [TO_SENDER + bytes.fromhex("81ce000200000001") + word(VIDEO)]}, 1


def gap(call):
    call.show()
    (lost,), (behind,) = call.frame(b"lost"), call.frame(b"behind")
    asked = bytes.fromhex("81cd000300000001") + word(VIDEO) + lost[2:4] + bytes(2)
    return [(10, behind)], {10: [TO_SENDER + asked]}, 1


def report(call):
    """The second reports: the step begins shortly before them, so that few other requests come first."""
    call.show()
    may = {10: [bytes.fromhex("81c9000700000001") + word(VIDEO) + bytes(4) + word(call.seq - 1) + bytes(12) + cname(1)]}
    for it in (11, 12):
        sent = word(len(call.got[it])) + word(sum(len(payload_of(packet)) for packet in call.got[it]))
        may[it] = [bytes.fromhex("80c80006") + word(SLOTS[it]) + bytes(12) + sent + cname(SLOTS[it])]
    call.has_reports = True
    until(lambda: call.take() or all(call.got[it][-1:] == reports for it, reports in may.items()), "no reports come")
    time.sleep(BETWEEN_REPORTS - 0.1)
    return [], may, 1


STEPS = {
    "a frame of two packets for three slots, one of whose streams begins": frame,
    "a tick for three who hear each other": tick,
    "a tick in rooms of 8000 and 44100 Hz": tick_of_both,
    "a NACK of two numbers": two_asked,
    "a compound with a report block, a NACK and a PLI": compound,
    "a packet behind a gap, for which a NACK goes to the sender": gap,
    "the reports, each 5 s": report,
}
