"""A plain bridge: what the core answers to calls, datagrams, frames and other items. Nobody ticks or reports here."""

import collections

from operators.models.codec import Dropped, nack_numbers, nack_words, read_rtcp, read_rtp
from operators.models.desk import MUSIC, USUAL, Log
from operators.models.streams import Gate, Source, Stream
from operators.packets import number

# A stream keeps so many packets to send again.
SENT_BEFORE = 512
# So many sources are remembered.
KEPT = 4096
# The clock rate of video, in Hz, and the octets of a sample by a room's clock rate and the payload type.
VIDEO_RATE = 90000
WIDTHS = {USUAL: {0: 1, 97: 2}, MUSIC: {11: 2}}


class Bridge:
    """The desk, the sources that were heard, and the streams that went out."""

    def __init__(self):
        self.log, self.kept, self.epoch, self.items, self.streams = Log(), collections.OrderedDict(), 0, 0, {}
        self.ssrc, self.cname = 1, "bridge"
        # How often each thing happened that the first words of an answer don't tell.
        self.seen = collections.Counter()

    def opened(self, ssrc, cname, renews):
        """What is the first line of a script: who its bridge is, and whether its first item is that buffers begin
        anew."""
        self.ssrc, self.cname, self.items = ssrc, cname, int(renews)
        self.log.desk.bridge = ssrc

    @property
    def desk(self):
        return self.log.desk

    @property
    def version(self):
        return self.log.version

    def member_at(self, address):
        return self.desk.one("members", address=address)

    # Which source a slot shows

    def wanted(self, slot):
        """The source that a slot's subscription, its room's pin or its room's floor names."""
        d, room = self.desk, self.desk.room_of(slot["member"])
        sub, pin, floor = d.one("subs", out=slot["out"]), d.one("pins", room=room), d.one("floors", room=room)
        if sub:
            return sub["source"]
        if slot["index"]:
            return None
        if pin:
            return pin["source"]
        if floor:
            return min(
                (s["ssrc"] for s in d.sources if s["member"] == floor["member"] and s["media"] == "video"), default=None
            )
        return None

    def choice(self, slot):
        """The source that a slot shows, if it shows one."""
        d, ssrc = self.desk, self.wanted(slot)
        source = d.source(ssrc)
        if not source or d.one("mutes", source=ssrc) or source["member"] == slot["member"]:
            return None
        return ssrc if d.room_of(source["member"]) == d.room_of(slot["member"]) else None

    # Frames

    def frame(self, moment, address, ssrc, epoch, packets):
        """The lines of a frame; packets are (extended number, fields)."""
        self.items += 1
        d, source, lines = self.desk, self.desk.source(ssrc), []
        if not source or d.one("members", member=source["member"])["address"] != address:
            return []
        for m in d.members:
            for slot in d.slots_of(m["member"]):
                if self.choice(slot) == ssrc:
                    lines += self.send(slot, m, moment, (ssrc, address, epoch), packets)
        return lines

    def send(self, slot, m, moment, run, packets):
        """The lines of a frame for one slot."""
        stream, ssrc, lines = self.streams.setdefault(slot["out"], Stream(slot)), run[0], []
        ts = stream.timestamp(run, packets[0][1]["ts"], moment)
        for n, p in packets:
            head = bytes([0x81, p["marker"] << 7 | p["pt"]]) + stream.next.to_bytes(2, "big") + ts.to_bytes(4, "big")
            octets = (head + slot["out"].to_bytes(4, "big") + ssrc.to_bytes(4, "big") + p["payload"]).hex()
            text = f"{self.version} {self.items} {m['address']} {slot['out']} {stream.next} {octets}"
            stream.sent = (stream.sent + [(stream.next, m["member"], m["address"], text, f"{ssrc} {n}")])[-SENT_BEFORE:]
            lines.append("tx " + text)
            stream.next = (stream.next + 1) % 65536
        return lines

    # What receivers send

    def nack(self, address, body):
        """The packets that a NACK asks for, as they were sent before."""
        self.items += 1
        stream, asker = self.streams.get(number(body[4:8])), self.member_at(address)
        if not stream or not asker:
            return []
        found = [stream.kept(n, asker["member"], address) for n in nack_numbers(body[8:])]
        return [f"re {self.version} {text}" for kept in found for text, _ in kept]

    def block(self, address, body):
        """The line of a report block (RFC 3550 section 6.4.1)."""
        self.items += 1
        stream, teller, found = self.streams.get(number(body[:4])), self.member_at(address), "- -"
        if not stream or not teller:
            return []
        for _, source in stream.kept(number(body[10:12]), teller["member"], address):
            found = source
        lost = int.from_bytes(body[5:8], "big", signed=True)
        return [f"note {self.version} {self.items} {address} {number(body[:4])} {body[4]} {lost} {found}"]

    def pli(self, address, body):
        """The PLI for the source that a member's slot shows."""
        self.items += 1
        slot, teller = self.desk.one("slots", out=number(body[4:8])), self.member_at(address)
        ssrc = self.choice(slot) if slot and teller and slot["member"] == teller["member"] else None
        if ssrc is None:
            return []
        to = self.desk.one("members", member=self.desk.source(ssrc)["member"])["address"]
        return [f"ct {self.version} {self.items} {to} {self.front()}81ce0002{self.ssrc:08x}{ssrc:08x}"]

    # How the bridge speaks

    def named(self, ssrc):
        """An SDES packet with the bridge's name (RFC 3550 section 6.5)."""
        item = bytes([1, len(self.cname)]) + self.cname.encode()
        item += bytes(4 - len(item) % 4)
        return f"81ca{1 + len(item) // 4:04x}{ssrc:08x}{item.hex()}"

    def front(self):
        """A receiver report without blocks, and the bridge's name."""
        return f"80c90001{self.ssrc:08x}{self.named(self.ssrc)}"

    # For models that know more

    def noted(self, moment, address, body):
        """Keeps the time of a sender report at its source (RFC 3550 section 6.4.1: LSR)."""
        source = self.kept.get((address, number(body[:4])))
        if source and source.greatest is not None:
            source.report = number(body[6:10]), moment

    def arrived(self, source, verdict, moment, rate, ts):
        """Counts an accepted packet for reports."""

    def sound(self, address, packet, rate):
        """Hands a packet's samples to the mixer."""

    # Datagrams

    def asked(self, address, ssrc, nacks, pli):
        """The line of what the bridge asks a source for."""
        if not nacks and not pli:
            return []
        octets = self.front()
        if nacks:
            words = nack_words(nacks)
            octets += (
                f"81cd{2 + len(words):04x}{self.ssrc:08x}{ssrc:08x}"
                + "".join(f"{pid:04x}{blp:04x}" for pid, blp in words)
            )
        if pli:
            octets += f"81ce0002{self.ssrc:08x}{ssrc:08x}"
        return [f"up {address} {octets}"]

    def rx(self, moment, address, d):
        """The lines that answer a datagram."""
        try:
            if len(d) > 8192:
                raise Dropped("TooLong")
            if len(d) < 2 or d[0] >> 6 != 2:
                raise Dropped("Neither")
            return (self.rtcp if 192 <= d[1] <= 223 else self.rtp)(moment, address, d)
        except Dropped as why:
            return [f"rx dropped {why}"]

    def rtcp(self, moment, address, d):
        """The lines of a compound."""
        packets = read_rtcp(d)
        if not self.member_at(address):
            raise Dropped("Unknown")
        lines = [f"rx rtcp {len(packets)}"]
        for pt, count, body in packets:
            if pt == 200:
                self.noted(moment, address, body)
            if pt in (200, 201):
                first = 24 if pt == 200 else 4
                lines += [
                    line
                    for at in range(first, first + 24 * count, 24)
                    for line in self.block(address, body[at : at + 24])
                ]
            if (pt, count) == (205, 1):
                lines += self.nack(address, body)
            if (pt, count) == (206, 1):
                lines += self.pli(address, body)
        return lines

    def rtp(self, moment, address, d):
        """The lines of an RTP packet."""
        p = read_rtp(d)
        row, member = self.desk.source(p["ssrc"]), self.member_at(address)
        if not row or not member or row["member"] != member["member"]:
            raise Dropped("Unknown")
        is_audio = row["media"] == "audio"
        rate = self.desk.rate_in(member["room"]) if is_audio else VIDEO_RATE
        if is_audio:
            check_audio(p, rate)
        source = self.source_at(address, p["ssrc"], rate)
        verdict, ext = source.verdict(p["seq"])
        if ext is None:
            return [f"rx {verdict}"]
        if verdict in ("begun", "restarted"):
            self.epoch += 1
            source.epoch, source.gate = self.epoch, Gate()
        self.arrived(source, verdict, moment, rate, p["ts"])
        return (self.audio if is_audio else self.video)(moment, address, p, source, verdict, ext)

    def source_at(self, address, ssrc, rate):
        """The source with this number at this address, which is now the last one heard. At another clock rate it begins
        anew."""
        source = self.kept.get((address, ssrc))
        if not source or source.rate != rate:
            source = self.kept[address, ssrc] = Source(rate)
        self.kept.move_to_end((address, ssrc))
        if len(self.kept) > KEPT:
            self.kept.popitem(last=False)
        return source

    def audio(self, _moment, address, p, source, verdict, ext):
        if p["payload"]:
            self.items += 1
            self.sound(address, p, source.rate)
        return [f"rx {'restarted' if verdict == 'restarted' else 'accepted'} {ext}"]

    def video(self, moment, address, p, source, verdict, ext):
        name = "restarted" if verdict == "restarted" else "accepted"
        place, frames, nacks, gave_up = source.gate.admit(ext, p)
        self.seen["packets that come after they were given up at a wait"] += place == "late" and ext in source.gate.lost
        lines = [f"rx {name if place == 'accepted' else place} {ext}"]
        lines += self.asked(address, p["ssrc"], nacks, gave_up or verdict == "restarted")
        for packets in frames:
            lines += self.frame(moment, address, p["ssrc"], source.epoch, packets)
        return lines

    # Waits

    def wait(self, moment, address, ssrc):
        """The lines of a wait: time has passed for a source of video."""
        row, member, source = self.desk.source(ssrc), self.member_at(address), self.kept.get((address, ssrc))
        is_there = row and member and row["member"] == member["member"]
        if not is_there or row["media"] != "video" or not source or not source.gate:
            why = "of unknown sources" if not is_there else "of audio" if row["media"] == "audio" else "before a packet"
            self.seen[f"waits {why}"] += 1
            return []
        ages = {n: source.gate.age(n) for n in source.gate.missing()}
        frames, again, gave_up = source.gate.wait()
        self.count_wait(ages, again, gave_up, frames)
        lines = self.asked(address, ssrc, again, gave_up)
        for packets in frames:
            lines += self.frame(moment, address, ssrc, source.epoch, packets)
        return lines

    def count_wait(self, ages, again, gave_up, frames):
        """Counts what a wait does."""
        happened = {
            "without a hole": not ages,
            "that ask": any(ages[n] == 2 for n in again),
            "that ask a second time": any(ages[n] == 5 for n in again),
            "that ask once more": any(ages[n] > 5 for n in again),
            "that give up": gave_up,
            "that give up early": gave_up and max(ages.values()) < 25,
            "that free frames": frames,
            "at the wrap of numbers": ages and min(ages) // 65536 != max(ages) // 65536,
        }
        self.seen.update(f"waits {what}" for what, holds in happened.items() if holds)

    # Items

    def item(self, words):
        """The lines of an item that a line hands the lane."""
        if words[0] == "frame":
            return self.answer(" ".join(words))
        if words[0] == "nack":
            pairs = [words[3][at : at + 4] for at in range(0, len(words[3]), 4)]
            return self.nack(words[1], bytes.fromhex(f"00000000{int(words[2]):08x}{'0000'.join(pairs)}0000"))
        if words[0] == "block":
            ssrc, fraction, lost, *others = map(int, words[2:])
            others = "".join(f"{it:08x}" for it in others)
            return self.block(words[1], bytes.fromhex(f"{ssrc:08x}{fraction:02x}{lost % 2**24:06x}{others}"))
        if words[0] == "pli":
            return self.pli(words[1], bytes.fromhex(f"00000000{int(words[2]):08x}"))
        self.items += 1
        return []

    # Lines

    def answer(self, line):
        """The lines that answer a line without a fault."""
        words = line.split(" ")
        if words[0] == "bridge":
            self.opened(int(words[1]), words[2], words[3:] == ["renew"])
            return []
        if words[0] == "desk":
            return [self.log.call(words[2:])]
        if words[0] == "item":
            return self.item(words[1:])
        if words[0] == "wait":
            return self.wait(int(words[1]), words[2], int(words[3]))
        if words[0] == "rx":
            return self.rx(int(words[1]), words[2], bytes.fromhex(words[3]))
        packets = [part.split("/") for part in words[6:]]
        packets = [
            (int(e), dict(marker=int(m), pt=int(pt), ts=int(words[5]), payload=bytes.fromhex(h)))
            for e, m, pt, h in packets
        ]
        return self.frame(int(words[1]), words[2], int(words[3]), int(words[4]), packets)


def check_audio(p, rate):
    """Drops what is no audio in a room of this clock rate, or over 200 ms: PCMU and L16 of type 97, or in a room for
    music L16 of type 11."""
    octets, width = len(p["payload"]), WIDTHS[rate].get(p["pt"])
    if not width or octets % width or octets // width > rate // 5:
        raise Dropped("BadPayload")
