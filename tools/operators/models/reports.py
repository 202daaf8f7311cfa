"""A plain reporter: what came of each source and what went out in each stream, as RFC 3550 section 6.4 counts it."""

import collections

from operators.models.mix import MixBridge


class Came:
    """What came of a source: its numbers since it began, and what its last block told."""

    def __init__(self):
        self.base = self.received = self.jitter = 0
        self.told, self.transit = (0, 0), None

    def block(self, ssrc, source, moment):
        """The report block of a source (RFC 3550 section 6.4.1)."""
        expected = source.greatest - self.base + 1
        lost = max(-(2**23), min(2**23 - 1, expected - self.received))
        new = expected - self.told[0]
        missing = new - (self.received - self.told[1])
        fraction = min(255, 256 * missing // new) if new and missing > 0 else 0
        self.told = expected, self.received
        lsr = dlsr = 0
        if source.report:
            lsr, dlsr = source.report[0], min(2**32 - 1, max(0, moment - source.report[1]) * 65536 // 10**9)
        return (
            f"{ssrc:08x}{fraction:02x}{lost % 2**24:06x}{source.greatest % 2**32:08x}"
            f"{(self.jitter >> 4) % 2**32:08x}{lsr:08x}{dlsr:08x}"
        )


class ReportBridge(MixBridge):
    """A bridge that reports too."""

    def __init__(self):
        super().__init__()
        self.came, self.went, self.ticked = collections.defaultdict(Came), collections.defaultdict(lambda: [0, 0]), 0

    def arrived(self, source, verdict, moment, rate, ts):
        came = self.came[source]
        if verdict in ("begun", "restarted"):
            came.base, came.received, came.told = source.greatest, 0, (0, 0)
        came.received += 1
        transit = (moment * rate // 10**9 - ts) % 2**32
        if came.transit is not None:
            far = abs((transit - came.transit + 2**31) % 2**32 - 2**31)
            came.jitter += far - (came.jitter + 8 >> 4)
        came.transit = transit

    def count(self, kind, lines):
        """Counts packets and octets of payload that went out."""
        for line in lines:
            words = line.split(" ")
            octets = bytes.fromhex(words[6])
            went = self.went[kind, int(words[4])]
            went[0], went[1] = went[0] + 1, went[1] + len(octets) - 12 - 4 * (octets[0] & 15)
        return lines

    def send(self, *sending):
        return self.count("video", super().send(*sending))

    def tick(self):
        return self.count("mix", super().tick())

    def receiver_report(self, member, moment):
        """The line of a member's receiver reports."""
        blocks = []
        for row in sorted((s for s in self.desk.sources if s["member"] == member["member"]), key=lambda s: s["ssrc"]):
            source = self.kept.get((member["address"], row["ssrc"]))
            if source and source.greatest is not None:
                blocks.append(self.came[source].block(row["ssrc"], source, moment))
        if not blocks:
            return []
        octets = ""
        for at in range(0, len(blocks), 31):
            part = blocks[at : at + 31]
            octets += f"{128 + len(part):02x}c9{1 + 6 * len(part):04x}{self.ssrc:08x}" + "".join(part)
        return [f"up {member['address']} {octets}{self.named(self.ssrc)}"]

    def sender_report(self, member, kind, ssrc, ts, moment):
        """The line of a stream's sender report (RFC 3550 section 6.4.1)."""
        seconds, rest = divmod(moment, 10**9)
        packets, octets = self.went[kind, ssrc]
        numbers = ssrc, (
            seconds + 2208988800
        ) % 2**32, rest * 2**32 // 10**9, ts % 2**32, packets % 2**32, octets % 2**32
        return (
            f"ct {self.version} {self.items} {member['address']} "
            f"80c80006{''.join(f'{n:08x}' for n in numbers)}{self.named(ssrc)}"
        )

    def sender_reports(self, member, moment):
        """The lines of all sender reports to a member."""
        mix, lines = self.mixes.get(member["out_audio"]), []
        if mix:
            since = max(0, moment - self.ticked) // 1000 * mix.rate // 10**6
            lines.append(self.sender_report(member, "mix", member["out_audio"], mix.ts + since, moment))
        for slot in self.desk.slots_of(member["member"]):
            stream = self.streams.get(slot["out"])
            if stream:
                since = max(0, moment - stream.moment) // 1000 * 9 // 100
                lines.append(self.sender_report(member, "video", slot["out"], stream.ts + since, moment))
        return lines

    def reports(self, moment):
        lines = [line for member in self.desk.members for line in self.receiver_report(member, moment)]
        return lines + self.sent_reports(moment)

    def sent_reports(self, moment):
        """The lines of the sender reports of a moment."""
        self.items += 1
        return [line for member in self.desk.members for line in self.sender_reports(member, moment)]

    def item(self, words):
        return self.sent_reports(int(words[1])) if words[0] == "report" else super().item(words)

    def answer(self, line):
        if line.startswith("tick "):
            self.ticked = int(line.split(" ")[1])
        return self.reports(int(line.split(" ")[1])) if line.startswith("report ") else super().answer(line)
