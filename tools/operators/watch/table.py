"""The table of what passes a bridge, as a text."""

import time

from operators.explain.senders import AUDIO, decibels, type_name
from operators.watch.seen import UNKNOWN, Intervals

# `reports` is what the bridge's last report says: the share that was lost since the one before, and how many packets in
# all.
HEAD = ("member", "address", "ssrc", "type", "packets", "lost", "jitter ms", "dBFS", "speaks", "reports", "became")
# So many seconds without a packet, and a source is silent.
SILENT = 2


class Table:
    """Tells of what was seen, and of the time since it told last."""

    def __init__(self, seen):
        self.seen, self.intervals = seen, Intervals()

    def rows(self):
        """A row for each source, by member and address."""
        seen = self.seen
        self.intervals.forget(seen.senders.sources)
        for key, source in sorted(seen.senders.sources.items(), key=lambda one: (one[0][0], one[0][1], one[0][2])):
            packets, speaking, power, samples = self.intervals.since(key, source)
            member, said = seen.member_at(source.address), seen.by_bridge.get((source.address, source.ssrc))
            is_audio = source.pt in AUDIO
            is_silent = seen.now - source.last > SILENT * 10**9
            level = f"{decibels(power, samples):.0f}" if is_audio and samples and power else "-"
            speaks = (
                "gone"
                if is_silent
                else "yes"
                if is_audio and packets and speaking * 2 > packets
                else "no"
                if is_audio
                else ""
            )
            became = ", ".join(f"{count} {what}" for what, count in source.outcomes.most_common(2))
            yield (
                "-" if member is None else str(member), source.address, str(source.ssrc), type_name(source.pt),
                str(source.packets),
                str(max(0, source.lost())), f"{source.jitter_ms():.1f}", level, speaks,
                f"{100 * said.fraction:.0f} %, {said.lost}" if said else "-", became,
            )  # fmt: skip

    def lines(self):
        """The table, the receivers, and who is unknown."""
        seen = self.seen
        desk = (
            f"desk {seen.judge.log.version}"
            if seen.is_known
            else "desk unknown: say `show` at it, or let --ask name its `tcp`"
        )
        yield f"{time.strftime('%H:%M:%S', time.localtime(seen.now / 1e9))}  udp {seen.udp}, {desk}"
        rows = [HEAD, *self.rows()]
        widths = [max(len(row[at]) for row in rows) for at in range(len(HEAD))]
        for row in rows:
            yield "  ".join(cell.ljust(width) for cell, width in zip(row, widths)).rstrip()
        yield from self.receivers()
        for source, advice in seen.unknown():
            yield f"unknown: {source.address} sends SSRC {source.ssrc} as {type_name(source.pt)}:"
            yield f"    {advice}"
        if seen.left_out:
            yield f"left out: {seen.left_out} datagrams of further unknown senders; {UNKNOWN} of these are kept"
        for line in seen.notes.lines(seen.begin):
            yield f"note: {line}"

    def receivers(self):
        """A line for each stream that goes out."""
        for (address, out), (count, last) in sorted(self.seen.streams.items()):
            member, said = self.seen.member_at(address), self.seen.by_receivers.get((address, out))
            who = f"member {member}" if member is not None else "no member"
            lost = f", which reports {100 * said.fraction:.0f} % lost, {said.lost} in all" if said else ""
            gone = f", none for {(self.seen.now - last) / 1e9:.0f} s" if self.seen.now - last > SILENT * 10**9 else ""
            yield f"to {address} ({who}): stream {out}, {count} packets{lost}{gone}"
