"""What each receiver got: its streams on the wire, when each source was heard or seen in them, and by which call that
changed."""

import collections
import dataclasses

from operators.explain.changes import by_call
from operators.explain.comparing import sources_of
from operators.packets import seq_of

# A source that is missing in a stream for less than this, in nanoseconds, goes on.
MIX_GAP, VIDEO_GAP = 200_000_000, 700_000_000
# A change of the desk is seen in a stream so soon, in nanoseconds.
SOON = 500_000_000
# A pause of video of this length is told, in nanoseconds.
STILL = 400_000_000


@dataclasses.dataclass
class Span:
    """A time in which a stream had a source, and how much of it the source was missing in short pauses."""

    ssrc: int
    begin: int
    end: int
    pauses: int = 0
    missing: int = 0


@dataclasses.dataclass
class Outgoing:
    """A stream on the wire: to whom, its packets, the gaps of its numbers, the longest pause and when that began, and
    its spans."""

    out: int
    to: str
    packets: int
    lost: int
    pause: int
    paused_at: int
    spans: list

    def begin(self):
        return min((span.begin for span in self.spans), default=0)


def spans_of(packets, longest, usual):
    """The times in which each source was in a stream."""
    found, now = [], {}
    for sent in packets:
        for ssrc in sources_of(sent.octets):
            span = now.get(ssrc)
            if not span or sent.moment - span.end > longest:
                span = now[ssrc] = Span(ssrc, sent.moment, sent.moment)
                found.append(span)
            elif sent.moment - span.end > 2 * usual:
                span.pauses, span.missing = span.pauses + 1, span.missing + sent.moment - span.end
            span.end = sent.moment
    return found


def outgoing_of(streams, is_mix, between):
    """The streams of a capture in a time."""
    found = []
    for out, all_packets in sorted(streams.firsts.items()):
        packets = [sent for sent in all_packets if between[0] <= sent.moment <= between[1]]
        if packets:
            gaps = [(b.moment - a.moment, a.moment) for a, b in zip(packets, packets[1:])]
            lost = sum((seq_of(b.octets) - seq_of(a.octets) - 1) % 65536 for a, b in zip(packets, packets[1:]))
            mix = is_mix(out)
            spans = spans_of(packets, MIX_GAP if mix else VIDEO_GAP, 20_000_000 if mix else STILL)
            found.append(
                Outgoing(out, packets[-1].to, len(packets), lost, *max(gaps, default=(0, packets[0].moment)), spans)
            )
    return found


class Causes:
    """Why a source begins or ends in a stream."""

    def __init__(self, desks, senders, end):
        self.desks, self.end = desks, end
        self.sources = collections.defaultdict(list)
        for source in senders.sources.values():
            self.sources[source.ssrc].append(source)

    def change(self, out, ssrc, is_there, moment, slack):
        """The change of the desk by which a source begins or ends in a stream, if one came shortly before."""
        of_it = [
            change
            for change in self.desks.changes if (change.out, change.ssrc, change.is_there) == (out, ssrc, is_there)
        ]
        near = [change for change in of_it if moment - slack <= change.moment <= moment + SOON]
        return near[-1] if near else None

    def of_begin(self, out, span):
        """Why a source begins in a stream."""
        change = self.change(out, span.ssrc, True, span.begin, SOON)
        if change and change.call:
            return f"since {by_call(change.call)}: {change.call.text}"
        near = [source for source in self.sources[span.ssrc] if 0 <= span.begin - source.first <= SOON]
        return "since its packets come" if near else ""

    def of_end(self, out, span, longest):
        """Why a source ends in a stream that it may be missing from for so long."""
        change = self.change(out, span.ssrc, False, span.end, SOON // 2)
        if change and change.call:
            return f"until {by_call(change.call)}: {change.call.text}"
        if self.end - span.end < longest:
            return "to the end"
        is_sending = any(source.last > span.end for source in self.sources[span.ssrc])
        return "then nothing of it was passed on" if is_sending else "then no packet of it came"
