"""Tells what a capture explains."""

import datetime

from operators.explain import compounds
from operators.explain.changes import Desks, grouped
from operators.explain.findings import Findings, counted, own_share
from operators.explain.receivers import MIX_GAP, VIDEO_GAP, Causes, outgoing_of
from operators.explain.senders import AUDIO, senders_of

# So many differences are told one by one, and so many sources that are no member's own.
MOST_TOLD, MOST_STRANGERS = 20, 256
# So many members are named where another one is asked for.
NAMED = 8
REASONS = {
    "unsent": "a lane that was late followed a later call, or a full ring dropped its item",
    "uncaptured": "the capture lost it",
    "extra": "the capture lacks a datagram, or began in a gap",
    "marker": "the packet before it differs",
    "numbers": "the bridge had sent another number of packets before",
    "octets": "another order within a round, or a datagram that the bridge or the capture lost",
}


def telling(explained, name, wanted, between):
    """The lines that tell of a capture. `wanted` is a member, an SSRC or an address, or None for all; `between` two
    moments."""
    return Telling(explained, wanted, between).lines(name)


def moment_text(moment):
    """A moment in words."""
    it = datetime.datetime.fromtimestamp(moment / 1e9, datetime.timezone.utc)
    return f"{it:%Y-%m-%d %H:%M:%S}.{it.microsecond // 1000:03} UTC"


class Telling:
    """What is told of a capture, to whom it may concern."""

    def __init__(self, explained, wanted, between):
        self.it, self.wire, self.between, self.wanted = explained, explained.wire, between, wanted
        self.senders = senders_of(explained, between)
        self.desks = Desks(explained.run, explained.begin) if explained.run else None
        self.outgoing = outgoing_of(explained.streams, self.is_mix, between)
        self.members = self.members_of(wanted)

    def is_mix(self, out):
        return not self.desks or self.desks.outs.get(out, ("mix",))[0] == "mix"

    def members_of(self, wanted):
        """The members that are asked for, or None for all."""
        if wanted is None or not self.desks:
            return None
        found = {number for number, member in self.desks.members.items() if wanted in (str(number), member["address"])}
        found |= {row["member"] for ssrc, row in self.desks.sources.items() if wanted == str(ssrc)}
        return found | {member for out, (_, member) in self.desks.outs.items() if wanted == str(out)}

    def of_nobody(self):
        """What is said where no member is the one that is asked for."""
        some = [f"{number} at {member['address']}" for number, member in sorted(self.desks.members.items())]
        more = f" and {len(some) - NAMED:,} more" if len(some) > NAMED else ""
        there = f"There are {', '.join(some[:NAMED])}{more}" if some else "There is none"
        return f"no member has the number, the address or an SSRC {self.wanted}, so nobody is told of. {there}"

    def concerns(self, *members):
        return self.members is None or bool(self.members & set(members))

    def seconds(self, moment):
        return (moment - self.wire.zero) / 1e9

    def is_within(self, moment):
        return self.between[0] <= moment <= self.between[1]

    def lines(self, name):
        yield from self.head(name)
        if self.it.run:
            yield from self.findings()
        yield from self.of_senders()
        yield from self.of_receivers()
        if self.it.run:
            yield from self.calls()
        # Of a script the order of what happened is known, and nothing is compared.
        if self.it.search:
            yield from self.differences()

    def head(self, name):
        seconds = self.seconds(self.wire.end)
        counts = f"{len(self.wire.into):,} datagrams in, {len(self.wire.out):,} out"
        yield f"{name}: {seconds:.1f} s from {moment_text(self.wire.begin)}, {counts}"
        yield f"bridge: udp {self.wire.udp or 'not in it'}, tcp {self.wire.tcp or 'not in it'}"
        for line in [*self.wire.notes.lines(self.wire.zero), *self.notes()]:
            yield f"note: {line}"
        if not self.it.run:
            yield (
                "note: the desk isn't in it, so nobody knows what the bridge did with a datagram. Capture from the "
                "bridge's start"
            )
            yield "      on, give `show` while you capture, or name a file with the lines of `show` by --desk"

    def piece(self):
        """What is told of a piece of a long capture."""
        a, b = self.seconds(self.between[0]), self.seconds(min(self.between[1], self.wire.end))
        counts = [sum(self.is_within(one.moment) for one in some) for some in (self.wire.into, self.wire.out)]
        yield f"{a:.1f} to {b:.1f} s: {counts[0]:,} datagrams in, {counts[1]:,} out"
        for line in [*self.wire.notes.lines(self.wire.zero), *self.notes()]:
            yield f"  note: {line}"
        if not self.it.run:
            yield "  note: the desk isn't known, until a `show`, `groups`, `history` or `calls`"
            return
        for one in self.found():
            yield f"  {one.text}"
        differ = len(self.differing())
        if differ:
            why = "of the wire or of the model differ, or follow from what came before this piece"
            yield f"  {counted(differ, 'media packet')} {why}"

    def differing(self):
        """The differences in the time that is told of, and of whom it is told."""
        return [
            one
            for one in self.it.run.cursor.found
            if self.is_within(one.moment) and self.concerns(self.desks.outs.get(one.stream, (0, None))[1])
        ]

    def notes(self):
        """What is to be known of the capture as a whole."""
        if self.members is not None and not self.members:
            yield self.of_nobody()
        into = [one for one in self.wire.into if self.is_within(one.moment)]
        unknown = sum(not self.it.is_known(one.moment) for one in into) if self.it.run else 0
        if unknown:
            yield (
                f"for {unknown:,} of {len(into):,} datagrams in, the desk isn't known: nobody knows what the "
                "bridge did with them"
            )
        own = own_share(self.outgoing)
        if own:
            share = f"some {100 * own:.1f} % of the packets"
            yield f"the capture itself lost {share}: numbers of the bridge's own streams are missing"
        if self.wire.cut:
            text = "are reports that are cut, or cut before the end of their RTP headers: nothing is said of them"
            yield f"{counted(self.wire.cut, 'datagram')} {text}"
        if self.wire.others:
            yield f"another bridge is in it, too: tcp {', '.join(self.wire.others)}. What is told is of one alone"

    # Parts

    def found(self):
        """What stands out."""
        found = Findings(self.it, self.desks, self.senders, self.outgoing, self.seconds, self.between).all()
        return [one for one in found if not one.members or self.concerns(*one.members)]

    def findings(self):
        yield "\nwhat stands out"
        for text in [one.text for one in self.found()] or ["nothing"]:
            yield f"  {text}"

    def of_senders(self):
        yield "\nsenders"
        last, strangers = None, 0
        for source in sorted(self.senders.sources.values(), key=lambda one: (one.address, one.ssrc, one.pt)):
            member = self.desks.member_at(source.address) if self.desks else None
            is_own = member is not None and self.owner(source.ssrc) == member
            strangers += not is_own
            if not self.concerns(member) or not is_own and strangers > MOST_STRANGERS:
                continue
            if source.address != last:
                last = source.address
                who = f"member {member}" if member is not None else "no member's address" if self.desks else ""
                yield f"  {source.address}  {who}".rstrip()
            yield f"    {source.ssrc}, {source.name()}: {self.counts(source)}"
            if source.outcomes:
                yield "      " + ", ".join(f"{count:,} {outcome}" for outcome, count in source.outcomes.most_common())
        if strangers > MOST_STRANGERS and self.members is None:
            yield f"  and {strangers - MOST_STRANGERS:,} further sources of no known member"
        for (address, kind, outcome), count in sorted(self.senders.others.items(), key=str)[:MOST_STRANGERS]:
            if self.concerns(self.desks.member_at(address) if self.desks else None):
                yield f"  {address}  {counted(count, 'datagram')} of {kind}{f': {outcome}' if outcome else ''}"

    @staticmethod
    def counts(source):
        parts = [counted(source.packets)]
        if not any(outcome.startswith("dropped") for outcome in source.outcomes):
            parts += [f"{max(0, source.lost()):,} lost"]
            parts += [f"{source.swapped:,} out of order"] if source.swapped else []
            parts += [f"jitter {source.jitter_ms():.1f} ms"]
        if source.pt in AUDIO and source.samples:
            parts += [f"{source.level():.0f} dBFS", f"speaks {100 * source.speaking / source.packets:.0f} %"]
        return ", ".join(parts)

    def of_receivers(self):
        yield "\nreceivers"
        causes, last = Causes(self.desks, self.senders, self.wire.end) if self.desks else None, None
        for stream in sorted(self.outgoing, key=lambda one: (one.to, one.out)):
            kind, member = self.desks.outs.get(stream.out, ("stream", None)) if self.desks else ("stream", None)
            spans = [span for span in stream.spans if self.concerns(member, self.owner(span.ssrc))]
            if not spans and not self.concerns(member):
                continue
            if stream.to != last:
                last = stream.to
                yield f"  {stream.to}  {f'member {member}' if member is not None else ''}".rstrip()
            gaps = f"{stream.lost:,} numbers missing" if stream.lost else "no number missing"
            yield (
                f"    {stream.out}, {kind}: {counted(stream.packets)}, {gaps}, longest pause {stream.pause / 1e6:.0f} "
                "ms"
            )
            for span in spans:
                yield f"      {self.span(causes, stream, span)}"

    def span(self, causes, stream, span):
        """When a source was in a stream, and why it began and ended."""
        verb, begin, end = (
            "hears" if self.is_mix(stream.out) else "sees", self.seconds(span.begin), self.seconds(span.end)
        )
        text = f"{verb} {span.ssrc} from {begin:.3f} to {end:.3f} s"
        if not causes:
            return text
        longest = MIX_GAP if self.is_mix(stream.out) else VIDEO_GAP
        text += "".join(
            f", {why}" for why in (causes.of_begin(stream.out, span), causes.of_end(stream.out, span, longest)) if why
        )
        return text + (f" ({span.pauses} short pauses, {span.missing / 1e6:.0f} ms)" if span.pauses else "")

    def calls(self):
        yield "\ncalls"
        for call in self.it.calls:
            changes = [
                change
                for change in self.desks.changes_by(call) if self.concerns(change.member, self.owner(change.ssrc))
            ]
            if not call.is_call() or not self.is_within(call.moment) or (self.members is not None and not changes):
                continue
            if call.is_lost():
                yield f"  {self.seconds(call.moment):8.3f} s  call {call.number}: its line isn't in the capture"
                continue
            name = f"call {call.number}" if call.number else "refused" if call.answer.startswith("no ") else "a call"
            answer = "" if call.number else f" > {call.answer or 'no answer in the capture'}"
            yield f"  {self.seconds(call.moment):8.3f} s  {call.who()}, {name}: {call.text}{answer}"
            for member, out, is_there, ssrcs in grouped(changes):
                verb = (
                    ("hears" if is_there else "no longer hears")
                    if self.is_mix(out)
                    else ("sees" if is_there else "no longer sees")
                )
                where = "" if self.is_mix(out) else f" in {out}"
                yield f"              {member} {verb} {', '.join(map(str, ssrcs))}{where}"

    def owner(self, ssrc):
        return self.desks.sources.get(ssrc, {}).get("member") if self.desks else None

    def differences(self):
        """How the wire compares with the model."""
        cursor, compared = self.it.run.cursor, compounds.compare(self.it, self.desks)
        total = sum(map(len, cursor.streams.firsts.values()))
        found = self.differing()
        yield "\nthe wire against the model"
        how = "by their headers, since they are cut" if self.wire.is_cut() else "octet by octet"
        yield f"  media: {cursor.equal:,} of {total:,} packets are the model's, {how}"
        for one in found[:MOST_TOLD]:
            yield f"    {self.seconds(one.moment):8.3f} s  stream {one.stream}, {one.text} ({self.reason(one)})"
        if len(found) > MOST_TOLD:
            yield f"    and {len(found) - MOST_TOLD:,} more"
        if found:
            yield "    each of these may also come of another version of the program than this tool knows"
        if self.wire.is_cut():
            yield "  control: not compared, since packets are cut"
            return
        count = len([d for d in self.it.streams.control if d.moment >= self.it.begin]) - len(compared.pictures)
        but = (
            "what was counted before the capture"
            if self.it.run.shown
            else "the moment at which the bridge read its clock"
        )
        near = f", {compared.near:,} but for {but}" if compared.near else ""
        pictures = f", and {len(compared.pictures):,} for pictures that no script has" if compared.pictures else ""
        yield f"  control: {compared.equal:,} of {count:,} compounds are the model's{near}{pictures}"
        for moment, text in sorted(compared.pictures + compared.others):
            if self.is_within(moment):
                yield f"    {self.seconds(moment):8.3f} s  {text}"
        if self.it.streams.again:
            yield (
                f"  sent again for NACKs: {counted(len(self.it.streams.again))}, of which the model sends "
                f"{self.resent():,}"
            )

    def reason(self, one):
        """Why a packet differs, as far as that is known."""
        if self.it.run.shown:
            is_early = one.moment < self.it.run.settled
            return (
                "the capture begins in mid-call"
                if is_early
                else f"{REASONS[one.kind]}, or what came before the capture"
            )
        return REASONS[one.kind]

    def resent(self):
        """How many of the packets on the wire that were sent again the model sends again."""
        left = [line.split(" ")[-1] for done in self.it.run.done for line in done.said if line.startswith("re ")]
        count = 0
        for datagram in self.it.streams.again:
            if datagram.octets.hex() in left:
                left.remove(datagram.octets.hex())
                count += 1
        return count
