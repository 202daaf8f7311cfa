"""What stands out in a capture, in sentences: the answers to "I don't hear Bob"."""

import collections
import dataclasses
import math

from operators.explain.causes import clock_text, lacks_in, moved_in, payload_text, sound_text, unheard_in
from operators.explain.changes import by_call
from operators.explain.explaining import BEFORE
from operators.explain.receivers import STILL
from operators.explain.senders import AUDIO
from operators.explain.tracks import RATES

# A share of packets that is lost or late, from which on it is told.
MUCH = 0.02
# An answer that takes longer is told, in nanoseconds.
SLOW = 100_000_000
# Sound below this level, in dBFS, can hardly be heard.
QUIET = -55
# So many packets on probation say that numbers don't follow one another. Of fewer a capture may lack those between.
SCATTERED = 5
# Nothing came of a source where its desk was known for so long, in nanoseconds.
LONG = 1_000_000_000
# The kinds of sentences. docs/DEBUGGING.md has a row for each, with a capture that shows it.
KINDS = {
    *("address", "alone", "before", "busy", "clock", "early", "events", "fault", "gain", "late", "lost", "moved"),
    *("muted", "other", "overrun", "posing", "probation", "restarted", "silence", "silent", "slot", "spacing", "ssrc"),
    *("still", "stranger", "type", "undeclared"),
}
# Of each kind of senders that nobody declared so many are told of one by one. What is said of the others.
STRANGERS = 16
OTHERS = {
    "undeclared": "members send SSRCs that are no sources of theirs",
    "posing": "their SSRCs are sources of members, whose addresses they don't have",
    "stranger": "no member has their addresses",
}
# So many packets of the bridge's own have to be there before those that are missing say what the capture lost.
ENOUGH = 50
# The capture may have lost so many packets more than the bridge's own streams show.
FEW = 2


def counted(count, what="packet"):
    return f"{count:,} {what}{'' if count == 1 else 's'}"


def times(count):
    return "once" if count == 1 else f"{count:,} times"


@dataclasses.dataclass(frozen=True)
class Finding:
    """A sentence, of which kind it is, what it is about (an SSRC, an address or a member), and whom it concerns."""

    kind: str
    about: object
    text: str
    members: frozenset


class Findings:
    """Collects sentences."""

    def __init__(self, explained, desks, senders, outgoing, seconds, between):
        self.explained, self.desks, self.senders, self.outgoing, self.seconds = (
            explained, desks, senders, outgoing, seconds
        )
        self.between = between
        self.found, self.named = [], set()
        self.sources = list(senders.sources.values())
        # The sources whose address changed, by their SSRCs; and the share of packets that the capture itself lost.
        self.moved = {one.ssrc: one for one in moved_in(self.sources, desks)}
        self.own, self.own_most = own_share(outgoing), most_share(outgoing)

    def add(self, kind, about, text, *members):
        if kind not in KINDS:
            raise ValueError(kind)
        self.found.append(Finding(kind, about, text, frozenset(members)))

    def all(self):
        for one in self.moved.values():
            self.of_moved(one)
        told, left_out = set(map(id, self.sources)), {}
        for kind in OTHERS:
            # There may be any number of these: those that send most are told of.
            some = sorted((one for one in self.sources if self.kind_of(one) == kind), key=lambda one: -one.packets)
            left_out[kind] = some[STRANGERS:]
            told -= set(map(id, left_out[kind]))
        for source in self.sources:
            if id(source) in told and not self.is_moved(source):
                self.of_source(source)
        for kind, some in left_out.items():
            # No lead names an address of these.
            self.named |= {one.address for one in some}
            if some:
                self.add(kind, None, f"{counted(len(some), 'further sender')}: {OTHERS[kind]}")
        self.of_others()
        self.of_marks()
        self.of_silent()
        self.of_slots()
        self.of_pauses()
        self.of_gaps()
        self.of_load()
        return self.found

    def kind_of(self, source):
        """Whose a source is: a member's own, or which of the others."""
        member, row = self.desks.member_at(source.address), self.desks.sources.get(source.ssrc)
        if member is None:
            return "posing" if row else "stranger"
        return "own" if row and row["member"] == member else "undeclared"

    def is_moved(self, source):
        return source.ssrc in self.moved and source is self.moved[source.ssrc].new

    # Senders

    def of_moved(self, one):
        """A source that comes from another address."""
        member = self.desks.sources[one.ssrc]["member"]
        self.named.add(one.new.address)
        self.add(
            "moved",
            one.ssrc,
            f"{one.ssrc} came from {one.old.address} until {self.seconds(one.until):.3f} s, and comes from "
            f"{one.new.address} since {self.seconds(one.since):.3f} s: {counted(one.new.packets)} dropped Unknown. Its "
            f"sender's address changed, as behind a NAT. Remove member {member}, and add it at the new address",
            member,
        )

    def of_source(self, source):
        """What stands out of a source's packets."""
        member = self.desks.member_at(source.address)
        owner = self.desks.sources.get(source.ssrc, {}).get("member")
        name = f"{source.address} sends SSRC {source.ssrc} as {source.name()}"
        for outcome, count in source.outcomes.items():
            if outcome.startswith("dropped"):
                why, kind = self.why_dropped(source, outcome, member)
                self.named.add(source.address)
                self.add(kind, source.ssrc, f"{name}: {counted(count)} {outcome}{why}", member, owner)
        taken = sum(
            count
            for outcome, count in source.outcomes.items() if outcome in ("accepted", "late", "duplicate", "restarted")
        )
        if not taken:
            if source.outcomes["probation"] >= SCATTERED:
                text = f"{name}: no two of its numbers follow one another, so it stays on probation"
                self.add("probation", source.ssrc, text, member)
            return
        self.of_loss(source, member)
        if source.outcomes["restarted"]:
            text = f"{source.ssrc} begins anew {times(source.outcomes['restarted'])}: its numbers jump"
            self.add("restarted", source.ssrc, text, member)
        self.of_sound(source, member)

    def of_loss(self, source, member):
        """Packets that are missing, beyond what the capture itself lost."""
        lost, expected = source.lost(), source.expected()
        excess = lost - 3 * self.own * expected
        if excess > MUCH * expected and (self.own_most is None or is_more(lost, self.own_most * expected)):
            own = f", of which the capture itself lost some {100 * self.own:.0f} %" if self.own else ""
            own = ", or by the capture" if self.own_most is None else own
            self.add(
                "lost",
                source.ssrc,
                f"{source.ssrc}: {counted(lost)} of {expected:,} ({100 * lost / expected:.0f} %) are lost before the "
                f"bridge{own}",
                member,
            )

    def of_sound(self, source, member):
        """What stands out of a source's sound."""
        late = source.lateness()
        if source.pt not in AUDIO:
            return
        for kind, text in ("clock", clock_text(source, RATES[source.pt])), ("spacing", sound_text(source)):
            if text:
                self.add(kind, source.ssrc, text, member)
        if late and source.late() > MUCH * len(late):
            middle = late[len(late) // 2]
            worst = [one for one in late if one > 60]
            counts = f"{source.late():,} of {len(late):,} packets come more than 60 ms late"
            half = f" (half of all are {middle:.0f} ms late or more)" if middle > 20 else ""
            text = (
                f"{source.ssrc}: {counts}, the middle one of them {worst[len(worst) // 2]:.0f} ms: what is so late "
                "isn't heard"
            )
            self.add("late", source.ssrc, text + half, member)
        if source.renewed:
            why = "since its sound was late or full for too long"
            text = f"{source.ssrc}: its jitter buffer began anew {times(source.renewed)}, {why}"
            self.add("late", source.ssrc, text, member)
        early = sum(one < -60 for one in late)
        if late and early > len(late) / 4:
            self.add(
                "early",
                source.ssrc,
                f"{source.ssrc} is heard late: over 120 ms of its sound wait in {100 * early / len(late):.0f} % of the "
                "time",
                member,
            )
        if source.samples and source.level() < QUIET:
            text = f"{source.ssrc} sends silence, or nearly so: {source.level():.0f} dBFS. Is its microphone muted?"
            self.add("silence", source.ssrc, text, member)

    def why_dropped(self, source, outcome, member):
        """Why packets are dropped and until when, and which kind of fault that is."""
        row = self.desks.sources.get(source.ssrc)
        if outcome == "dropped BadPayload":
            room, kind = self.desks.members.get(member, {}).get("room"), "events" if source.is_beside() else "type"
            return payload_text(source, self.desks.rates.get(room)), kind
        if outcome != "dropped Unknown":
            return "", "fault"
        if row and row["member"] != member:
            right = self.desks.members[row["member"]]["address"]
            return f". SSRC {source.ssrc} is a source of member {row['member']}, who sends from {right}", "address"
        if member is None:
            return ". No member has this address" + ("" if row else ", and no source this SSRC"), "stranger"
        if row:
            added = self.desks.first_at[source.ssrc]
            if added is not None and added > source.first:
                return f", until the source was added at {self.seconds(added):.3f} s", "before"
            return ", while it was no source", "before"
        kind = "audio" if source.pt in AUDIO or source.pt == 8 or source.kind else "video"
        return f". Member {member} has no such source: `add-source {source.ssrc} {member} {kind}`", "ssrc"

    def of_others(self):
        """What is no RTP, and was dropped."""
        told = 0
        for (address, kind, outcome), count in self.senders.others.items():
            if outcome and outcome.startswith("dropped") and told < STRANGERS:
                told += self.desks.member_at(address) is None
                text = f"{address} sends {kind}: {counted(count, 'datagram')} {outcome}"
                self.add("other", address, text, self.desks.member_at(address))

    # The desk

    def of_marks(self):
        """Mutes and gains of 0."""
        for mark in self.desks.marked:
            if mark.since > self.between[1] or mark.until is not None and mark.until < self.between[0]:
                continue
            is_mute = mark.what.endswith("muted")
            ssrc = int(mark.what.split(" ")[0] if is_mute else mark.what.split(" ")[3])
            owner = self.desks.sources.get(ssrc, {}).get("member")
            others = [int(mark.what.split(" ")[5])] if mark.what.startswith("the gain") else []
            since = (
                f"since {by_call(mark.call)} at {self.seconds(mark.since):.3f} s"
                if mark.call
                else self.since_before()
                if mark.since <= self.explained.begin
                else f"since {self.seconds(mark.since):.3f} s or before"
            )
            until = (
                f", until {by_call(mark.ended)} at {self.seconds(mark.until):.3f} s" if mark.until is not None else ""
            )
            text = mark.what.replace(" is ", " was ") if until else mark.what
            self.add("muted" if is_mute else "gain", ssrc, f"{text} {since}{until}", owner, *others)

    def since_before(self):
        """Since when something was so when a capture or a piece began."""
        shown = self.explained.run.shown
        return "since before this piece" if shown and shown.by == BEFORE else "since before the desk was known"

    def of_silent(self):
        """Sources of whom nothing came while the desk had them, and members who are alone."""
        heard = collections.defaultdict(list)
        for source in self.sources:
            heard[source.ssrc].append(source)
        for ssrc, row in self.desks.sources.items():
            known, packets = self.known_since(ssrc), [one for source in heard[ssrc] for one in source.track]
            if known is None or row["member"] not in self.desks.members:
                continue
            if any(one.moment >= known for one in packets):
                continue
            address = self.desks.members[row["member"]]["address"]
            text = f"no packet of {ssrc} came"
            if packets:
                last = f"the last one at {self.seconds(max(one.moment for one in packets)):.3f} s"
                text += f" since {self.seconds(known):.3f} s, when the desk was known; {last}"
            others = sorted(self.strangers_near(address)) if not packets else []
            more = f", but packets come from {others[0]}" if others else ""
            self.add("silent", ssrc, f"{text}: member {row['member']} has to send from {address}{more}", row["member"])
        rooms = collections.Counter(member["room"] for member in self.desks.members.values())
        for number, member in self.desks.members.items():
            if rooms[member["room"]] == 1 and len(self.desks.members) > 1:
                self.add("alone", number, f"member {number} is alone in room {member['room']}", number)

    def known_since(self, ssrc):
        """Since when a source was known to be of the desk, if that was for long enough."""
        added, run = self.desks.first_at[ssrc], self.explained.run
        begin, end = max(self.explained.begin, self.between[0]), min(self.explained.wire.end, self.between[1])
        since = max(begin, added or 0, *(end for _, end in run.unknown or [(0, 0)]))
        return since if not run.lost and end - since >= LONG else None

    def strangers_near(self, address):
        """The addresses with a member's host that are no member's, and that nothing else is said of."""
        host = address.split(":")[0]
        return {
            source.address for source in self.sources
            if source.address.split(":")[0] == host and self.desks.member_at(source.address) is None
        } - self.named

    def of_slots(self):
        """Slots that show nothing at the end."""
        bridge = self.desks.bridge
        for slot in bridge.desk.slots:
            if bridge.choice(slot) is None:
                wanted = bridge.wanted(slot)
                source = bridge.desk.source(wanted)
                why = (
                    "it has no subscription, and its room no pin and no floor"
                    if wanted is None
                    else f"{wanted} is muted"
                )
                if slot["index"] and wanted is None:
                    why = "it has no subscription"
                if source and source["member"] == slot["member"]:
                    why = f"{wanted} is its own member's"
                text = f"stream {slot['out']} of member {slot['member']} shows nothing at the end: {why}"
                self.add("slot", slot["out"], text, slot["member"])

    # What went out

    def of_pauses(self):
        """Pictures that stood still."""
        videos = {
            s.ssrc: s
            for s in self.sources if self.desks.sources.get(s.ssrc, {}).get("media") == "video"
        }
        for stream in self.outgoing:
            shown = videos.get(stream.spans[-1].ssrc) if stream.spans else None
            if (
                self.desks.outs.get(stream.out, ("mix",))[0] == "mix"
                or stream.pause < STILL
                or not shown
                or shown.pause > stream.pause
                or self.is_pause(stream.paused_at, stream.paused_at + stream.pause)
            ):
                continue
            changed = [
                c
                for c in self.desks.changes if c.out == stream.out and 0 <= c.moment - stream.paused_at <= stream.pause
            ]
            if not changed:
                member = self.desks.outs[stream.out][1]
                when = (
                    f"for {stream.pause / 1e9:.2f} s at {self.seconds(stream.paused_at):.3f} s, while packets of "
                    f"{shown.ssrc} came"
                )
                text = f"stream {stream.out} of member {member} stood still {when}: {self.asked_for(shown, stream)}"
                self.add("still", shown.ssrc, text, member, self.desks.sources[shown.ssrc]["member"])

    def is_pause(self, begin, end):
        """Whether nothing was captured in a time."""
        return any(a <= begin and end <= b for a, b in self.explained.wire.pauses)

    def of_gaps(self):
        """Packets of all senders that are missing at once: before the capture, or between it and the bridge."""
        for one in lacks_in(self.sources):
            what = f"{counted(one.packets)} of {', '.join(map(str, one.sources))}"
            text = f"packets of all senders are missing at once {self.time_of(one)}: {what}"
            self.add("overrun", None, f"{text}. They were lost on their common way, or the capture lost them")
        for one in unheard_in(self.explained.run.cursor.found, self.desks, not self.own):
            if one.begin > self.explained.run.settled and self.is_within(one.begin):
                when = f"around {self.seconds(one.begin):.2f} s"
                text = f"the bridge passed nothing on of {', '.join(map(str, one.sources))} {when}"
                why = "its receive buffer ran over (`stats`: `drops` of `socket`), or its machine stood still"
                self.add("overrun", None, f"{text}, though packets came: {why}")

    def is_within(self, moment):
        return self.between[0] <= moment <= self.between[1]

    def time_of(self, one):
        """When something began, and for how long it was."""
        return f"at {self.seconds(one.begin):.3f} s, for {(one.end - one.begin) / 1e6:.0f} ms"

    def of_load(self):
        """Answers that came late: the bridge or its machine is busy."""
        calls = [call for call in self.explained.calls if self.is_within(call.moment)]
        late = [call for call in calls if call.is_sure and call.until - call.moment > SLOW]
        if late:
            worst = max(late, key=lambda call: call.until - call.moment)
            took, when = (worst.until - worst.moment) / 1e9, self.seconds(worst.moment)
            text = f"the bridge took {took:.2f} s to answer `{worst.text}` at {when:.3f} s: its machine is busy"
            self.add("busy", None, text)

    def asked_for(self, source, stream):
        """What the bridge asked a source for in a pause."""
        nacks = plis = 0
        for datagram in self.explained.streams.control:
            if (
                datagram.peer == source.address
                and stream.paused_at <= datagram.moment <= stream.paused_at + stream.pause
            ):
                nacks += b"\x81\xcd" in datagram.octets
                plis += b"\x81\xce" in datagram.octets
        return f"the bridge asked for lost packets {times(nacks)}, and for a picture {times(plis)}"


def own_counts(outgoing):
    """How many packets the capture itself lost of the bridge's own streams, whose numbers have no gap, and how many it
    has. None where these are too few."""
    lost, packets = sum(stream.lost for stream in outgoing), sum(stream.packets for stream in outgoing)
    return (lost, packets) if packets >= ENOUGH and lost < packets else None


def own_share(outgoing):
    """The share of packets that the capture itself lost, 0 where nobody knows it."""
    lost, packets = own_counts(outgoing) or (0, 1)
    return lost / (lost + packets)


def most_share(outgoing):
    """The share that it may have lost at most, as far as its own streams say it, or None."""
    counts = own_counts(outgoing)
    return counts and (counts[0] + FEW) / (sum(counts) + FEW)


def is_more(count, mean):
    """Whether a count is more than chance makes of such a mean (3.5 deviations of a Poisson distribution)."""
    return count > mean + 3.5 * math.sqrt(mean) + 1.5

