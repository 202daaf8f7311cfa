"""Whose way from the bridge is weak, by what receivers report (`stats` of docs/FORMATS.md): a rule that asks nobody.

A member that loses over a tenth of its sound or of its pictures for `BAD` seconds keeps half of its small pictures, and
then half of these; last of all its stage goes. Where it loses over a half of its pictures, all small ones go at once,
since its sound suffers as long as they come. After `GOOD` seconds without that it gets them back by the same steps.
Where a step was too much, it takes twice as long until the next one.

Of sound, what counts is the share that the last report names. It may be of an outage that is over, so that it takes no
more than half of the pictures. Of pictures browsers report with each NACK, so that such a share is of some
milliseconds. There it is the difference of two reports that are `BAD` seconds apart (RFC 3550 section 6.4.3).
"""

import typing

# The share of packets that a weak way loses, and for how many seconds; and after how many good ones more is tried.
SHARE, BAD, GOOD = 0.1, 3, 10
# The share from which on no small picture is left, and for how many seconds a report of pictures is kept.
MUCH, KEPT = 0.5, BAD + 0.5
# The longest time until more is tried, and the one after which a way is as good as new.
LONGEST = 160
# How many small pictures are left where the stage has gone, too.
NONE = -1


class Link(typing.NamedTuple):
    """A member's way: how many small pictures are left, None where all are; whether it is bad, and since when it is so;
    how long it has to be good; and when it last got something back."""

    left: int | None
    is_bad: bool
    since: float
    wait: float = GOOD
    tried: float | None = None

    def after(self, share, most, now):
        """The same after a look, of a member that loses this share, and has so many small slots."""
        is_bad = share > SHARE
        one = self if is_bad == self.is_bad else self._replace(is_bad=is_bad, since=now)
        left, time = most if one.left is None else min(one.left, most), now - one.since
        if is_bad and time >= BAD and left > NONE:
            fewer = 0 if share > MUCH else left // 2
            return one.less(fewer if left else NONE, now)
        if not is_bad and one.left is not None and time >= one.wait:
            left = max(2 * left, left + 1)
            return Link(None if left >= most else left, False, now, one.wait, now)
        return one._replace(wait=GOOD) if not is_bad and time >= LONGEST else one

    def less(self, left, now):
        """The same with so many small pictures left, since more were too much."""
        was_too_much = self.tried is not None and now - self.tried < 2 * GOOD
        return Link(left, True, now, min(2 * self.wait, LONGEST) if was_too_much else self.wait)


class Report(typing.NamedTuple):
    """What a receiver has reported of a slot: when that was seen, the source and its number up to which packets came,
    and how many are lost."""

    seen: float
    source: str
    highest: int
    lost: int


class Links:
    """The ways of members, as they are looked at each second."""

    def __init__(self):
        # By SSRC: how many packets of a mix were sent, and the reports of a slot that are kept.
        self.links, self.packets, self.reports = {}, {}, {}

    def look(self, lines, rows, now):
        """Takes an answer to `stats`. How many small pictures are left to whom not all are."""
        shares, small, found = self.shares(lines, rows, now), {}, {}
        for member, index in rows.slots.values():
            small[member] = small.get(member, 0) + (index > 0)
        for member, most in small.items():
            before = self.links.get(member, Link(None, False, now))
            found[member] = before.after(shares.get(member, 0), most, now)
        self.links = found
        return self.left()

    def left(self):
        return {member: link.left for member, link in self.links.items() if link.left is not None}

    def spare(self, member, rows, now):
        """Ends all small pictures of a member at once. What was reported before counts no more."""
        link = self.links.get(member)
        if link is not None and link.left not in (0, NONE):
            self.links[member] = link.less(0, now)
            self.reports = {slot: kept for slot, kept in self.reports.items() if rows.slots.get(slot, ())[:1] != (member,)}
        return self.left()

    def shares(self, lines, rows, now):
        """The share that members lose of their sound or of their pictures, whichever is more."""
        streams = {int(line.split()[1]): line.split()[2:] for line in lines if line.startswith("stream ")}
        packets, self.packets = self.packets, {}
        shares = {}
        for member, mix in rows.mixes.items():
            if mix in streams:
                self.packets[mix], fraction = int(streams[mix][8]), streams[mix][1]
                # A stream that sends nothing now has an old report.
                is_new = fraction != "-" and self.packets[mix] > packets.get(mix, self.packets[mix])
                shares[member] = min(int(fraction) / 256, MUCH) if is_new else 0
        for member, (lost, expected) in self.pictures(streams, rows, now).items():
            if expected:
                shares[member] = max(shares.get(member, 0), lost / expected)
        return shares

    def pictures(self, streams, rows, now):
        """How many packets of pictures members have lost in the last seconds, and of how many."""
        reports, self.reports, found = self.reports, {}, {}
        for slot, (member, _) in rows.slots.items():
            words = streams.get(slot, ["-"] * 7)
            if words[5] == "-":
                continue
            last = Report(now, words[5], int(words[6]), int(words[3]))
            kept = [one for one in reports.get(slot, []) if now - one.seen <= KEPT]
            self.reports[slot] = [one for one in kept if one.source == last.source] + [last]
            first = self.reports[slot][0]
            if last.highest > first.highest:
                lost, expected = found.get(member, (0, 0))
                found[member] = lost + last.lost - first.lost, expected + last.highest - first.highest
        return found
