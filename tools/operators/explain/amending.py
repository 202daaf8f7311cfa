"""Looks for the order of what happened that explains the wire.

A capture has the moments at which datagrams and lines came, not those at which the bridge took them. Where what the
model sends differs from the wire, a tick or a call nearby may have been taken before or behind its neighbours.

The search ends on any capture. Ticks keep their order, so each turn passes one more of them. What is gone through again
for an order is counted, and no further order is tried once that is AGAIN times the events and LEAST more. Ticks count
there as often as other events at most, so that a time in which little came allows little. A call that was held on a
machine with six times the work that it can do took seven times its events for all orders. So what stays behind the
bound is rarely a matter of order, and who reads it is told that none was tried.
"""

import dataclasses

from operators.explain.events import CALL, PAUSE, RX, TICK, Event
from operators.explain.ticks import ANSWERED
from operators.packets import is_rtcp

# An order is looked for among so many ticks back, and among neighbours that are so near, in nanoseconds.
BACK, NEAR = 12, 3_000_000
# A lane may come to a tick so long after it was given, and follows the desk of that time, in nanoseconds.
LAG = 250_000_000
# One lane may be so far behind another one, in nanoseconds.
BEHIND = 60_000_000
# So many orders are tried for one difference, and so many in vain one after another. Each tick without a difference
# takes one of these back, so that the search goes on behind a time that no order explains.
TRIES, VAIN = 40, 200
# Orders are tried for so many times the events of a capture, and so many events beside, as a short one may need.
AGAIN, LEAST = 10, 8_000
# To look at so many events, or to put them in order, takes as long as to go through one of them.
LOOKED = 100
# So many of the last calls and ticks may move.
MOVING = 100
# What is told where no order is tried, although packets differ.
UNTRIED = "so many packets differ that no other order of what happened is tried: explain such a time by itself"
# Units of 90 kHz by which a moment may be mended, 20 ms, and of how many of the last differences.
MOST_UNITS, AT_ONCE = 1800, 8


class Search:
    """A run over events, whose order is changed where that explains more of the wire."""

    def __init__(self, run, events):
        self.run, self.events, self.vain, self.mended = run, events, 0, 0
        # How many events were gone through again, and how many may be; where no order was tried although packets
        # differ.
        came = sum(event.kind != TICK for event in events)
        self.spent, self.most, self.untried = 0, AGAIN * min(len(events), 2 * came) + LEAST, []
        # The places behind the last ticks with the states of the run there, what the usual order wrote down since the
        # first of them, and the place that it has come to.
        self.states, self.usual, self.end = [], None, 0

    def go(self):
        """Goes through all events."""
        at = 0
        while at < len(self.events):
            end = self.behind_tick(at)
            if self.events[at].kind == PAUSE:
                # Nothing behind it explains what was before.
                self.states = []
            self.states = [*self.states[-BACK:], (at, self.run.state())]
            found, last = len(self.run.cursor.found), self.events[end - 1]
            self.run.go(self.events[at:end])
            if len(self.run.cursor.found) == found:
                self.vain = max(0, self.vain - 1)
            elif last.kind != PAUSE and last.place > self.run.settled:
                if self.vain < VAIN and self.spent < self.most:
                    end = self.mend(end, found)
                else:
                    self.untried.append(last.place)
            at = end

    def behind_tick(self, at):
        """The place behind the next tick, or before the next time without packets, or behind that, or the end."""
        for n in range(at, len(self.events)):
            if self.events[n].kind == PAUSE:
                return n if n > at else n + 1
            if self.events[n].kind == TICK:
                return n + 1
        return len(self.events)

    def mend(self, end, goal):
        """Tries other orders until no more than so many differences are left, and keeps the best. The place behind the
        last tick."""
        least, best, last = len(self.run.cursor.found), None, self.events[end - 1]
        unknown = self.unknown()
        first, states = self.states[0][0], self.states
        usual, self.usual = self.events[first:end], self.run.behind(states[0][1])
        for tried, order in enumerate(self.orders(first, end)):
            if tried == TRIES or self.vain == VAIN or self.spent >= self.most:
                break
            self.vain += 1
            count = self.again(states, usual, order, last)
            if self.unknown() > unknown:
                # It hides what differs.
                continue
            if count < least:
                least, best = count, order
            if count <= goal:
                break
        if best:
            self.vain, self.mended = 0, self.mended + 1
            self.events[first : first + len(best)] = best
        self.again(states, usual, best or usual, last)
        return self.end

    def unknown(self):
        """How often the desk became unknown."""
        return len(self.run.unknown) + bool(self.run.lost)

    def again(self, states, usual, order, last):
        """Goes through events again in another order than the usual one, of which there are states, up to a tick, or
        through all of them where the last one is no tick: else a call that moves would hide what comes of it. How many
        differences there are then."""
        first = states[0][0]
        same = next((n for n, (one, other) in enumerate(zip(usual, order)) if one is not other), len(usual) - 1)
        self.states = [state for state in states if state[0] <= first + same]
        at, state = self.states.pop()
        # Another order may have been tried since, and what it wrote down is no part of this state.
        self.run.put_behind(states[0][1], self.usual)
        self.run.go_back(state)
        begun = at - first
        for n, event in enumerate(order[begun:], begun + 1):
            is_last = event.kind == last.kind == TICK and event.what is last.what
            if event.kind == TICK or is_last or n == len(order):
                self.states.append((first + begun, self.run.state()))
                self.run.go(order[begun:n])
                begun = n
            if is_last:
                break
        self.end = first + begun
        self.spent += self.end - first + len(order) // LOOKED
        return len(self.run.cursor.found)

    # Orders

    def orders(self, first, end):
        """Other orders of the events from a place on, the likeliest first."""
        yield from self.other_moments(first, end)
        moves, last = [], self.events[end - 1]
        moving = [at for at in range(end - 1, first - 1, -1) if self.events[at].kind in (TICK, CALL)]
        for at in moving[:MOVING]:
            moves += self.moves(at, first)
        for at in range(end, len(self.events)):
            if self.events[at].place > last.latest + BEHIND or self.events[at].kind == PAUSE:
                break
            if self.events[at].kind == CALL:
                # A lane follows the desk of the time at which it comes to a tick.
                moves.append((0, at, last.place - 1))
        for _, at, place in sorted(moves, key=lambda move: move[0]):
            yield self.order_with(first, end, at, place)

    def moves(self, at, first):
        """Places to which an event may move: how far it moves, its number, and the place. There are no more on either
        side than orders are tried: others are further away."""
        event = self.events[at]
        for step, stop in ((-1, first - 1), (1, len(self.events))):
            left, to = TRIES, at
            for to in range(at + step, stop, step):
                other = self.events[to]
                if event.kind == other.kind and step < 0 or not self.may_pass(event, other) or other.kind == PAUSE:
                    break
                if event.kind != other.kind and counts(event, other):
                    far = abs(other.place - event.place)
                    yield far if far < NEAR else far + 2 * NEAR, at, other.place + step
                    left -= 1
                    if not left:
                        break
            self.spent += abs(to - at) // LOOKED
        if event.kind == TICK and event.latest - event.place > NEAR:
            # It was given late, behind all that came until its mixes left.
            yield NEAR + len(self.events) - at, at, event.latest - ANSWERED

    @staticmethod
    def may_pass(event, other):
        """Whether a tick or a call may have been taken on the other side of another event."""
        if event.kind == CALL and other.kind == TICK and other.place < event.place:
            return event.what.moment <= other.latest + BEHIND
        early = event.what.moment - LAG if event.kind == CALL else event.moment - NEAR
        return early <= other.place <= event.latest + NEAR

    def order_with(self, first, end, at, place):
        """The events from a place on where one of them moves. Those of its kind behind it stay behind it, and calls
        before it before it."""
        last = max(end, at + 1)
        while last < len(self.events) and self.events[last].place <= place:
            last += 1
        order = self.events[first:last]
        moved = order[at - first]
        for n, event in enumerate(order):
            is_behind = n >= at - first and event.kind == moved.kind and (event is moved or event.place < place)
            # Calls have the order of their numbers.
            is_before = n < at - first and event.kind == moved.kind == CALL and event.place > place
            if is_behind or is_before:
                order[n] = dataclasses.replace(event, place=place)
        return sorted(order, key=Event.key)

    def other_moments(self, first, end):
        """Orders in which a datagram or a tick that a run of a stream begins with has the moment that its timestamp
        tells."""
        for difference in self.run.cursor.found[-AT_ONCE:]:
            if difference.kind not in ("numbers", "octets") or not 0 < abs(difference.ahead) <= MOST_UNITS:
                continue
            at = next((n for n in range(first, end) if self.events[n] is difference.cause), None)
            if at is None:
                continue
            for more in (1000, 5000, -3000):
                event, shift = self.events[at], difference.ahead * 100_000 // 9 + more
                if event.kind == TICK:
                    event = dataclasses.replace(event, place=self.between_ticks(at, event.place + shift))
                else:
                    event = dataclasses.replace(event, moment=event.moment + shift)
                yield [*self.events[first:at], event, *self.events[at + 1 : end]]


    def between_ticks(self, at, place):
        """The place nearest to a wanted one at which a tick stays between those before it and behind it."""
        before = next((one.place for one in self.events[at - 1 :: -1] if one.kind == TICK), place) if at else place
        behind = next((one.place for one in self.events[at + 1 :] if one.kind == TICK), place)
        return max(before, min(place, behind))


def counts(event, other):
    """Whether the order of two events may change what is sent."""
    if other.kind == RX:
        return event.kind == CALL or not is_rtcp(other.what.octets[:2].ljust(2, b"\0"))
    return other.kind in (CALL, TICK)
