"""The state of a source and of an outgoing video stream: sequence numbers, whole frames, and what was sent."""


class Source:
    """The sequence numbers of a source (RFC 3550 A.1), and its clock rate."""

    def __init__(self, rate):
        self.rate = rate
        self.before = self.greatest = self.awaited = self.epoch = self.gate = self.report = None

    def verdict(self, seq):
        """What becomes of a packet with this number, and its extended number if it is accepted."""
        if self.greatest is None:
            ends = self.before is not None and seq == (self.before + 1) % 65536
            self.before = seq
            if not ends:
                return "probation", None
            self.greatest = seq
            return "begun", seq
        ahead = (seq - self.greatest) % 65536
        if ahead < 3000 and self.greatest + ahead < 2**62 + 65536:
            self.greatest += ahead
            return "accepted", self.greatest
        if ahead > 65436:
            return "accepted", self.greatest - (65536 - ahead)
        if ahead < 3000 or seq == self.awaited:
            self.greatest, self.awaited = seq, None
            return "restarted", seq
        self.awaited = (seq + 1) % 65536
        return "jump", None


# A missing number is asked for again when it was missing at so many waits, and given up when at so many, or at so few
# where the source answers nobody.
ASKED_AT, PATIENCE, LITTLE_PATIENCE = (2, 5, 11, 21), 25, 5


class Gate:
    """The packets of a source from which whole frames are made, the number at which that began anew, and the waits."""

    def __init__(self):
        self.taken, self.cut, self.greatest, self.given = {}, None, None, 0
        # The greatest number that had come at each wait, whether the source is thought to answer, and what waits gave
        # up.
        self.waits, self.answers, self.lost = [], True, set()

    def pieces(self):
        """The closed pieces since the cut, and the number after them."""
        closed, piece, n = [], [], self.cut
        while n in self.taken:
            p = self.taken[n]
            filled = [q for _, q in piece if q["payload"]]
            if p["payload"] and filled and filled[0]["ts"] != p["ts"]:
                closed.append(piece)
                piece = []
            piece.append((n, p))
            if p["payload"] and p["marker"]:
                closed.append(piece)
                piece = []
            n += 1
        return closed, (piece[0][0] if piece and closed else n)

    def frames(self):
        """The frames that weren't given yet. The first piece may lack its beginning, so it is no frame."""
        closed, _ = self.pieces()
        new = closed[max(1, self.given) :]
        self.given = len(closed)
        return [[(n, p) for n, p in piece if p["payload"]] for piece in new]

    def skip(self, n):
        """Gives up what is incomplete until the number is less than 256 ahead. The frames that this closes, and whether
        it gave up."""
        frames, gave_up = [], False
        while n >= self.pieces()[1] + 256:
            after = [m for m in self.taken if m >= self.pieces()[1]]
            self.cut, self.given, gave_up = min(after, default=n), 0, True
            frames += self.frames()
            if self.cut == n:
                break
        return frames, gave_up

    def age(self, n):
        """At how many waits a number that is missing now was missing."""
        return sum(greatest > n for greatest in self.waits[-PATIENCE:])

    def missing(self):
        """The numbers that are missing, which no frame was made without."""
        if self.cut is None:
            return []
        return [n for n in range(self.pieces()[1], self.greatest) if n not in self.taken]

    def wait(self):
        """What comes of a wait: the frames that it frees, the numbers to ask for again, and whether one was given
        up."""
        if self.cut is None:
            # A gate begins with its first packet.
            return [], [], False
        missing = self.missing()
        again = [n for n in missing if self.age(n) in ASKED_AT]
        lost = [n for n in missing if self.age(n) >= (PATIENCE if self.answers else LITTLE_PATIENCE)]
        self.waits.append(self.greatest)
        self.lost |= set(lost)
        frames, gave_up = self.skip(lost[-1] + 256) if lost else ([], False)
        self.answers = self.answers and not gave_up
        return frames, again, gave_up

    def admit(self, n, p):
        """What becomes of a packet, the frames that it closes, the numbers to ask for, and whether a frame was given
        up."""
        self.answers = self.answers or self.age(n) > 0
        place, frames, nacks, gave_up = self.placed(n, p)
        self.answers = self.answers and not gave_up
        return place, frames, nacks, gave_up

    def placed(self, n, p):
        """The same, whatever was missing at waits."""
        frames, gave_up = [], False
        if self.cut is None:
            self.cut = n
        elif n < self.pieces()[1]:
            return "late", [], [], False
        elif n in self.taken:
            return "duplicate", [], [], False
        else:
            frames, gave_up = self.skip(n)
        self.taken[n] = p
        frames += self.frames()
        least = self.pieces()[1]
        nacks = [] if self.greatest is None else [m for m in range(self.greatest + 1, n) if m >= least]
        self.greatest = n if self.greatest is None else max(n, self.greatest)
        self.taken = {m: q for m, q in self.taken.items() if m >= self.cut}
        return "accepted", frames, nacks, gave_up


class Stream:
    """An outgoing video stream."""

    def __init__(self, slot):
        self.next, self.ts, self.run, self.sent = slot["seq"], slot["ts"], None, []

    def timestamp(self, run, ts, moment):
        """The timestamp of a frame that came with this one; it goes on by the clock where another source begins."""
        if self.run is None:
            out = self.ts
        elif self.run == run:
            out = (self.ts + ts - self.source_ts) % 2**32
        else:
            out = (self.ts + max(1, max(0, moment - self.moment) // 1000 * 9 // 100)) % 2**32
        self.run, self.ts, self.source_ts, self.moment = run, out, ts, moment
        return out

    def kept(self, seq, member, address):
        """What was sent to a member at an address under this number, if it is still kept."""
        return [(text, source) for s, m, a, text, source in self.sent if (s, m, a) == (seq, member, address)]
