"""A model of the bridge that goes through minutes of a call in seconds, and can go back to an earlier state."""

import copy

from operators.models.reports import ReportBridge
from operators.models.streams import PATIENCE, Gate


class QuickGate(Gate):
    """A gate that forgets the frames that it gave. It answers as the plain one does."""

    def __init__(self):
        super().__init__()
        # Where the pieces begin that aren't forgotten, whether a piece since the cut is, and the cut for which this is
        # so.
        self.base, self.has_forgotten, self.known_cut = None, False, None

    def pieces(self):
        if self.cut != self.known_cut:
            self.base, self.has_forgotten, self.known_cut = self.cut, False, self.cut
        closed, piece, begun, n = [[]] if self.has_forgotten else [], [], None, self.base
        while n in self.taken:
            p = self.taken[n]
            if p["payload"]:
                if begun is not None and begun != p["ts"]:
                    closed.append(piece)
                    piece, begun = [], None
                begun = p["ts"] if begun is None else begun
            piece.append((n, p))
            if p["payload"] and p["marker"]:
                closed.append(piece)
                piece, begun = [], None
            n += 1
        return closed, (piece[0][0] if piece and closed else n)

    def frames(self):
        new = super().frames()
        if self.given:
            _, first = self.pieces()
            self.base, self.has_forgotten, self.given = first, True, 1
            self.taken = {n: p for n, p in self.taken.items() if n >= first}
        return new

    def wait(self):
        answer = super().wait()
        del self.waits[:-PATIENCE]
        return answer


class QuickGates:
    """A model's way to quick gates."""

    def video(self, moment, address, p, source, verdict, ext):
        if verdict in ("begun", "restarted"):
            source.gate = QuickGate()
        return super().video(moment, address, p, source, verdict, ext)


class QuickBridge(QuickGates, ReportBridge):
    """The model with quick gates. It tells how far ahead of the next sample the sound of a datagram is."""

    def __init__(self):
        super().__init__()
        # In units of the clock rate; None where the datagram began its jitter buffer, or had no sound.
        self.far = None

    def sound(self, address, packet, rate):
        playout = self.playouts.get((packet["ssrc"], address))
        self.far = playout.ahead(packet["ts"]) * 8000 // rate if playout and playout.rate == rate else None
        before = self.seen.total()
        super().sound(address, packet, rate)
        if self.seen.total() > before:
            # The jitter buffer began anew.
            self.far = None

    def answer(self, line):
        self.far = None
        return super().answer(line)

    # Earlier states

    def parts(self):
        """All objects that change."""
        yield from (self, self.log, *self.kept.values(), *self.streams.values(), *self.mixes.values())
        yield from (*self.playouts.values(), *self.came.values())
        yield from (source.gate for source in self.kept.values() if source.gate)

    def state(self):
        """What the bridge is now."""
        return [(part, {name: copied(value) for name, value in vars(part).items()}) for part in self.parts()]

    @staticmethod
    def go_back(state):
        """Makes the bridge what it was."""
        for part, fields in state:
            vars(part).clear()
            vars(part).update({name: copied(value) for name, value in fields.items()})


def copied(value):
    """A container that may change by itself, or a value. What a dictionary holds is of one kind: a jitter buffer has
    thousands of samples, which needn't be looked at one by one."""
    if not isinstance(value, (dict, list, set)):
        return value
    again = copy.copy(value)
    if isinstance(value, dict) and isinstance(next(iter(value.values()), None), list):
        again.update({key: list(one) for key, one in value.items() if isinstance(one, list)})
    return again
