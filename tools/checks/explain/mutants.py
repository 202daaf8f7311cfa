"""Captures that nobody made: small ones, changed at some places, with packets doubled, lost, cut, moved in time."""

import gzip
import io
import signal
import traceback

from checks.captures.writing import block, pcap, pcapng, tcp_packet, udp_packets
from checks.explain.made import BEGIN, BRIDGE, DESK, ONE, OPERATOR, SETUP, STRANGER, Made
from operators.captures.files import frames_of
from operators.captures.links import COOKED, COOKED_2, ETHERNET, RAW, Packets
from operators.captures.notes import BadCapture, Notes
from operators.explain.explaining import explained
from operators.explain.pieces import Pieces, Source
from operators.explain.telling import Telling, telling
from operators.packets import rtp
from operators.printing import printable
from operators.watch.metrics import text_of
from operators.watch.seen import Seen
from operators.watch.table import Table

# A capture that takes longer is one that never ends, in seconds of a processor: these take one or two at most. It has
# no more lines than this.
LONGEST, MOST_LINES = 60, 2000
# So many packets of a capture that is explained by pieces are read at once.
FEW = 16
ALL = (0, float("inf"))
HOSTILE = b"\x1b]0;x\x07\x1b[2J\x9b31m\r\xe2\x80\xae"
# Lines that desks and operators may send: good ones, rows without sense, and what is meant for a terminal.
LINES = [
    b"show\n", b"history\n", b"watch\n", b"stats\n", b"ok 9\n", b"end 8\n", b"end\n", b"no 8 10 Already\n", b"busy\n",
    b"mute 202\nshow\nquit\n", b"undo 9\n", b"redo 9\n", b"call 9 1 mute 201\n", b"1 0 add-room 1 8000\nend 1\n",
    b"room 1\nmember 0 10 1 127.0.0.1:6000 pcmu 9001 0 0\nsource 201 10 audio\nmute 201\npin 1 101\nend 3\n",
    b"calls\n", b"as ann\n", b"why\nhelp\nshow\n", b"as \x9b31m\n", b"show\nstats\nas NAME\nquit\nend\n",
    b"call 1 1800000000000 0 - add-room 1 8000\ncall 2 1800000000001 0 ann add-room 2 8000\nend 2\n",
    b"call 1 999 0 - revert 1\nend 1\n", b"line undo\nfault 4 MissingWord a word is missing\nend\n",
    b"member 0\nsource x y\nslot\nend 99999999999999999999999999\n", b"ok 99999999999999999999999999\n", b"ok \xb2\n",
    b"group " + b"mute 1 / " * 70 + b"mute 2\n", b"mute " + b"9" * 5000 + b"\n", b"add-" + HOSTILE + b" 1\n",
    b"member 0 11 1 " + HOSTILE + b" pcmu 9001 0 0\nend 4\n", b"a" * 9000,
]  # fmt: skip
# Options of a pcapng interface that say nothing, or too much: their numbers and octets.
OPTIONS = [(9, b""), (9, b"\x7f"), (9, b"\xff"), (9, b"\x06\x06"), (14, b""), (14, b"\x7f" * 8), (14, b"\x80" * 8)]


class Small(Made):
    """A call that two lines set up."""

    setup = ["add-room 1", "group " + " / ".join(SETUP[1:])]


class Captures:
    """Draws captures."""

    def __init__(self, draw):
        self.draw = draw
        self.calls = [Small(ticks, shows).packets for ticks, shows in ((0, None), (1, None), (2, 1), (3, 2))]

    def one(self):
        """The octets of a capture."""
        draw, packets = self.draw, list(self.draw.choice(self.calls))
        for _ in range(draw.randrange(4)):
            packets = self.changed(packets)
        octets = self.written(packets)
        if draw.randrange(3) == 0:
            octets = bytearray(octets)
            for _ in range(draw.randrange(1, 5)):
                if octets:
                    octets[draw.randrange(len(octets))] = draw.choice((0, 1, 127, 128, 255, draw.randrange(256)))
            octets = bytes(octets)
        if draw.randrange(12) == 0:
            octets = octets[: draw.randrange(len(octets) + 1)]
        if draw.randrange(16) == 0:
            octets = gzip.compress(octets, 1)[: draw.randrange(len(octets) + 1) or None]
        return octets

    def written(self, packets):
        """A capture in one of the forms."""
        draw, link = self.draw, self.draw.choice((ETHERNET, RAW, COOKED, COOKED_2))
        if draw.randrange(3):
            return pcap(packets, link, draw.choice("<>"), 10 ** draw.choice((6, 9)), most=draw.choice((None, None, 96)))
        octets = pcapng([one for one in packets if one[0] >= 0], link, draw.choice("<>"))
        if draw.randrange(3) == 0:
            order, (number, option) = draw.choice("<>"), draw.choice(OPTIONS)
            sizes = [size.to_bytes(2, "little" if order == "<" else "big") for size in (link, 0, number, len(option))]
            body = sizes[0] + bytes(6) + sizes[2] + sizes[3] + option + bytes(-len(option) % 4)
            octets = block(order, 0x0A0D0D0A, b"\x4d\x3c\x2b\x1a"[:: 1 if order == "<" else -1] + bytes(12)) + block(
                order, 1, body
            ) + octets[28:]
        return octets

    def changed(self, packets):
        """The packets with one of them lost, doubled, cut, moved, or joined by another one."""
        draw, at = self.draw, self.draw.randrange(len(packets) + 1)
        here = packets[at - 1][0] if packets else BEGIN
        kind = draw.randrange(8)
        if kind == 0:
            return packets[at:] if draw.randrange(2) else packets[:at]
        if kind == 1:
            return packets[:at] + packets[at : at + draw.randrange(9)] + packets[at:]
        if kind == 2:
            return packets[:at] + packets[at + draw.randrange(1, 4) :]
        if kind == 3:
            far = draw.choice((5_000_000, 10**9, 7 * 10**9, 3600 * 10**9, 400 * 86400 * 10**9))
            far, end = far * draw.choice((1, -1)), draw.choice((at + 1, len(packets)))
            return [(max(0, moment + far) if at <= n < end else moment, it) for n, (moment, it) in enumerate(packets)]
        if kind == 4:
            octets = draw.choice(LINES)
            ends = [(OPERATOR, DESK), (DESK, OPERATOR), ("127.0.0.1:40001", DESK), (DESK, "127.0.0.1:40001")]
            ends = draw.choice([*ends, ("127.0.0.2:40002", "127.0.0.2:7000")])
            seq, flags = draw.choice((1000, 5000, draw.randrange(2**32))), draw.choice((24, 24, 2, 18, 1, 4))
            return packets[:at] + [(here, tcp_packet(*ends, seq, flags, octets))] + packets[at:]
        if kind == 5:
            one = rtp(draw.randrange(65536), draw.randrange(2**32), draw.choice((201, 202, 101, 9001, 7)), HOSTILE, 0)
            one = bytes([draw.choice((0x80, 0xBF, 0x90)), draw.choice((0, 8, 97, 101, 111, 200, 201, 205))]) + one[2:]
            ends = draw.choice([(ONE, BRIDGE), (BRIDGE, ONE), (STRANGER, BRIDGE), (BRIDGE, STRANGER)])
            return packets[:at] + [(here, it) for it in udp_packets(*ends, one, 7, 8)] + packets[at:]
        moved = list(packets)
        for n in range(len(moved)):
            if draw.randrange(6) == 0 and moved[n][1]:
                octets = bytearray(moved[n][1])
                octets[draw.randrange(len(octets))] ^= 1 << draw.randrange(8)
                moved[n] = moved[n][0], bytes(octets)
        return moved


def explain_told(octets):
    """What `explain` tells of a capture."""
    it = explained(io.BytesIO(octets))
    return list(telling(it, "it", None, ALL))


def pieces_told(octets):
    """What `explain --each 1` tells of a capture."""
    found = []
    for it, between in Pieces(Source(io.BytesIO(octets), FEW), 1).all():
        found += Telling(it, None, between).piece()
    return found


def watched(octets):
    """What `watch` has seen when a capture is over."""
    seen = Seen(Notes(), "5004", "7000")
    for packet in Packets(seen.notes).of(frames_of(io.BytesIO(octets), seen.notes)):
        seen.take(packet)
    return seen


def watch_told(octets):
    """What `watch` tells of a capture."""
    seen = watched(octets)
    text_of(seen)
    return list(Table(seen).lines()) if seen.now is not None else []


def metrics_of(octets):
    """What `watch --listen` tells of a capture."""
    return text_of(watched(octets)).splitlines()


def too_long(*_):
    raise TimeoutError(f"it isn't through in {LONGEST} s")


def said_of(octets):
    """How `explain`, as a whole and by pieces, and `watch` end on a capture: in words, or by a traceback."""
    # By the time that this process itself takes: a busy machine gives it little.
    signal.signal(signal.SIGPROF, too_long)
    for name, told in ("explain", explain_told), ("explain --each", pieces_told), ("watch", watch_told):
        signal.setitimer(signal.ITIMER_PROF, LONGEST)
        try:
            lines = told(octets)
            if len(lines) > MOST_LINES:
                return f"{name} tells {len(lines)} lines"
            "\n".join(map(printable, lines)).encode()
        except BadCapture:
            pass
        except Exception as why:  # noqa: BLE001: whatever it is, nobody should see it
            place = traceback.extract_tb(why.__traceback__)[-1]
            return f"{name} ends with {why!r} at {place.filename}:{place.lineno}"
        finally:
            signal.setitimer(signal.ITIMER_PROF, 0)
    return "told"
