"""Compares what members hear with a model of the mixer.

Members of three rooms, one of them for music, send audio in both codecs that is reordered, lost, doubled, and jumps in
time. Some of it comes late, or while much sound waits, for so long that its buffer may begin anew, or nearly so long.
Most scripts begin with a line that has buffers begin anew by that. Ticks and waits come in between, and operators mute,
set gains, move, remove and undo, with --groups mostly in groups. A member that is removed comes back in any of the
rooms, also at another clock rate.

With --cases nothing is compared. The lines are printed with the model's answers, in the form of the scripts of
x_cases_files.
"""

import random
import struct

from checks.check.desk import group_with
from checks.check.rx import add_script, compare_script, draw_first
from operators.models.desk import MUSIC, USUAL
from operators.models.mix import DEEP, FULL, LATE, TICKS, WEIGHT, MixBridge
from operators.packets import rtp

NEEDS = "a program, a minute"

# The last three are in the room for music.
ADDRESSES = [f"10.0.0.{n}:5000" for n in range(1, 11)]
ROOMS = [1, 1, 1, 1, 1, 2, 2, 3, 3, 3]
SETUP = (
    ["desk 0 add-room 1", "desk 0 add-room 2", "desk 0 add-room 3 44100"]
    + [
        f"desk 0 add-member {10 + n} {ROOMS[n]} {a} {'l16' if n % 2 or n > 6 else 'pcmu'} {9001 + n} "
        f"{(0, 65530, 7)[n % 3]} {(0, 4294960000)[n % 2]}"
        for n, a in enumerate(ADDRESSES)
    ]
    + [f"desk 0 add-source {201 + n} {10 + n} audio" for n in range(len(ADDRESSES))]
    + ["desk 0 add-source 301 10 audio", "desk 0 add-source 101 12 video"]
)


# A datagram carries so many samples of L16.
MOST_L16 = 4090


def options(parser):
    add_script(parser, 1_000)


class Voice:
    """An audio source, and the packets that are under way."""

    def __init__(self, r, address, ssrc):
        self.r, self.address, self.ssrc = r, address, ssrc
        self.seq, self.ts, self.way = r.choice([0, 65500, r.randrange(65536)]), r.choice(
            [0, 2**32 - 900, r.randrange(2**32)]
        ), []

    def more(self, rate):
        """Sends a packet on its way, which in most cases is audio in a room of this clock rate."""
        r = self.r
        rate = rate if r.random() < 0.97 else r.choice([USUAL, MUSIC])
        tick = rate // TICKS
        count = r.choice([tick, tick, tick, tick, tick // 2, 3 * tick // 2, 1, min(10 * tick, MOST_L16)])
        pt, payload = self.sound(rate, count)
        kept = r.random()
        payload = payload if kept < 0.97 else payload[:-1] if kept < 0.98 else b""
        self.way.append(rtp(self.seq, self.ts, self.ssrc, payload, pt=pt))
        self.seq, self.ts = self.seq + 1, self.ts + count
        if r.random() < 0.02:
            self.ts += r.choice(
                [rate // 10, rate, rate - 3 * tick, rate - 3 * tick + 1, 2**31, -(rate // 20), -9 * rate // 8]
            )

    def sound(self, rate, count):
        """A payload type, and a payload of so many samples at a clock rate."""
        r = self.r
        pt, quiet = 11 if rate == MUSIC else r.choice([0, 97]), r.choice([0, 4, 10])
        if pt == 0:
            return pt, r.randbytes(count)
        loud = struct.unpack(f">{count}h", r.randbytes(2 * count))
        return pt, struct.pack(f">{count}h", *(sample >> quiet for sample in loud))

    def aimed(self, playout, far, count):
        """A packet of so many samples that comes so far ahead of the next sample of its buffer."""
        self.ts = (playout.position + far) % 2**32
        pt, payload = self.sound(playout.rate, count)
        octets = rtp(self.seq, self.ts, self.ssrc, payload, pt=pt)
        self.seq, self.ts = self.seq + 1, self.ts + count
        return octets

    def late(self, playout):
        """A packet that is late, in whole or in part. Some are just as late as begins the buffer anew, or a sample
        less."""
        r, tick = self.r, playout.tick
        left = WEIGHT * playout.samples_in(LATE) - playout.late
        late = -(-left // WEIGHT)
        if late <= 5 * tick and r.random() < 0.7:
            spare = late * WEIGHT - left
            late, more = r.choice([(late, 0), (late, spare), (late, spare), (late, spare + 1), (late - 1, 0)])
            count = min(late + more, 10 * tick, MOST_L16)
            return self.aimed(playout, -late, max(1, count))
        late, count = r.randrange(1, 2 * tick), r.choice([tick, tick, 1, 3 * tick])
        return self.aimed(playout, -late, count)

    def full(self, playout):
        """A packet that comes while about as much waits as may for some time. Some are just as long as begins the
        buffer anew."""
        r, most = self.r, min(10 * playout.tick, MOST_L16)
        far = playout.samples_in(DEEP) + r.choice([1, 1, 2, playout.tick, 0 if r.random() < 0.03 else 1])
        left = playout.samples_in(FULL) - playout.full
        count = r.choice([left, left - 1]) if 1 < left <= most else most
        return self.aimed(playout, far, count)

    def next(self, rate):
        r = self.r
        while not self.way or r.random() < 0.5:
            self.more(rate)
        at = min(int(r.expovariate(1.2)), len(self.way) - 1)
        return self.way[at] if r.random() < 0.03 else self.way.pop(at)


def addition(r, n):
    """The command that adds a member again, to any room."""
    codec, out_audio = r.choice(["l16", "l16", "pcmu"]), 9001 + n
    return (
        f"add-member {10 + n} {r.choice([1, 1, 2, 3, 3])} {ADDRESSES[n]} {codec} {out_audio} {r.randrange(65536)} "
        f"{r.randrange(2**32)}"
    )


def draw_words(r, version):
    """The words of an operator's call."""
    n, member, source = r.randrange(len(ADDRESSES)), 10 + r.randrange(len(ADDRESSES)), r.choice(
        [*range(201, 201 + len(ADDRESSES)), 301]
    )
    # The member and its source change the room, which may have another clock rate.
    change = f"group remove-member {10 + n} / {addition(r, n)} / add-source {201 + n} {10 + n} audio"
    return r.choice([
        f"mute {source}", f"unmute {source}", f"unmute {source}",
        f"set-gain {member} {source} {r.choice([0, 1, 128, 255, 256, 257, 1024])}",
        f"set-gain {member} {source} 256", f"move-member {member} {r.choice([1, 1, 2, 3])}", change, change, change,
        addition(r, n),
        f"remove-member {member}" if r.random() < 0.3 else f"mute {source}",
        f"remove-source {source}" if r.random() < 0.3 else f"unmute {source}",
        f"add-room 3{r.choice(['', ' 44100', ' 44100'])}", "remove-room 3" if r.random() < 0.1 else change,
        f"add-source {201 + n} {10 + n} audio", f"add-source {201 + n} {10 + n} audio", f"undo {version}",
        f"undo {version}", f"redo {version}",
    ])  # fmt: skip


def draw_command(r):
    """The words of an operator's call that is neither an undo, nor a redo, nor a group."""
    while True:
        words = draw_words(r, 0)
        if words.split(" ")[0] not in ("undo", "redo", "group"):
            return words


def rate_at(bridge, address):
    """The clock rate of the room of the member at an address."""
    member = bridge.member_at(address)
    return bridge.desk.rate_in(member["room"]) if member else USUAL


class Burst:
    """Packets of one voice that come late, or while much waits, mostly one after another."""

    def __init__(self, r, voices):
        self.voice, self.is_late = r.choice([*voices, *2 * voices[7:10]]), r.random() < 0.6
        self.left = r.choice([5, 20, 40]) if self.is_late else r.choice([115, 230])

    def next(self, bridge):
        """The octets of the next packet, if the voice has a buffer."""
        self.left -= 1
        playout = bridge.playouts.get((self.voice.ssrc, self.voice.address))
        if not playout or playout.rate != rate_at(bridge, self.voice.address):
            return None
        return (self.voice.late if self.is_late else self.voice.full)(playout)


def draw_wait(r, moment):
    """The line of a wait, for a source of audio, one of video, or none."""
    n = r.randrange(len(ADDRESSES))
    return f"wait {moment} {ADDRESSES[n]} {r.choice([201 + n, 201, 101, 9])}"


def draw_line(r, bridge, voices, moment, groups):
    """A line of any kind."""
    roll = r.random()
    if roll < 0.06:
        words = draw_words(r, bridge.version)
        words = group_with(r, bridge.desk, words, lambda: draw_command(r)) if groups else words
        return f"desk 0 {words}"
    if roll < 0.08:
        return draw_wait(r, moment)
    if roll < 0.35:
        return f"tick {moment}"
    voice = r.choice(voices)
    return f"rx {moment} {voice.address} {voice.next(rate_at(bridge, voice.address)).hex()}"


def draw_script(r, count, groups):
    """A random script as (line, its answers), and what happens in it."""
    bridge = MixBridge()
    voices = [Voice(r, a, 201 + n) for n, a in enumerate(ADDRESSES)] + [Voice(r, ADDRESSES[0], 301)]
    first = draw_first(r) if r.random() < 0.3 else ["bridge 1 bridge renew"]
    script, moment, burst = [(line, bridge.answer(line)) for line in [*first, *SETUP]], 0, None
    while len(script) < count or burst:
        moment += r.randrange(20_000_000)
        burst = burst or (Burst(r, voices) if r.random() < 0.02 else None)
        octets = burst.next(bridge) if burst and r.random() < 0.97 else None
        line = (
            f"rx {moment} {burst.voice.address} {octets.hex()}"
            if octets
            else draw_line(r, bridge, voices, moment, groups)
        )
        burst = burst if burst and burst.left else None
        script.append((line, bridge.answer(line)))
    return script, bridge.seen


def run(args):
    return compare_script(args, *draw_script(random.Random(args.seed), args.lines, args.groups))
