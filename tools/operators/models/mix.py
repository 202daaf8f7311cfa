"""A plain mixer: samples at places that never wrap, sums over lists, and the formula of G.711."""

import functools
import struct

from operators.models.bridge import Bridge
from operators.models.desk import MUSIC

# A tick is this part of a second. Samples wait three ticks before they are heard.
TICKS, DELAY = 50, 3
# A buffer may begin anew once 300 ms of sound were late, where so many samples in time make up for a late one, or once
# 20 s of sound came while over 120 ms waited.
WEIGHT, LATE, FULL, DEEP = 1000, 300, 20_000, 120


def expanded(octet):
    """The sample of a mu-law octet (ITU-T G.711)."""
    u = ~octet & 255
    size = ((8 * (u & 15) + 132) << (u >> 4 & 7)) - 132
    return -size if u & 128 else size


@functools.cache
def compressed(sample):
    """The mu-law octet whose interval and sign hold the sample."""
    size = min(abs(sample), 32635) + 132
    for e in range(8):
        for m in range(16):
            if 128 + 8 * m << e <= size < 136 + 8 * m << e:
                return ~((128 if sample < 0 else 0) | e << 4 | m) & 255
    raise ValueError(sample)


def samples_of(pt, octets):
    """The samples of a payload of type 0 (PCMU), 97 (L16 at 8000 Hz) or 11 (L16 at 44100 Hz)."""
    if pt == 0:
        return [expanded(octet) for octet in octets]
    return list(struct.unpack(f">{len(octets) // 2}h", octets))


def octets_of(codec, samples):
    if codec == "pcmu":
        return bytes(compressed(s) for s in samples)
    return struct.pack(f">{len(samples)}h", *samples)


def type_of(codec, rate):
    """The payload type of a codec at a clock rate."""
    if codec == "pcmu":
        return 0
    return 11 if rate == MUSIC else 97


class Playout:
    """A jitter buffer of samples at a clock rate. The position is the place of the next sample to be heard."""

    def __init__(self, rate):
        self.rate, self.tick, self.position = rate, rate // TICKS, None
        # What late samples weigh, less the samples in time; and how many came one after another while too much waited.
        self.late = self.full = 0

    def samples_in(self, milliseconds):
        return self.rate * milliseconds // 1000

    def ahead(self, ts):
        """How far a timestamp is from the next sample."""
        return (ts - self.position + 2**31) % 2**32 - 2**31

    def tally(self, far, count):
        """Counts samples that come so far ahead. Whether sound was late for too long, and whether it was full for too
        long."""
        late = max(0, min(count, -far))
        self.late = max(0, self.late + WEIGHT * late - (count - late))
        self.full = self.full + count if far > self.samples_in(DEEP) else 0
        return self.late >= WEIGHT * self.samples_in(LATE), self.full >= self.samples_in(FULL)

    def put(self, ts, samples, renews=False):
        """Puts samples at a timestamp, where the buffer may begin anew after late or full sound. Why it began anew by
        them."""
        why = "begins"
        if self.position is not None:
            far = self.ahead(ts)
            if -self.rate <= far and far + len(samples) <= self.rate:
                is_late, is_full = self.tally(far, len(samples)) if renews else (False, False)
                if not is_late and not is_full:
                    for place, sample in enumerate(samples, self.position + far):
                        if place >= self.position:
                            self.there.setdefault(place, sample)
                    return "goes on"
                why = "late" if is_late else "full"
        self.position, self.there = ts - DELAY * self.tick, dict(enumerate(samples, ts))
        self.late = self.full = 0
        return why

    def take(self):
        """The samples of the next tick, None where there is none."""
        self.position += self.tick
        return [self.there.pop(place, None) for place in range(self.position - self.tick, self.position)]


class Mix:
    """An outgoing audio stream. Its timestamp and its clock rate are those of its last tick."""

    def __init__(self, member):
        self.next, self.ts, self.rate, self.spoke = member["seq"], member["ts"], None, False

    def pass_on(self, rate):
        """Goes on to a tick at a clock rate. The first one has the first timestamp."""
        if self.rate:
            self.ts += rate // TICKS
        self.rate = rate

    def header(self, pt, names, out):
        """The header of its next packet, which names those that are heard."""
        head = bytes([0x80 | len(names), (0 if self.spoke else 128) | pt])
        head += self.next.to_bytes(2, "big") + (self.ts % 2**32).to_bytes(4, "big") + out.to_bytes(4, "big")
        return head + b"".join(name.to_bytes(4, "big") for name in names)


class MixBridge(Bridge):
    """A bridge that mixes audio at each tick."""

    def __init__(self):
        super().__init__()
        self.playouts, self.mixes, self.renews = {}, {}, False

    def opened(self, ssrc, cname, renews):
        super().opened(ssrc, cname, renews)
        self.renews = renews

    def sound(self, address, packet, rate):
        self.put((packet["ssrc"], address), rate, packet["ts"], samples_of(packet["pt"], packet["payload"]))

    def put(self, key, rate, ts, samples):
        """Puts samples of a source, which a key names, at a timestamp."""
        if key not in self.playouts or self.playouts[key].rate != rate:
            self.playouts[key] = Playout(rate)
        why = self.playouts[key].put(ts, samples, self.renews)
        self.seen[f"buffers that begin anew after {why} sound at {rate} Hz"] += why in ("late", "full")

    def sources_for(self, member):
        """The unmuted audio sources of the other members of a room, as (SSRC, address, gain)."""
        d = self.desk
        for other in d.members:
            if other is member or other["room"] != member["room"]:
                continue
            for source in sorted(
                (s for s in d.sources if s["member"] == other["member"] and s["media"] == "audio"),
                key=lambda s: s["ssrc"],
            ):
                if not d.one("mutes", source=source["ssrc"]):
                    gain = d.one("gains", member=member["member"], source=source["ssrc"])
                    yield source["ssrc"], other["address"], gain["q8"] if gain else 256

    def heard(self, member, taken):
        """Who is named, and the samples that the member hears. A source of another clock rate isn't heard."""
        rate = self.desk.rate_in(member["room"])
        names, total = [], [0] * (rate // TICKS)
        for ssrc, address, gain in self.sources_for(member):
            samples = taken.get((ssrc, address, rate))
            if samples is None:
                continue
            total = [t + (s or 0) * gain // 256 for t, s in zip(total, samples)]
            if gain > 0 and any(s is not None for s in samples):
                names.append(ssrc)
        return names, [max(-32768, min(32767, t)) for t in total]

    def tick(self):
        """The mixes of a tick."""
        self.items += 1
        taken = {(*key, playout.rate): playout.take() for key, playout in self.playouts.items()}
        lines, spoke, rates = [], set(), {m["out_audio"]: self.desk.rate_in(m["room"]) for m in self.desk.members}
        for out, mix in self.mixes.items():
            mix.pass_on(rates.get(out, mix.rate))
        for m in self.desk.members:
            names, samples = self.heard(m, taken)
            if names:
                out, codec = m["out_audio"], m["codec"]
                if out not in self.mixes:
                    self.mixes[out] = Mix(m)
                    self.mixes[out].pass_on(rates[out])
                mix = self.mixes[out]
                octets = mix.header(type_of(codec, mix.rate), names[:15], out) + octets_of(codec, samples)
                lines.append(f"tx {self.version} {self.items} {m['address']} {out} {mix.next} {octets.hex()}")
                mix.next = (mix.next + 1) % 65536
                spoke.add(out)
        for out, mix in self.mixes.items():
            mix.spoke = out in spoke
        return lines

    def item(self, words):
        if words[0] == "tick":
            return self.answer(f"tick {words[1]}")
        if words[0] == "renew":
            self.renews = True
        if words[0] == "audio":
            samples = list(struct.unpack(f">{len(words[5]) // 4}h", bytes.fromhex(words[5])))
            self.put((int(words[2]), words[1]), int(words[3]), int(words[4]), samples)
        return super().item(words)

    def answer(self, line):
        return self.tick() if line.startswith("tick ") else super().answer(line)
