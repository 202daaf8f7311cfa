"""What a bridge would count of a plain desk whose members send. It goes on with the clock, at each request."""

import threading
import time

# Packets and samples of a second, at 8000 Hz.
PACKETS, SAMPLES = 50, 8000
# The energy of the loudest sample, in the units of `stats`.
LOUDEST = 2**20
# The level of a source of which nothing else is said, in dBov.
STILL = -75.0


def energy_of(samples, level):
    """The energy of so many samples of a level in dBov."""
    return int(samples * LOUDEST * 10 ** (level / 10))


class Counts:
    """The counts of a desk. `silent` are sources, `losing` has shares of sources, `levels` those in dBov, and
    `reports` the shares, jitters and round trips that receivers of streams tell, by their SSRCs."""

    def __init__(self, one, silent=(), losing=None, levels=None, reports=None):
        self.one, self.silent, self.losing = one, set(silent), losing or {}
        self.levels, self.reports, self.strangers = levels or {}, reports or {}, []
        self.past, self.at, self.lock = {}, None, threading.Lock()

    def passes(self, seconds):
        """So much time passes: each source sends."""
        for source in self.one.log.desk.sources:
            if source["ssrc"] in self.silent:
                continue
            counts = self.past.setdefault(source["ssrc"], {"due": 0.0, "lost": 0.0, "samples": 0, "energy": 0})
            counts["due"] += PACKETS * seconds
            counts["lost"] += PACKETS * seconds * self.losing.get(source["ssrc"], 0)
            if source["media"] == "audio":
                samples = int(SAMPLES * seconds)
                counts["samples"] += samples
                counts["energy"] += energy_of(samples, self.levels.get(source["ssrc"], STILL))

    def source(self, source, address):
        counts, is_sound = self.past[source["ssrc"]], source["media"] == "audio"
        due, lost = int(counts["due"]), int(counts["lost"])
        return {
            "address": address, "ssrc": source["ssrc"], "packets": due - lost, "expected": due, "lost": lost,
            "ago_ms": 60_000 if source["ssrc"] in self.silent else 12, "jitter_ms": 3 if is_sound else 9,
            "samples": counts["samples"] if is_sound else None, "energy": counts["energy"] if is_sound else None,
        }  # fmt: skip

    def stream(self, ssrc):
        fraction, jitter, trip = self.reports.get(ssrc, (0, 4, 30 + ssrc % 20))
        return {"out_ssrc": ssrc, "fraction": int(256 * fraction), "lost": 0, "packets": 100, "jitter_ms": jitter,
                "round_trip_ms": trip}  # fmt: skip

    def told(self):
        """What /stats has."""
        with self.lock:
            now = time.monotonic()
            self.passes(2 if self.at is None else now - self.at)
            self.at = now
            desk = self.one.log.desk
            addresses = {member["member"]: member["address"] for member in desk.members}
            sources = [self.source(one, addresses[one["member"]]) for one in desk.sources if one["ssrc"] in self.past]
            streams = [one["out_audio"] for one in desk.members] + [one["out"] for one in desk.slots]
            return {"sources": sources, "streams": [self.stream(one) for one in streams], "strangers": self.strangers}
