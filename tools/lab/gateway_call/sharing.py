"""A browser shows its screen, and takes other devices."""

import time

from lab.gateway_call.trial import Trial

# A screen of more pixels than one may have, whose colour is that of caller F.
WIDTH, HEIGHT, COLOUR, MOST = 2560, 1440, "yellow", 1920 * 1080
# The most packets of a frame that the bridge keeps, and for how many seconds frames are counted.
PACKETS, SECONDS = 256, 10


class Sharing(Trial):
    """The steps of screens and devices."""

    def step_screen(self):
        """A shows its screen: B sees it beside A's camera, until it ends or an operator takes it away."""
        a, b = self.callers["A"], self.callers["B"]
        a.run(f"makeScreen({WIDTH}, {HEIGHT}, '{COLOUR}')")
        a.press("screen")
        ssrc, member = a.joined["screen"], a.joined["member"]
        row = f"source {ssrc} {member} video"
        self.comes(lambda: row in self.rows(), "A shows its screen: it is one more source of A", a.says)
        self.has(b, "AF", "A's screen comes")
        self.comes(lambda: "A's screen" in b.names(), "B's page says whose it is", b.names)
        self.comes(lambda: "You show your screen: at most" in a.says(), "A's page says how large it is", a.says)
        self.frames_are_small(a, b, ssrc)
        number = self.do(f"pin 1 {ssrc}")
        self.has(b, "A", "A's screen is pinned", "F")
        self.revert(number)
        self.has(b, "AF", "that is reverted")
        a.press("screen")
        self.comes(lambda: row not in self.rows(), "A stops: the row is gone", self.rows)
        self.has(b, "A", "A has stopped")
        a.press("screen")
        self.has(b, "AF", "A shows it once more")
        self.do(f"remove-source {ssrc}")
        words = "An operator has taken your screen away."
        self.comes(lambda: words in a.says(), "an operator takes it away, and A's page says so", a.says)
        self.has(b, "A", "it is taken away")

    def has(self, one, others, text, stage="-"):
        """Whether a browser sees these pictures in its small slots, and one or none on its stage."""
        good, told = one.sees(stage, others)
        self.check(good, f"{text}: {one.name} sees {others}{f', and {stage} on its stage' * (stage != '-')}", told)

    def frames_are_small(self, a, b, ssrc):
        """Whether frames of a screen that is hard to code pass, at few pixels."""
        a.run("noisy = true")
        self.comes(lambda: "F" in b.shows_now(), "a screen of noise comes", b.says, 20)
        time.sleep(5)
        counted = lambda: next(line.split() for line in self.operator.shown("stats") if f" {ssrc} packets" in line)
        value = lambda line, word: int(line[line.index(word) + 1])
        mid = self.section_of(b, ssrc)
        before, seen = counted(), b.counts("inbound-rtp", mid).get("framesDecoded", 0)
        time.sleep(SECONDS)
        after, picture = counted(), b.counts("inbound-rtp", mid)
        rise = lambda word: value(after, word) - value(before, word)
        frames, packets, given_up = rise("frames"), rise("packets"), rise("given-up")
        decoded = picture.get("framesDecoded", 0) - seen
        each = packets / max(1, frames)
        text = f"{frames} frames of {each:.0f} packets each pass in {SECONDS} s, {given_up} given up, {decoded} decoded"
        self.check(frames and decoded > frames / 2 and each < PACKETS, text, (before, after))
        told = ", ".join(f"{rise(word)} {word}" for word in ("late", "duplicate", "jump"))
        print(f"      of {packets} packets {told}")
        pixels = picture.get("frameWidth", 0) * picture.get("frameHeight", 0)
        self.check(0 < pixels <= MOST, f"it has {pixels} pixels", picture)
        print(f"      {a.says()}")
        a.run("noisy = false")

    def section_of(self, one, ssrc):
        """The m-section by which a browser gets a picture, by the desk's rows."""
        rows, member = [row.split() for row in self.rows()], str(one.joined["member"])
        slots = [row[1] for row in rows if row[0] == "sub" and row[2] == str(ssrc)]
        own = [row for row in rows if row[0] == "slot" and row[1] in slots and row[2] == member]
        return str(int(own[0][3]) + 1) if own else None

    def step_devices(self):
        """A takes another camera and another microphone in its call, which goes on."""
        a, before = self.callers["A"], self.rows()
        kinds = "navigator.mediaDevices.enumerateDevices().then(all => all.map(one => [one.kind, one.deviceId]))"
        found = a.run(kinds)
        for kind, choice, media in ("audioinput", "microphones", "audio"), ("videoinput", "cameras", "video"):
            ids = [id for one, id in found if one == kind]
            own = f"call.own.get{media.title()}Tracks()[0]"
            now = lambda: a.run(f"{own}.getSettings().deviceId")
            other = next((id for id in reversed(ids) if id != now()), ids[-1])
            track = a.run(f"{own}.id")
            a.run(f"at('{choice}').value = '{other}', at('{choice}').onchange()")
            is_taken = lambda: a.run(f"{own}.id") != track and now() == other
            self.comes(is_taken, f"A takes another of its {len(ids)} {choice}", lambda: (found, a.says()))
            sends = f"call.peer.getSenders().some(one => one.track === {own})"
            self.check(a.run(sends), "and sends what comes from there")
        self.check(self.rows() == before, "its member and its sources are those that it had", self.rows())
        self.everyone_hears("A has another microphone")
        self.has(self.callers["B"], "A", "A has another camera")
        self.comes(lambda: a.run("at('level').value") > 0.3, "A's page shows how loud it is", a.says)
