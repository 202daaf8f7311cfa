"""Browsers whose pictures follow who speaks, at a gateway that shows one picture to each."""

import socket
import statistics
import threading
import time

from lab.gateway_call.lossy import Lossy
from lab.gateway_call.parts import Parts, until
from lab.gateway_call.trial import Trial
from operators.shared import fail

# The room, and how often each browser speaks, for how many seconds.
ROOM, ROUNDS, SPEAKS = 3, 4, 4
# The most that a new picture may take, in ms: from a change of the desk to the first frame that is decoded. A watch
# tells a change up to 50 ms late, which are missing here.
MEDIAN_MS, MOST_MS = 100, 300
# The share of packets that is lost on a weak way.
LOST = 0.6
# The most that may pass from a click to the change, in seconds: speech is heard after half a second.
CHANGES = 3


class Watching(threading.Thread):
    """An operator who watches the desk: when each slot was given which camera."""

    def __init__(self, tcp):
        super().__init__(daemon=True)
        self.given, self.connection = [], socket.create_connection(("127.0.0.1", tcp), 30)
        self.lines = self.connection.makefile()
        self.connection.sendall(b"watch\n")
        said = self.lines.readline()
        if not said.startswith("end "):
            fail(f"`watch` is answered {said!r}")
        self.connection.settimeout(None)
        self.start()

    def run(self):
        for line in self.lines:
            moment = time.time()
            for part in line.removeprefix("call ").strip().replace(" group ", " / ").split(" / ")[1:]:
                word, *numbers = part.split(" ")
                if word == "subscribe":
                    self.given.append((moment, *map(int, numbers)))

    def close(self):
        self.connection.shutdown(socket.SHUT_RDWR)
        self.connection.close()


class Following(Trial):
    """The step in which browsers speak one after another."""

    def step_speakers(self, rounds=ROUNDS):
        """All browsers join again, where each sees one of the others at a time, and speak in turn."""
        parts = Parts(self.folder, self.udp, self.tcp, self.parts.control, first_member=700_000, pictures=1)
        self.others.append(parts)
        parts.start("agent")
        browsers, watch = self.browsers(), Watching(self.tcp)
        for one in browsers:
            one.leave()
            one.at_page(parts.page, room=ROOM)
            one.join()
            one.press("microphone")
        said = lambda: [one.run("document.getElementById('people').textContent") for one in browsers]
        muted = lambda: all(text.count("muted") == len(browsers) for text in said())
        self.comes(muted, "all mute themselves, and each page says so of all", said, 20)
        time.sleep(SPEAKS)
        took = [one for at in range(rounds * len(browsers)) for one in self.speaks(browsers, at, watch)]
        watch.close()
        every = [ms for ms in took if ms is not None]
        good = len(every) == len(took) and statistics.median(every) <= MEDIAN_MS and max(every) <= MOST_MS
        text = f"{len(every)} of {len(took)} new pictures within {MEDIAN_MS} ms at the median and {MOST_MS} at most"
        self.check(good, text, took)
        if every:
            print(f"      median {statistics.median(every)} ms, maximum {max(every)} ms")
        for one in browsers:
            one.press("microphone")
        self.come_home(browsers, parts)

    def come_home(self, browsers, parts):
        """They join the room of all others again."""
        for one in browsers:
            one.leave()
            one.at_page(self.parts.page)
            one.join()
        parts.stop("agent")

    def step_weak(self):
        """Two browsers whose packets are lost get fewer pictures, and have them back when none is lost."""
        lossy, pair = Lossy(self.udp, self.tcp, 0.0), self.browsers()[:2]
        parts = Parts(self.folder, lossy.udp, lossy.tcp, self.parts.control, first_member=750_000)
        self.others.append(parts)
        parts.start("agent")
        for one in pair:
            one.leave()
            one.at_page(parts.page, room=ROOM)
            one.join()
        for one in pair:
            self.sees(one, "over another network", without="C")
        lossy.share, lossy.ways = LOST, ["down"]
        shown = lambda: [one.shows_now() for one in pair]
        says = lambda: [one.says() for one in pair]
        took = self.comes(lambda: not self.small(pair), f"{LOST:.0%} lost to them: no picture is sent", self.rows, 40)
        self.comes(lambda: all("loses packets" in text for text in says()), "and the pages say why", says)
        self.comes(lambda: not any(text.strip("-") for text in shown()), "and show none", shown)
        lossy.share = 0.0
        back = self.comes(lambda: all(len(text.strip("-")) == 1 for text in shown()), "they come back", shown, 60)
        print(f"      gone after {took or 0:.1f} s, back after {back or 0:.1f} s")
        self.come_home(pair, parts)

    def small(self, browsers):
        """The slots of these that show somebody, but for their stages."""
        members = [str(one.joined["member"]) for one in browsers]
        rows = [row.split() for row in self.rows()]
        slots = [row[1] for row in rows if row[0] == "slot" and row[2] in members and row[3] != "0"]
        return [row for row in rows if row[0] == "sub" and row[1] in slots]

    def speaks(self, browsers, at, watch):
        """One unmutes itself and speaks for a while: the others see it. After how many ms, where they didn't before."""
        speaker = browsers[at % len(browsers)]
        before = {one: one.shows_now()[1] for one in browsers}
        begun = time.time()
        speaker.press("microphone")
        viewers = [one for one in browsers if one is not speaker]
        sees = lambda: all(one.shows_now()[1] == speaker.name for one in viewers)
        took = until(sees, CHANGES + 3)
        shown = {one.name: one.shows_now()[1] for one in viewers}
        self.check(took is not None, f"{speaker.name} speaks: all others see it", shown)
        times = [self.new_picture(one, speaker, watch, begun) for one in viewers if before[one] != speaker.name]
        time.sleep(max(0, begun + SPEAKS - time.time()))
        speaker.press("microphone")
        # A page mutes or unmutes once a second.
        time.sleep(1)
        return times

    def new_picture(self, one, speaker, watch, begun):
        """After how many ms a page had the first frame of who speaks, since the desk gave its slot that camera."""
        slots = [int(row.split()[1]) for row in self.rows() if row.startswith("slot ") and self.is_first_of(one, row)]
        given = [at for at, slot, camera in list(watch.given) if slot in slots and camera == speaker.joined["camera"]]
        late = [at for at in given if at > begun]
        if not late:
            return None
        self.check(late[0] - begun < CHANGES, f"its slot changes {late[0] - begun:.1f} s after the click", late)
        until(lambda: one.shown_since(1, speaker.name, late[0] - 0.05) is not None, 5)
        since = one.shown_since(1, speaker.name, late[0] - 0.05)
        return None if since is None else since - 50

    def is_first_of(self, one, row):
        """Whether a row is a page's first slot beside its stage."""
        return row.split()[2:4] == [str(one.joined["member"]), "1"]
