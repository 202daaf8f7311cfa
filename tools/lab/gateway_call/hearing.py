"""Who speaks, whose way is weak, and whether a bridge is overloaded: the rules by numbers that it tells."""

import sys

from operators.shared import ROOT

sys.path.insert(0, str(ROOT / "examples/gateway"))

from desk import Rows  # noqa: E402
from links import NONE, Links  # noqa: E402
from overload import STANDS, WORDS, Overload  # noqa: E402
from speaking import Speaking  # noqa: E402

STEP = 0.25


def level(dbov, samples=2000):
    """The energy of so many samples at a level, in the bridge's units."""
    return int(samples * 2**30 * 10 ** (dbov / 10) / 1024)


def try_speech(check):
    """Who speaks, by quarters of a second at these levels: None where nothing comes."""
    for text, levels, wanted in (
        ("two loud quarters in a row", [-44, -44], [0, 1]),
        ("one loud quarter", [-44, -60, -44, -46, -44], [0] * 5),
        ("-45 dBov isn't loud", [-45.01, -45.01], [0, 0]),
        ("four quiet quarters in a row", [-30, -30, -53, -53, -53, -53, -30], [0, 1, 1, 1, 1, 0, 0]),
        ("one between that isn't quiet", [-30, -30, -53, -53, -53, -51, -53, -53, -53, -53], [0] + [1] * 8 + [0]),
        ("four in which nothing comes", [-30, -30, None, None, None, None], [0, 1, 1, 1, 1, 0]),
        ("loud ones with a break", [-30, None, -30, -30], [0, 0, 0, 1]),
    ):
        one, samples, energy, said = Speaking(), 8000, 10**9, []
        one.hears(["level 10.0.0.1:5000 7 8000 1000000000"], 0.0)
        for at, each in enumerate(levels, 1):
            samples, energy = (samples, energy) if each is None else (samples + 2000, energy + level(each))
            lines = [] if each is None else [f"level 10.0.0.1:5000 7 {samples} {energy}"]
            said.append(len(one.hears(lines, at * STEP)))
        check(said == wanted, f"who speaks: {text}", said)
    one = Speaking()
    one.hears(["level 10.0.0.1:5000 7 8000 1000000000", "end"], 0.0)
    said = [one.hears([f"level 10.0.0.1:5000 7 {2000 * at} {level(-30) * at}", "end"], at * STEP) for at in (1, 2)]
    check(said == [set(), {7}], "a bridge that counts from 0 again is followed", said)


# A member's streams at `stats`: its mix, of which the share of a last report counts, and three pictures, of which the
# numbers of two reports do. The last picture has stopped.
SOUND = "stream {} fraction {} lost 1 highest - - packets {} octets 5 resent 0 jitter 4 round-trip 35"
PICTURE = "stream {} fraction 0 lost {} highest 1 {} packets {} octets 5 resent 9 jitter 4 round-trip 35"
MIX, SLOT = 1000, 3000
RATES = {SLOT: 60, SLOT + 1: 100, SLOT + 2: 0}
# The desk of the member, as far as that matters.
DESK = """room 1
member 0 7 1 10.0.0.1:5000 pcmu 1000 0 0
slot 3000 7 0 0 0
slot 3001 7 1 0 0
slot 3002 7 2 0 0
slot 3003 7 3 0 0
end 1"""


class Way:
    """A member's way, by what is reported of it each second."""

    def __init__(self):
        self.links, self.rows, self.at, self.lost = Links(), Rows(DESK.split("\n")), 0, dict.fromkeys(RATES, 0)

    def left(self, seconds, sound=0, pictures=0):
        """How many small pictures are left at the end of each second in which so much is lost, in 256ths."""
        said = []
        for _ in range(seconds):
            self.at += 1
            lines = ["seats 1 of 4", SOUND.format(MIX, sound, 50 * self.at)]
            for ssrc, rate in RATES.items():
                self.lost[ssrc] += rate * pictures / 256
                came = 7000 + rate * self.at
                lines.append(PICTURE.format(ssrc, int(self.lost[ssrc]), came, came))
            said.append(self.links.look(lines, self.rows, self.at).get(7))
        return said


def try_links(check):
    """What is left of pictures where sound is lost. Lost pictures are sent again in time."""
    way = Way()
    for text, fraction, seconds, wanted in (
        ("nothing is lost", 0, 5, [None] * 5),
        ("just under a tenth", 25, 20, [None] * 20),
        ("over a tenth for two seconds, and then not", 26, 3, [None] * 3),
        ("a good second", 0, 1, [None]),
        ("over a tenth", 30, 13, [None] * 3 + [1] * 3 + [0] * 3 + [NONE] * 4),
        ("good again", 10, 31, [NONE] * 10 + [0] * 10 + [1] * 10 + [2]),
        ("too much", 60, 4, [2] * 3 + [1]),
        ("good again: that takes twice as long now", 0, 22, [1] * 20 + [2, 2]),
        ("a half", 128, 4, [2] * 3 + [1]),
        ("good after that: twice as long again", 0, 81, [1] * 40 + [2] * 40 + [None]),
        ("over a half, which may be of an outage", 200, 7, [None] * 3 + [1] * 3 + [0]),
    ):
        said = way.left(seconds, sound=fraction)
        check(said == wanted, f"a way that loses sound: {text}", said)
    try_pictures(check)


def try_pictures(check):
    """The same where pictures are lost. A report is compared with the one of three seconds before."""
    way = Way()
    for text, fraction, seconds, wanted in (
        ("nothing is lost", 0, 5, [None] * 5),
        ("a quarter for one second", 64, 1, [None]),
        ("and then nothing", 0, 5, [None] * 5),
        ("a tenth", 25, 20, [None] * 20),
        ("over a half", 140, 9, [None] * 3 + [0] * 3 + [NONE] * 3),
        ("good again", 0, 32, [NONE] * 12 + [0] * 10 + [1] * 10),
    ):
        said = way.left(seconds, pictures=fraction)
        check(said == wanted, f"a way that loses pictures: {text}", said)


def try_spared(check):
    """The same where a page says at once that it loses most of its pictures."""
    way = Way()
    way.left(5)
    spared = way.links.spare(7, way.rows, way.at)
    check(spared == {7: 0}, "who says that it loses most pictures has no small ones any more", spared)
    way.links.spare(7, way.rows, way.at)
    for text, seconds, wanted in (
        ("good then: one comes back after ten seconds", 12, [0] * 10 + [1] * 2),
        ("good on", 6, [1] * 6),
    ):
        said = way.left(seconds)
        check(said == wanted, f"a page that says so: {text}", said)
    said = way.links.spare(7, way.rows, way.at)
    check(said == {7: 0}, "it says so again soon: it has none again", said)
    said = way.left(22)
    check(said == [0] * 20 + [1] * 2, "that was too much: one comes back after twice as long", said)
    way.links.spare(8, way.rows, way.at)
    check(8 not in way.links.left(), "who is no member has no pictures to end")


# A lane at `stats`.
LANE = "lane {} items 5012 dropped {} packets 4010 octets 520112 waited 0 not-ready 0 denied 0 refused 7"


def try_overload(check):
    """A bridge is overloaded for a while after a lane has dropped items."""
    one, said = Overload(), []
    for now, dropped in (0, (5, 0)), (1, (5, 0)), (2, (5, 3)), (3, (5, 3)), (1 + STANDS, (5, 3)), (2 + STANDS, (5, 3)):
        lines = [LANE.format(lane, count) for lane, count in enumerate(dropped)]
        said.append(one.look(["datagrams 3 octets 51 dropped rtp 3 Csrc", *lines, "seats 1 of 4"], now))
    good = said == ["", "", WORDS, WORDS, WORDS, ""]
    check(good, "a bridge whose lanes drop items is overloaded, and not by those of before", said)
    said = [one.look([LANE.format(0, count)], 40 + count) for count in (0, 1)]
    check(said == ["", WORDS], "nor is one that counts from 0 again, until it drops some", said)
