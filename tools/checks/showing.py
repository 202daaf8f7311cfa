"""Pictures of the page for documents: a room of 16 members with names, and a history of several operators."""

import json

from checks import standin
from checks.counted import Counts
from checks.driving import opened, settles

PEOPLE = "Alice Bob Chen Dunja Emeka Fatima Grace Hiro Ines Jamal Kofi Lena Mateo Nadia Omar Priya".split()
NAMES = {"room 1": "Weekly call", "room 2": "Lobby", "room 3": "Concert", "member 40": "Piano"}
WITH_VIDEO = 6
# So many counts are drawn in the plots of the member whose details are open.
PLOTTED = 30
# The levels of those who speak, one of them while muted.
SPEAKS = {212: -21.0, 215: -33.0, 225: -28.0, 240: -18.0}
# Who they are, and what is done once all are there: an operator, and a line.
OPERATORS = {0: "page", 2: "Anna", 3: "Tom"}
CHANGES = [
    (0, "give-floor 1 12"), (0, "set-gain 11 210 384"), (0, "set-gain 11 212 128"), (0, "subscribe 510 111"),
    (0, "subscribe 515 110"), (2, "group mute 214 / mute 216 / mute 225"), (0, "mute 219"), (3, "mute 218"),
    (3, "undo 67"),
]  # fmt: skip


def lines():
    """The lines that fill the desk."""
    yield from ("add-room 1", "add-room 2", "add-room 3 44100")
    for place in range(len(PEOPLE)):
        member = 10 + place
        yield f"add-member {member} 1 10.0.0.{member}:5000 pcmu {9000 + member} 0 0"
        if place < WITH_VIDEO:
            yield f"add-source {100 + member} {member} video"
        yield f"add-source {200 + member} {member} audio"
        yield f"add-slot {500 + member} {member} 0 0 0"
    yield from ("add-member 40 3 10.0.0.40:5000 l16 9040 0 0", "add-source 240 40 audio")


def take_pictures(command, folder, into):
    """Pictures of the page, wide and narrow, light and dark."""
    into.mkdir(parents=True, exist_ok=True)
    names = {f"member {10 + place}": name for place, name in enumerate(PEOPLE)} | NAMES
    one = standin.Standin(text=json.dumps(names))
    for operator, line in [(0, line) for line in lines()] + CHANGES:
        said = one.call(line, operator, OPERATORS[operator])
        assert said.startswith("ok "), f"{line}: {said}"
    counts = Counts(one, silent={217}, losing={113: 0.04}, levels=SPEAKS, reports={9020: (0.06, 22, 310)})
    one.counted = counts.told
    browser = opened(command, folder, f"http://127.0.0.1:{standin.serve(one).server_port}/")
    try:
        settles(browser, one.log.version)
        browser.wait("stats !== null && stats.span !== null && infoOf(1).tally.speaking > 0", 30)
        browser.wait(f"traces.get(11)?.length >= {PLOTTED}", 2 * PLOTTED + 30)
        for name, width, height, dark in [
            ("desk", 1280, 1160, False), ("desk_dark", 1280, 1160, True), ("desk_narrow", 400, 900, False),
            ("desk_narrow_dark", 400, 900, True),
        ]:  # fmt: skip
            is_open = width == 1280
            browser.run(f"opened = {11 if is_open else 'null'}; picked.clear(); render(); true")
            browser.run("if (opened) { picked.add(14).add(16); render(); } scrollTo(0, 0), true")
            browser.shows(width, height, dark)
            browser.draws(width)
            browser.picture(into / f"{name}.png")
    finally:
        browser.close()
