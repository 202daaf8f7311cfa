"""What operators do at the page by hand, each tried in two browsers: sliders, keys, names, many members, and large
desks."""

import json
import pathlib
import statistics
import time

from checks.driving import MEANT
from operators.shared import fail

REST = 0.4
# A change of a large desk costs at most so many times what it costs with one room of two.
MOST_TIMES = 4
# Two screens of 1280 by 900.
TWO_SCREENS = 1800
NAMES = {
    "member 10": "Alice",
    "member 11": "بوب 🎤",
    "room 1": "<script>document.title = 'no'</script>",
    "source 201": "n" * 200,
}
RULES = pathlib.Path(__file__).parent / "check/page_rules.js"


def check(holds, text):
    if not holds:
        fail(text)


def version(browser):
    return browser.run("desk.version")


def reaches(browser, number, what, more=0):
    """The page is at a version, or so many later, and stays there. The version."""
    browser.wait(f"desk.version >= {number}")
    time.sleep(REST + 0.4)
    browser.wait("touched.size === 0 && !asking")
    reached = version(browser)
    check(number <= reached <= number + more, f"{what} takes more than one call: {reached} in place of {number}")
    return reached


def last_line(browser):
    """The last call in force, as the bridge tells it."""
    browser.wait("past?.version === desk.version")
    return browser.run("past.done[past.done.length - 1].line")


def rests(moves):
    """Does moves one after another. How often a slider may have rested between them: where this machine took too long
    for a move."""
    count, moment = 0, time.monotonic()
    for move in moves:
        move()
        now = time.monotonic()
        count += now - moment >= REST / 2
        moment = now
    return count


def slides(browser, other):
    """A slider that a pointer drags, or a key moves, changes the gain by one call, and nothing else."""
    browser.run("if (opened !== 10) acts.open(10); widened.add('10 202'); render(); true")
    before, rooms = version(browser), browser.run("desk.rows.filter((row) => row.startsWith('member '))")
    slider = '[data-key="gain 10 202"]'
    browser.run(f"document.querySelector({json.dumps(slider)}).scrollIntoView({{ block: 'center' }}), true")
    x, y, width, height = browser.place(slider)
    y += height / 2
    browser.mouse("mousePressed", x + width / 4, y)
    points = [(x + width * part / 16, y) for part in range(5, 13)] + [(x + width * 3 / 4, y + 60)]
    more = rests([lambda at=at: browser.mouse("mouseMoved", *at) for at in points])
    browser.mouse("mouseReleased", x + width * 3 / 4, y + 60)
    reached = reaches(browser, before + 1, "a slider that is dragged", more)
    check(last_line(browser).startswith("set-gain 10 202 "), f"a dragged slider sends {last_line(browser)}")
    check(
        browser.run("desk.rows.filter((row) => row.startsWith('member '))") == rooms, "a dragged slider moves a member"
    )
    browser.run(f"document.querySelector({json.dumps(slider)}).focus(), true")
    more = rests([lambda: browser.press("ArrowLeft", 37)] * 5)
    reached = reaches(browser, reached + 1, "a slider that five keys move", more)
    browser.wait("document.activeElement.dataset.key === 'gain 10 202'")
    other.wait(f"desk.version === {reached}")


def keeps_what_is_typed(browser, ask):
    """Another operator's change overwrites no field that is typed into, and leaves focus and scrolling as they are."""
    browser.run(
        "document.getElementById('search').blur(), window.scrollTo(0, 120), document.querySelector('#add-member "
        "[name=member]').focus({ preventScroll: true }), true"
    )
    browser.run("document.activeElement.select(), true")
    browser.types("77")
    browser.run("document.querySelector('#add-member [name=address]').focus({ preventScroll: true }), true")
    before, scrolled = version(browser), browser.run("window.scrollY")
    check(ask("mute 202") == f"ok {before + 1}", "another operator's mute is refused")
    browser.wait(f"desk.version === {before + 1}")
    said = browser.run(
        "[document.querySelector('#add-member [name=member]').value, document.activeElement.name, window.scrollY]"
    )
    check(
        said == ["77", "address", scrolled],
        f"after another operator's change the field, the focus and the scrolling are {said}",
    )
    check(ask("unmute 202") == f"ok {before + 2}", "another operator's unmute is refused")
    browser.wait(f"desk.version === {before + 2}")
    browser.run("document.querySelector('#add-member [name=member]').value = '', true")
    time.sleep(MEANT)


def presses_keys(browser):
    """`/` searches, `m` mutes, Ctrl+Z undoes by its words, and Ctrl+Shift+Z does it again."""
    before = version(browser)
    browser.run("document.activeElement.blur(), document.querySelector('[data-key=\"open 11\"]').focus(), true")
    browser.press("m", 77)
    reaches(browser, before + 1, "the key m")
    check(last_line(browser) == "mute 202", f"the key m sends {last_line(browser)}")
    browser.press("z", 90, modifiers=2)
    reaches(browser, before + 2, "Ctrl+Z")
    browser.wait("document.getElementById('notice').textContent.startsWith('Undo: mute 202: accepted')")
    browser.press("z", 90, modifiers=10)
    reaches(browser, before + 3, "Ctrl+Shift+Z")
    browser.wait("document.getElementById('notice').textContent.startsWith('Redo: mute 202: accepted')")
    browser.press("/", 191)
    browser.types("202")
    browser.wait(
        "document.querySelectorAll('#board .member').length === 1 && document.querySelector('#board "
        "[data-member=\"11\"]') !== null"
    )
    browser.press("Escape", 27)
    browser.wait("document.querySelectorAll('#board .member').length > 1")
    browser.run("document.activeElement.blur(), true")


def acts_on_many(browser):
    """By the pointer a member is muted and the mute taken back, and three members move as one change. All but one are
    muted as one, too."""
    before = version(browser)
    browser.click('[data-key="toggle 10"]')
    reaches(browser, before + 1, "a click on Mute")
    check(last_line(browser) == "mute 201", f"Mute of member 10 sends {last_line(browser)}")
    browser.click("#undo")
    reaches(browser, before + 2, "a click on Undo")
    for member in 10, 11, 12:
        browser.click(f'[data-select="{member}"]')
    browser.run(
        "const many = document.querySelector('[data-choice=\"move-chosen\"]'); offer(many); many.value = '2'; "
        "many.dispatchEvent(new Event('change', { bubbles: true })); true"
    )
    reaches(browser, before + 3, "a move of three members")
    moves = "group move-member 10 2 / move-member 11 2 / move-member 12 2"
    check(last_line(browser) == moves, f"three members move by {last_line(browser)}")
    browser.run("document.getElementById('undo').click(), acts.clear(), true")
    reaches(browser, before + 4, "an undo")
    browser.run("acts['mute-others'](11), true")
    reaches(browser, before + 5, "a mute of all but one")
    check(last_line(browser) == "mute 201", f"all but member 11 are muted by {last_line(browser)}")
    browser.run("document.getElementById('undo').click(), true")
    reaches(browser, before + 6, "an undo")


def asks_before(browser, ask):
    """A room of more than four members goes only once it was asked what goes along."""
    before = version(browser)
    parts = (
        ["add-room 9"] + [f"add-member {it} 9 10.9.0.{it - 900}:5000 pcmu {9900 + it} 0 0" for it in range(901, 906)]
    )
    check(ask("group " + " / ".join(parts)) == f"ok {before + 1}", "a group is refused")
    browser.wait(f"desk.version === {before + 1}")
    for choice, wanted in ("ask-no", before + 1), ("ask-yes", before + 2):
        browser.run("acts['remove-room'](9), true")
        browser.wait(
            "document.getElementById('ask').open && document.getElementById('ask-text').textContent.startsWith('5 "
            "members, 0 sources, 0 slots go along')"
        )
        browser.run(f"document.getElementById('{choice}').click(), true")
        reaches(browser, wanted, "the removal of a room")


def names_things(one, other, path):
    """Names are shown to all, as text; two browsers that name at once lose nothing. A name that can't be written to the
    file at a path is told as such."""
    for what, name in NAMES.items():
        kind, number = what.split()
        one.run(f"rename('{kind}', {number}, {json.dumps(name)}), true")
        other.wait(f"names[{json.dumps(what)}] === {json.dumps(name)}")
    check(
        other.run("document.title") != "no" and other.run("document.querySelector('#board script')") is None,
        "a name is run as a script",
    )
    check(
        "بوب 🎤" in other.run("document.querySelector('[data-key=\"open 11\"]').textContent"),
        "a member's name isn't shown",
    )
    check(
        other.run("document.documentElement.scrollWidth <= innerWidth"),
        "a name of 200 characters makes the page wider than the window",
    )
    for browser, number, name in (one, 101, "camera"), (other, 202, "microphone"):
        browser.run(f"rename('source', {number}, '{name}'), true")
    for browser in one, other:
        browser.wait(
            "names['source 101'] === 'camera' && names['source 202'] === 'microphone' && names['member 10'] === 'Alice'"
        )
    one.run("rename('source', 201, ''), rename('room', 1, 'Sales'), true")
    other.wait("!('source 201' in names) && names['room 1'] === 'Sales'")
    check("Sales" in other.run("document.querySelector('#room-1').textContent"), "a room's name isn't shown")
    check(other.run("sourceName(names, desk, 201)") == "Alice", "a source without a name hasn't its member's")
    away = path.parent.with_name("out")
    path.parent.rename(away)
    one.run("rename('room', 2, 'Lobby'), true")
    one.wait("document.getElementById('notice').textContent.includes(\"the file of names can't be written\")")
    away.rename(path.parent)
    check("room 2" not in json.loads(path.read_text()), "a name that wasn't kept is in the file")
    one.run("rename('room', 2, 'Lobby'), true")
    other.wait("names['room 2'] === 'Lobby'")


def is_for_everyone(browser):
    """No rule of the list finds a fault in the page, light or dark, wide or narrow, and what Tab reaches is marked."""
    browser.run("if (opened !== 11) acts.open(11); picked.add(11); render(); true")
    browser.run("acts.walk(past.done[0].number), true")
    rules = RULES.read_text()
    for width, dark in (1280, False), (1280, True), (400, False), (400, True):
        browser.shows(width, 900, dark)
        browser.draws(width)
        faults = browser.run(rules)
        check(not faults, f"at {width} pixels, dark: {dark}, the page has these faults: {faults}")
    browser.shows(1280, 900)
    for _ in range(12):
        browser.press("Tab", 9)
        outline = browser.run("getComputedStyle(document.activeElement).outlineStyle")
        check(outline != "none", f"what Tab reaches isn't marked: {browser.run('document.activeElement.outerHTML')}")
    browser.run("acts.clear(), document.activeElement.blur(), true")


def costs(browser, ask, ssrc):
    """What a change costs the tab, in milliseconds of processor time: the median of some mutes and unmutes by another
    operator."""
    times = []
    for at in range(10):
        browser.run("closeStream(), clearTimeout(timer), asking = true, true")
        said = ask(f"{'un' * (at % 2)}mute {ssrc}")
        check(said.startswith("ok "), f"another operator's change is told {said}")
        browser.run(
            "window.got = fetch('/desk.txt', { cache: 'no-store' }).then((reply) => reply.text())"
            ".then((text) => { window.got = text; return true; })"
        )
        begun = browser.used()
        browser.run("take(got).then(() => document.body.offsetHeight)")
        times.append(browser.used() - begun)
    browser.run("asking = false, openStream(), show(), true")
    return statistics.median(times[2:])


def opens(browser, port):
    browser.open(f"http://127.0.0.1:{port}/")
    browser.wait("typeof desk !== 'undefined' && desk !== null && document.title.startsWith('Desk, version')", 60)


def stays_small(browser, desks):
    """A room of 64 fits two screens, and a change of 64 rooms of 16 costs little more than one of a room of two.
    `desks` has for each of the three a port, another operator's call, and a source."""
    (two, ask_two, in_two), (room, _, _), (many, ask_many, in_many) = desks
    opens(browser, room)
    browser.run("acts.close(), true")
    height = browser.run("document.getElementById('rooms').getBoundingClientRect().bottom + scrollY")
    check(
        browser.run("document.querySelectorAll('#board .member').length") == 64, "a room of 64 doesn't show 64 members"
    )
    check(height <= TWO_SCREENS, f"a room of 64 is {height} pixels high")
    opens(browser, two)
    least = costs(browser, ask_two, in_two)
    opens(browser, many)
    folded = costs(browser, ask_many, in_many)
    browser.run("document.getElementById('fold').click(), true")
    browser.wait("document.querySelectorAll('#board .member').length === 1024")
    unfolded = costs(browser, ask_many, in_many)
    browser.run("document.getElementById('search').value = '64015', render(), true")
    browser.wait("document.querySelectorAll('#board .member').length === 1")
    browser.run("document.getElementById('search').value = '', render(), true")
    print(
        f"a room of 64 is {height:.0f} pixels high; a change costs {least:.1f} ms with a room of two, {folded:.1f} ms "
        f"with 64 rooms of 16, {unfolded:.1f} ms unfolded"
    )
    check(
        max(folded, unfolded) <= MOST_TIMES * least,
        f"a change of 64 rooms of 16 costs over {MOST_TIMES} times one of a room of two",
    )


def handle(one, other, ask):
    """Goes through all of this with a desk of two members, as a session leaves it."""
    slides(one, other)
    keeps_what_is_typed(one, ask)
    presses_keys(one)
    acts_on_many(one)
    asks_before(one, ask)
    is_for_everyone(one)
