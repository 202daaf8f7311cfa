"""What the page shows of a call itself: who speaks, figures, and trouble, in places that stay, at each size of window.
Bugs are planted in the page, each of which has to be noticed."""

import json
import pathlib
import time

from checks.counted import Counts
from checks.staying import begins, check, middle, others, stands
from operators.shared import fail

LAYOUT = pathlib.Path(__file__).parent / "check/page_layout.js"
# So many seconds lie between two counts of few sources.
COUNTED = 1
# The sizes that the page is looked at in: the window's width and height, and whether it is dark. The last one is a
# window of 1400 by 900 at 200 percent.
SIZES = [(1400, 900, False), (900, 900, False), (390, 844, False), (390, 844, True), (700, 450, True)]
# Rules of style, each of which the layout's judge has to notice at some size.
BAD_LAYOUTS = [
    (1400, "main", ".member { grid-template-columns: 14px 24px 1fr 4rem repeat(6, 1rem) 4rem !important }"),
    (1400, "#rooms", ".member > .sees { margin-left: -3rem !important }"),
    (1400, "#detail", "#detail .told { width: 1ch; white-space: normal !important; overflow-wrap: anywhere }"),
    (1400, "#rooms", "#columns { height: 100vh !important }"),
    (390, "#rooms", "#board { grid-template-columns: 500px !important }"),
    (390, "header", "#sum { width: 12rem }"),
]
NUMBER = "document.querySelector('[data-key=\"filter {}\"]').textContent"
ROOMS = "[...document.querySelectorAll('#board .room')].map((room) => Number(room.dataset.room))"
ROWS = "[...document.querySelectorAll('#board .member')].map((row) => Number(row.dataset.member))"


# Bugs of the page: rows whose figures stay, and members who are never in trouble.
STILL = "rows.js", "export function drawFigures() {", "export function drawFigures() { return;"
WELL = "rules.js", "export function troubleOf(desk, stats, member) {", "export function troubleOf() { return '';"


def counts(browser, rooms, size, *planted, **given):
    """A page over a desk whose members send, once it knows two counts."""
    one = begins(browser, rooms, size, *planted)
    it = Counts(one, **given)
    one.counted = it.told
    browser.wait("stats !== null && stats.span !== null", 30)
    return one, it


def row_of(browser, member):
    """What a row says: its state, its level's step and words, whether it is shown as speaking, and its four figures."""
    return browser.run(f"""(() => {{
      const row = document.querySelector('#board [data-member="{member}"]'), find = (one) => row.querySelector(one);
      const level = find(".level");
      return [find(".state").textContent, level.dataset.step ?? null, level.getAttribute("aria-valuetext"),
        row.matches(".speaks"), ["in", "jitter", "out", "trip"].map((one) => find(`.figure.${{one}}`).textContent)];
    }})()""")


def says(browser, member, *wanted, seconds=15):
    """Ends where a row says none of these after some seconds."""
    end = time.monotonic() + seconds
    while row_of(browser, member) not in wanted:
        if time.monotonic() > end:
            fail(f"the row of {member} says {row_of(browser, member)}, not {wanted}")
        time.sleep(0.1)


def shows_who_speaks(browser):
    """A row shows how loud a member is, and that it speaks, also while it is muted. Nothing moves by it. Who speaks is
    a filter and an order."""
    _, it = counts(browser, 2, 6, STILL)
    it.levels = {202001: -30, 202004: -50}
    browser.wait(f"{NUMBER.format('speaking')} === '1 speaking'", 20)
    check(row_of(browser, 2001)[1] != "6", "the row is judged by something else than its figures")
    one, it = counts(browser, 2, 6)
    figures = ["0", "9", "0", "31"]
    says(browser, 2001, ["", "0", "−75 dBov", False, figures])
    x, y = middle(browser, '[data-key="toggle 2003"]')
    browser.hovers(x, y)
    it.levels = {202001: -30, 202004: -50}
    says(browser, 2001, ["●", "6", "speaks, −30 dBov", True, figures])
    says(browser, 2004, ["", "2", "−50 dBov", False, ["0", "9", "0", "34"]])
    stands(browser, x, y, "toggle 2003", "who speaks")
    check(browser.run(NUMBER.format("speaking")) == "1 speaking", "who speaks isn't counted")
    check(browser.run("at('span').textContent") == f"last {COUNTED} s", "the page doesn't say of when a level is")
    others(browser, one, "mute 202001")
    says(browser, 2001, ["⊘", "6", "speaks while muted, −30 dBov", True, figures])
    stands(browser, x, y, "toggle 2003", "a mute of one who speaks")
    browser.hovers(2, 2)
    browser.run("at('sort').value = 'speaking', at('sort').dispatchEvent(new Event('change')), true")
    check(browser.run(f"[{ROOMS}, {ROWS}[0]]") == [[2, 1], 2001], "who speaks doesn't come first in that order")
    browser.click('[data-key="filter speaking"]')
    check(browser.run(ROWS) == [2001], f"those who speak are {browser.run(ROWS)}")
    it.levels = {}
    browser.wait(f"{NUMBER.format('speaking')} === '0 speaking' && {ROWS}.length === 0", 20)


def shows_figures(browser):
    """A row has the worst of its losses, its jitter and its round trip, and a dash for what nobody knows. The details
    say more."""
    one = begins(browser, 1, 4)
    unknown = ["–", "–", "–", "–"]
    says(browser, 1001, ["", None, "level not known", False, unknown])
    it = Counts(one, losing={301001: 0.1}, reports={901002: (0.3, 12, 400), 501002: (0.01, 4, 20)}, silent={201003})
    one.counted = it.told
    says(browser, 1000, ["", "0", "−75 dBov", False, ["0", "9", "0", "30"]])
    # One packet more or less is missing, by when the page asks.
    says(browser, 1001, *(["⚠", "0", "−75 dBov", False, [lost, "9", "0", "31"]] for lost in ("9.9", "10.0", "10.1")))
    says(browser, 1002, ["⚠", "0", "−75 dBov", False, ["0", "9", "29.7", "400"]])
    says(browser, 1003, ["✖", None, "level not known", False, ["0", "9", "0", "33"]])
    browser.run("acts.open(1002), true")
    browser.wait("document.querySelector('#detail .told')?.textContent === "
                 "'losing over 2 percent of what it is sent'")  # fmt: skip
    said = browser.run("[...document.querySelectorAll('#detail .figures dd')].map((node) => node.textContent)")
    check(said == ["−75 dBov", "0 %", "9 ms", "29.7 %", "400 ms"], f"the details say {said}")
    plots = "[...document.querySelectorAll('#detail .figures .plot path')].map((node) => node.getAttribute('d'))"
    browser.wait(f"{plots}.length === 5 && {plots}.every((path) => path.includes('L'))")
    tops = browser.run(f"{plots}.map((path) => path.split('L').at(-1).split(' ')[1])")
    check(tops == ["20.0", "20.0", "17.0", "0.0", "0.0"], f"the plots end at the heights {tops}")
    mixed = browser.run("document.querySelector('#detail > .counted').textContent")
    check(mixed == "its mix: 29.7 percent lost, jitter 12 ms, round trip 400 ms", f"of the mix the details say {mixed}")
    browser.run("acts.close(), true")
    browser.wait(f"{NUMBER.format('losing')} === '2 losing' && {NUMBER.format('silent')} === '1 silent'")
    one.counted = None
    says(browser, 1002, ["", None, "level not known", False, unknown])


def finds_the_ill(browser):
    """Of 1,024 members in folded rooms the three that are ill stand in the first window, and each number shows its own.
    How long that took, from the moment at which the page was asked for."""
    given = {"losing": {233007: 0.1}, "reports": {921004: (0.1, 12, 60)}, "silent": {263015}}
    ill = [21004, 33007, 63015]
    bottoms = "[...document.querySelectorAll('#board .member')].map((row) => row.getBoundingClientRect().bottom)"
    stand = f"{ROWS}.join() === '{ill[0]},{ill[1]},{ill[2]}' && Math.max(...{bottoms}) < innerHeight"
    counts(browser, 64, 16, WELL, **given)
    browser.wait(f"{NUMBER.format('silent')} === '1 silent'", 20)
    browser.run("render(null, true, true), true")
    check(not browser.run(stand), "who stands there isn't who is in trouble")
    one = begins(browser, 64, 16)
    it = Counts(one, **given)
    one.counted = it.told
    begun = time.monotonic()
    browser.run("location.reload(), true")
    browser.wait(f"typeof desk !== 'undefined' && desk !== null && {stand}", 60)
    took = time.monotonic() - begun
    browser.run("render(null, true, true), true")
    for key, members in ("silent", ill[2:]), ("losing", ill[:2]), ("", None):
        browser.run(f"acts.filter('{key}'), true")
        rows = browser.run(ROWS)
        check(rows == (members or ill), f"the filter `{key}` shows {rows}")
    heads = browser.run("[...document.querySelectorAll('#board .count')].slice(0, 3).map((node) => node.textContent)")
    check(heads == ["16 members, 1 losing", "16 members, 1 losing", "16 members, 1 silent"], f"the heads say {heads}")
    return took


def judged(browser, within):
    return browser.run(f"{LAYOUT.read_text().strip()}({json.dumps(within)})")


def planted(browser, width, within, rule):
    """Whether the judge notices a rule of style that breaks the layout."""
    sheet = "document.styleSheets[0]"
    browser.run(f"{sheet}.insertRule({json.dumps(rule)}, {sheet}.cssRules.length), true")
    faults = judged(browser, within)
    browser.run(f"{sheet}.deleteRule({sheet}.cssRules.length - 1), true")
    check(faults, f"at {width} pixels the layout's judge doesn't notice `{rule}`")


def is_laid_out(browser):
    """At each size no control lies under another thing or is cut, nothing overlaps, and no text stands a letter a
    line."""
    one, it = counts(browser, 3, 6, losing={301001: 0.1}, reports={901002: (0.3, 12, 400)}, silent={201003})
    it.levels = {201004: -20, 202001: -30}
    for line in "mute 201005", "pin 2 302001", "give-floor 3 3004", "mute 203004", "set-gain 1002 201001 300":
        others(browser, one, line)
    browser.run(f"rename('member', 1001, {json.dumps('Ines ' + 'Long ' * 30)}), picked.add(1002), true")
    browser.wait("names['member 1001'] !== undefined")
    for width, height, dark in SIZES:
        browser.shows(width, height, dark)
        browser.draws(width)
        for opened, within in ("null", "header,#bar,#columns,#board,footer"), ("1002", "#detail"):
            browser.run(f"opened = {opened}, render(null, true, true), true")
            faults = judged(browser, within)
            check(not faults, f"at {width} by {height} the page has these faults: {faults}")
        for at, part, rule in BAD_LAYOUTS:
            if at == width and not dark:
                browser.run(f"opened = {'1002' if part == '#detail' else 'null'}, render(null, true, true), true")
                planted(browser, width, part, rule)
    browser.run("picked.clear(), acts.close(), true")
    browser.shows(1280, 900)


def watches(browser):
    shows_who_speaks(browser)
    shows_figures(browser)
    took = finds_the_ill(browser)
    is_laid_out(browser)
    print(f"who speaks, figures and layout have no fault; three ill members of 1,024 stand there after {took:.1f} s")
