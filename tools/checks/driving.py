"""A session at the page, driven by two browsers: clicks, forms and a drag."""

import json
import re
import time

from checks.browser import Browser
from checks.firefox import Firefox
from operators.shared import fail

# What a user does, in the page's own words.
HELPERS = """
window.fill = (id, fields) => {
  const form = document.getElementById(id);
  for (const [name, value] of Object.entries(fields)) form.elements[name].value = value;
  form.requestSubmit();
};
window.press = (line) => {
  const button = document.querySelector(`[data-line="${CSS.escape(line)}"],[data-key="${CSS.escape(line)}"]`);
  if (!button) throw new Error(`no ${line}`);
  button.click();
};
window.opens = (member) => { if (opened !== member) acts.open(member); };
window.choose = (key, value) => {
  const select = document.querySelector(`select[data-key="${CSS.escape(key)}"]`);
  offer(select);
  select.value = value;
  select.dispatchEvent(new Event("change", { bubbles: true }));
};
window.dragged = (from, to) => {
  const data = new DataTransfer(), a = document.querySelector(from), b = document.querySelector(to);
  const fire = (node, type) =>
    node.dispatchEvent(new DragEvent(type, { bubbles: true, cancelable: true, dataTransfer: data }));
  fire(a, "dragstart"); fire(b, "dragover"); fire(b, "drop"); fire(a, "dragend");
};
window.version = () => (desk ? desk.version : -1);
window.buttons = () => ["undo", "redo"].map((id) => document.getElementById(id).textContent);
window.panel = (member) => {
  opened = member;
  renderDetail();
  const detail = document.getElementById("detail");
  const all = (selector, row) => [...detail.querySelectorAll(selector)].map(row);
  const source = (n) => n.closest(".row").querySelector("bdi").textContent;
  return [
    `${member} ${detail.querySelector(".address").textContent}`,
    ...all("[data-slot]", (n) => `slot ${n.dataset.slot} ${member}`),
    ...all('[data-key^="unsubscribe "]', (n) => `sub ${n.dataset.key.split(" ")[1]} ${source(n)}`),
    ...all("input[type=range]", (n) => `${n.dataset.key} ${n.value}`),
  ];
};
window.drawn = () => {
  const all = (selector, row, from = document) => [...from.querySelectorAll(`#board ${selector}`)].map(row);
  const was = opened;
  const of = (node, what) => node.closest(`[data-${what}]`).dataset[what];
  const is = (node, name) => (node.classList.contains(name) ? ` ${name}` : "");
  const head = (n) => [n.querySelector("h3"), n.querySelector(".rate")].map((one) => one?.textContent ?? "").join(" ");
  const members = (n) => [...n.querySelectorAll("[data-member]")].map((m) => m.dataset.member);
  const rooms = [...document.querySelectorAll("#board [data-room]")].map((n) => `${head(n).trim()}: ${members(n)}`);
  const source = (n) => `source ${n.dataset.source} ${of(n, "member")} ${n.textContent.split(" ")[0]}`;
  const isFloor = (at) => document.querySelectorAll("#board .member .tag")[at].textContent.startsWith("floor");
  const lines = [...rooms,
    ...all(".member .source", (n) => `${source(n)}${is(n, "muted")}`),
    ...all(".member .tag", (n) => `floor ${of(n, "room")} ${of(n, "member")}`).filter((row, at) => isFloor(at)),
    ...all('[data-key^="unpin "]', (n) => `pin ${of(n, "room")} ${n.previousElementSibling.textContent.split(" ")[0]}`),
    ...desk.members.flatMap(({ member }) => panel(member))].sort();
  opened = was;
  renderDetail();
  return lines;
};
true
"""

STEPS = [
    ("a room", 'fill("add-room", { room: "1" })'),
    ("another room", 'fill("add-room", { room: "2" })'),
    ("a member", 'fill("add-member", { member: "10", room: "1", address: "127.0.0.1:6000", ssrc: "9001" })'),
    ("another member", 'fill("add-member", { member: "11", room: "1", address: "127.0.0.1:6002", ssrc: "9002" })'),
    ("a video source", 'fill("add-source", { ssrc: "101", member: "10", kind: "video" })'),
    ("an audio source", 'fill("add-source", { ssrc: "201", member: "10", kind: "audio" })'),
    ("another audio source", 'fill("add-source", { ssrc: "202", member: "11", kind: "audio" })'),
    ("a slot", 'fill("add-slot", { ssrc: "501", member: "11", index: "0" })'),
    ("a subscription, by a choice", 'opens(11); choose("subscribe 501", "101")'),
    ("a mute", 'opens(10); press("mute 201")'),
    ("the floor", 'press("give-floor 1 10")'),
    ("a move, by a drag", """dragged('[data-member="11"]', '[data-room="2"]')"""),
    ("an undo", 'document.getElementById("undo").click()'),
    ("a second undo", 'document.getElementById("undo").click()'),
    ("a third undo", 'document.getElementById("undo").click()'),
    ("a redo", 'document.getElementById("redo").click()'),
]


# A press is sent so long after another's change of its object, in seconds, and not before.
MEANT = 0.4

# What a user does by keys: where Tab leads, and what is typed or pressed there.
KEYS = [
    ("a room", "#line", "add-room 3", "Enter"),
    ("an unmute", '[data-line="unmute 201"]', "", "Enter"),
    ("a move", 'select[data-key="move-member 10"]', "", "ArrowDown"),
    ("an undo", "#undo", "", "Enter"),
    ("a room of the form", '#add-room [name="room"]', "", "Enter"),
    ("a second undo", "#undo", "", "Enter"),
]
CODES = {"Enter": 13, "ArrowDown": 40}


def drawn_of(rows):
    """What the page draws of these rows of `show`: the overview, with each room's members by place, and the panel of
    each member."""
    words = [row.split() for row in rows]
    rooms = {one[2]: one[3] for one in words if one[0] == "member"}
    found = [
        f"{' '.join(one)}{' Hz' * (len(one) > 2)}: {','.join(m for m in rooms if rooms[m] == one[1])}"
        for one in words if one[0] == "room"
    ]
    found += [row + " muted" * (f"mute {one[1]}" in rows) for row, one in zip(rows, words) if one[0] == "source"]
    found += [f"{one[2]} in room {one[3]}, {one[4]} {one[5]}, mix {one[6]}" for one in words if one[0] == "member"]
    found += [f"slot {one[1]} {one[2]}" for one in words if one[0] == "slot"]
    found += [
        row
        for row, one in zip(rows, words) if one[0] in ("floor", "pin", "sub") or one[0] == "gain" and one[3] != "256"
    ]
    return sorted(found)


def settles(browser, version):
    """Waits until the page has the desk and the history of a version."""
    browser.wait(f"version() === {version} && past?.version === {version}")


def compare(browser, version, bridge, what):
    """The rows that the page has. Ends where these, or what it draws, are not what the bridge's `show` says."""
    rows, drawn = browser.run("[desk.rows, drawn()]")
    if [*rows, f"end {version}"] != bridge:
        fail(f"after {what} the page has {rows}, the bridge {bridge}")
    if drawn != drawn_of(rows):
        fail(f"after {what} the page draws {drawn}, not {drawn_of(rows)}")
    return rows


def by_keys(browser, shown):
    """Goes on with a session by keys alone. After each step the page shows what the bridge's `show` says."""
    version = browser.run("version()")
    browser.run("opens(10); true")
    for what, selector, text, key in KEYS:
        version += 1
        browser.tabs_to(selector)
        if text:
            browser.types(text)
        browser.press(key, CODES[key])
        settles(browser, version)
        compare(browser, version, shown(), f"{what} by keys")


def names_what_goes(browser, told, wanted=None):
    """Both buttons name what the bridge's history says, and these words where they are given."""
    lines = told(1)
    at = lines.index("undone") if "undone" in lines else len(lines) - 1
    calls = [part[-1].split(" ", 2)[2] if part else "" for part in (lines[:at], lines[at + 1 : -1])]
    said = [f"{word}: {call}" if call else word for word, call in zip(("Undo", "Redo"), calls)]
    words = browser.run("buttons()")
    if words != said or wanted and words != wanted:
        fail(f"the buttons say {words}, the bridge's history {said}, and wanted is {wanted}")


def agrees(browser):
    """Says yes where the page asks whether to take back what another operator did."""
    browser.wait("document.getElementById('ask').open")
    browser.click("#ask-yes")


def undoes_others(browser, shown, told, ask):
    """The buttons name another operator's changes, undos and redos, from each moment on."""
    version, before = browser.run("version()"), browser.run("buttons()")[0]
    changes = [("add-room 9", ["Undo: add-room 9 8000", "Redo"]), ("undo", [before, "Redo: add-room 9 8000"]),
               ("redo", ["Undo: add-room 9 8000", "Redo"])]  # fmt: skip
    for line, wanted in changes:
        words = f"{line} {version}" if line in ("undo", "redo") else line
        version += 1
        if ask(words) != f"ok {version}":
            fail(f"another operator's `{words}` is refused")
        settles(browser, version)
        names_what_goes(browser, told, wanted)
    time.sleep(MEANT)
    version += 1
    browser.run("document.getElementById('undo').click(); true")
    agrees(browser)
    settles(browser, version)
    names_what_goes(browser, told, [before, "Redo: add-room 9 8000"])
    compare(browser, version, shown(), "another operator's change")


def walks(browser, shown, told):
    """A click on a call of the history says which undos lead to the desk behind it. A button goes there, and back."""
    version = browser.run("version()")
    calls = browser.run("past.done.map((one) => one.number)")
    number, undos = calls[-4], 3
    browser.run(f"press('walk {number}'), true")
    is_told(browser, [
        (f"document.querySelector('[data-key=\"walk {number}\"]').closest('li').textContent.includes("
         f"'{undos} undos lead to the desk right behind it: {', '.join(map(str, calls[:-4:-1]))}.')", True),
        ("document.querySelectorAll('#calls .way').length", undos),
    ])  # fmt: skip
    browser.run(f"press('go {number}'), true")
    settles(browser, version + undos)
    names_what_goes(browser, told)
    is_told(browser, [("past.done[past.done.length - 1].number", number)])
    browser.run(f"press('walk {calls[-1]}'), press('go {calls[-1]}'), true")
    settles(browser, version + 2 * undos)
    names_what_goes(browser, told)
    is_told(browser, [("past.done.map((one) => one.number)", calls)])
    compare(browser, version + 2 * undos, shown(), "a walk in the history")
    browser.run(f"press('walk {calls[-1]}'), true")


# What another operator does before reverts, and what of it the last ones tie together.
REVERTED = [
    "add-room 8", "add-room 88", "add-member 80 8 10.8.0.80:5000 pcmu 9080 0 0", "add-source 280 80 audio", "mute 280",
    "move-member 80 88", "remove-room 8",
]  # fmt: skip


def reverts(browser, shown, told, ask):
    """A call that isn't the newest one is taken back alone, and so is that revert. What stands in the way is told, and
    a button leads to it. Undos go back past what reverts took back."""
    version, rows, last = browser.run("[version(), desk.rows, past.done[past.done.length - 1].number]")
    for line in REVERTED:
        version += 1
        if ask(line) != f"ok {version}":
            fail(f"another operator's `{line}` is refused")
    settles(browser, version)
    _, _, member, source, mute, move, _ = range(version + 1 - len(REVERTED), version + 1)
    operator = browser.run(f"past.done.find(({{ number }}) => number === {mute}).operator")
    presses_revert(browser, mute, f"Revert: mute 280, by operator {operator}")
    agrees(browser)
    turns(browser, version + 1, mute, "reverted mute 280", "Undo: the revert of mute 280")
    is_refused(browser, move, "it would also take member 80 out.", None)
    is_refused(browser, member, f"call {source}, add-source 280 80 audio by operator {operator}, needs it "
               "(no such member).", source)  # fmt: skip
    revert, version = version + 1, version + 2
    time.sleep(MEANT)
    browser.run("fill('add-room', { room: '9', rate: '8000' }), true")
    settles(browser, version)
    presses_revert(browser, revert, "Revert: the revert of mute 280, by page")
    turns(browser, version + 1, revert, "brought back mute 280", "Undo: the return of mute 280")
    is_refused(browser, source, f"call {mute}, mute 280 by operator {operator}, needs it (no such source).", mute)
    time.sleep(MEANT)
    browser.press("z", 90, modifiers=2)
    settles(browser, version + 2)
    is_told(browser, [("buttons()", ["Undo: add-room 9 8000", "Redo: the return of mute 280"])])
    compare(browser, version + 2, shown(), "the undo of a revert")
    undos = len(REVERTED) + 2
    browser.run(f"walked === {last} || press('walk {last}'), press('go {last}'), true")
    agrees(browser)
    settles(browser, version + 2 + undos)
    is_told(browser, [("desk.rows", rows), ("past.done[past.done.length - 1].number", last)])
    names_what_goes(browser, told)


def presses_revert(browser, number, words):
    """Clicks on a call of the history, and presses by a key what takes it back alone."""
    browser.run(f"walked === {number} || press('walk {number}'), true")
    button = f"document.querySelector('[data-key=\"revert {number}\"]')"
    is_told(browser, [(f"{button}.textContent.replace(/[\\u2068\\u2069]/g, '')", words)])
    browser.run(f"{button}.focus(), true")
    browser.press("Enter", 13)


def turns(browser, version, number, words, button):
    """A revert is accepted: the history leaves its call out, and says so."""
    settles(browser, version)
    is_told(browser, [
        ("document.querySelector('#calls li code').textContent", words),
        ("buttons()[0]", button),
        (f"document.querySelector('[data-key=\"walk {number}\"]')", None),
        (f"document.querySelector('[data-key=\"walk {version}\"]') !== null", True),
        ("document.activeElement.matches('#calls button')", True),
    ])  # fmt: skip


def is_refused(browser, number, why, at):
    """A revert is refused, and the call that stands in the way is shown where there is one."""
    version = browser.run("version()")
    presses_revert(browser, number, browser.run(
        f"`Revert: ${{saidOf({number})}}, by operator ${{past.done.find((one) => one.number === {number}).operator}}`"
    ))  # fmt: skip
    agrees(browser)
    browser.wait(f"document.getElementById('notice').textContent.endsWith({json.dumps(why)})")
    is_told(browser, [("version()", version), ("document.getElementById('show-call').hidden", at is None)])
    if at is not None:
        browser.click("#show-call")
        is_told(browser, [
            ("document.activeElement.dataset.key", f"walk {at}"),
            ("document.querySelector('#calls [aria-expanded=\"true\"]').dataset.key", f"walk {at}"),
        ])  # fmt: skip


def is_told(browser, looks):
    """Each of these scripts has the value beside it."""
    for script, wanted in looks:
        told = browser.run(script)
        if told != wanted:
            fail(f"{script} is {told}, not {wanted}")


def adds_music(browser, shown):
    """Adds a music room and a member there, whose codec the page chooses, and is refused a member with another
    codec."""
    version = browser.run("version()")
    before = browser.run("desk.rows")
    for script, row in [
        ('fill("add-room", { room: "3", rate: "44100" })', "room 3 44100"),
        ('fill("add-member", { member: "12", room: "3", address: "127.0.0.1:6004", ssrc: "9003" })', "member "),
    ]:
        version += 1
        browser.run(f"{script}; true")
        settles(browser, version)
        rows = compare(browser, version, shown(), f"`{script}`")
        if not any(one.startswith(row) for one in rows if one not in before):
            fail(f"after `{script}` the page shows {rows}")
    is_told(browser, [
        ("document.querySelector('[data-room=\"3\"] .head').textContent.includes('44100 Hz')", True),
        ("document.querySelector('[data-room=\"1\"] .head').textContent.includes('Hz')", False),
        ("panel(12)[0]", "12 in room 3, 127.0.0.1:6004 l16, mix 9003"),
        ("choices['move-member'].options(12).length", 0),
        ("opened = null, render(), true", True),
    ])  # fmt: skip
    browser.run(
        'fill("add-member", { member: "13", room: "3", address: "127.0.0.1:6006", codec: "pcmu", ssrc: "9004" }); true'
    )
    browser.wait("document.getElementById('notice').textContent.includes('the room has another rate')")
    if browser.run("version()") != version:
        fail("a refused member has changed the desk")


def undoes_music(browser, shown):
    """Undoes the member and the music room, which the redo button names then."""
    version = browser.run("version()")
    for _ in range(2):
        version += 1
        browser.run("document.getElementById('undo').click(); true")
        settles(browser, version)
    compare(browser, version, shown(), "the undo of a music room")
    is_told(browser, [("document.getElementById('redo').textContent", "Redo: add-room 3 44100")])


def opened(command, folder, address):
    browser = (Firefox if "firefox" in command else Browser)(command, folder)
    browser.shows(1280, 900)
    browser.open(address)
    browser.wait("typeof desk !== 'undefined' && desk !== null && past !== null", 30)
    browser.run(HELPERS)
    return browser


def drive(command, folder, address, shown, told, ask):
    """Goes through a session. `shown` tells what the bridge's `show` says, `told` what its `history N` says, and `ask`
    what it answers to another operator. How long each change took to the second browser."""
    one, two = opened(command, folder, address), opened(command, folder, address)
    times = []
    try:
        for browser in one, two:
            names_what_goes(browser, told)
        version = one.run("version()")
        for what, script in STEPS:
            version += 1
            one.run(f"{script}; true")
            one.wait(f"version() === {version}")
            begun = time.monotonic()
            two.wait(f"version() === {version}")
            times.append(time.monotonic() - begun)
            for browser in one, two:
                compare(browser, version, shown(), what)
                browser.wait(f"past?.version === {version}")
                names_what_goes(browser, told)
        look(one, version)
        adds_music(one, shown)
        look_at_sizes(one)
        undoes_music(one, shown)
        by_keys(one, shown)
        undoes_others(one, shown, told, ask)
        walks(one, shown, told)
        reverts(one, shown, told, ask)
    finally:
        one.close()
        two.close()
    return times


def look(browser, version):
    """What stands on the page at the end of the session, and a refusal in words."""
    is_told(browser, [
        ('document.getElementById("undo").textContent', "Undo: mute 201"),
        ('document.getElementById("redo").textContent', "Redo: give-floor 1 10"),
        ("document.querySelectorAll('#calls li').length", 12),
        ("document.querySelectorAll('.room').length", 2),
        ("document.querySelector('[data-room=\"1\"]').querySelectorAll('.member').length", 2),
        ("document.querySelector('[data-member=\"10\"] .muted').dataset.source", "201"),
        ("document.querySelectorAll('#calls li.undone').length", 2),
        ("document.querySelector('#detail [title=\"unmute 201\"]') !== null", True),
    ])  # fmt: skip
    browser.run(
        'document.getElementById("line").value = "subscribe 501 999"; '
        'document.getElementById("line-form").requestSubmit(); true'
    )
    browser.wait("document.getElementById('notice').textContent.includes('there is no such source')")
    if browser.run("version()") != version:
        fail("a refused line has changed the desk")


def look_at_sizes(browser):
    """The page, wide and narrow, light and dark: it fits the window, and its text stands out."""
    for width, dark in (1280, False), (1280, True), (400, False), (400, True):
        browser.shows(width, 900, dark)
        browser.draws(width)
        if browser.run("document.documentElement.scrollWidth > window.innerWidth"):
            fail(f"at {width} pixels the page is wider than the window")
        text, ground = (browser.run(f"getComputedStyle(document.body).{what}") for what in ("color", "backgroundColor"))
        if contrast(text, ground) < 7:
            fail(f"at {width} pixels, dark: {dark}, the text is {text} on {ground}")
    browser.shows(1280, 900)


def contrast(one, other):
    """The contrast of two colours (WCAG 2.1, 1.4.3), which the page's style sheet gives as rgb(R, G, B)."""

    def light(colour):
        parts = [int(part) / 255 for part in re.findall(r"[0-9]+", colour)[:3]]
        linear = [part / 12.92 if part <= 0.03928 else ((part + 0.055) / 1.055) ** 2.4 for part in parts]
        return 0.2126 * linear[0] + 0.7152 * linear[1] + 0.0722 * linear[2]

    low, high = sorted((light(one), light(other)))
    return (high + 0.05) / (low + 0.05)
