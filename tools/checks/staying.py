"""The page's rules with a real pointer: nothing moves under it, a press is meant, sliders follow the desk, trouble
comes first, and a link that is late or gone is told. Each has a desk of its own."""

import json
import threading
import time

from checks import standin
from operators.shared import fail

MEANT = 0.4
# The rows by trouble keep their order for so long, in seconds.
SETTLED = 5


def check(holds, text):
    if not holds:
        fail(text)


def begins(browser, rooms, size, *planted):
    """A page over a desk of so many rooms and members, with the pointer outside the list, and bugs that are planted in
    it."""
    one = standin.Standin()
    one.planted = planted
    standin.fill(one, rooms, size)
    browser.open(f"http://127.0.0.1:{standin.serve(one).server_port}/")
    browser.wait("typeof desk !== 'undefined' && desk !== null && past !== null", 60)
    browser.shows(1280, 900)
    browser.hovers(2, 2)
    return one


def others(browser, one, line):
    """Another operator's call, once the page has it."""
    said = one.ask(line)
    check(said.startswith("ok "), f"another operator's `{line}` is answered {said}")
    browser.wait(f"desk.version === {one.log.version}")


def middle(browser, selector):
    x, y, width, height = browser.place(selector)
    return x + width / 2, y + height / 2


def found(browser, x, y):
    """The control at a point."""
    return browser.run(f"document.elementFromPoint({x}, {y})?.closest('button')?.dataset.key")


def told(browser, text):
    browser.wait(f"document.getElementById('notice').textContent.includes({json.dumps(text)})")


def pressed(browser, x, y):
    for kind in "mousePressed", "mouseReleased":
        browser.mouse(kind, x, y)


def stands(browser, x, y, key, what):
    check(found(browser, x, y) == key, f"{what} moves what is under the pointer: now {found(browser, x, y)}")


def keeps_places(browser):
    """While the pointer is in the list nothing moves there: neither by others' changes, nor by messages, ticks and
    names. What has left is struck, and what is held back is counted. It moves once the pointer has left."""
    one = begins(browser, 2, 12)
    x, y = middle(browser, '[data-key="toggle 1008"]')
    browser.hovers(x, y)
    still = lambda what: stands(browser, x, y, "toggle 1008", what)  # noqa: E731
    row = "document.querySelector('#board [data-member=\"1002\"]')"
    others(browser, one, "remove-member 1002")
    still("a removal")
    check(browser.run(f"{row}.matches('.left')"), "a removed member isn't struck")
    told_back = "document.getElementById('waiting').textContent"
    check(browser.run(told_back) == "1 change of place held back: show now", f"held back: {browser.run(told_back)}")
    others(browser, one, "add-member 1700 1 10.9.0.1:5000 pcmu 77001 0 0")
    others(browser, one, "move-member 1003 2")
    still("a new member and a move")
    check(browser.run(told_back).startswith("4 changes"), f"held back: {browser.run(told_back)}")
    for line in ["pin 1 301004", "take-floor 1", "give-floor 1 1005", "mute 201006", "add-room 9"]:
        others(browser, one, line)
        still(f"`{line}`")
    browser.run("document.querySelector('[data-select=\"1010\"]').click(), true")
    browser.wait("!document.getElementById('selected').hidden")
    still("a tick")
    time.sleep(MEANT)
    pressed(browser, x, y)
    browser.wait("desk.mutes.has(201008)")
    told(browser, "mute 201008: accepted")
    still("a press and its message")
    browser.run(f"rename('member', 1008, {json.dumps('Ines ' + 'Long ' * 30)}), true")
    browser.wait("names['member 1008'] !== undefined")
    still("a long name")
    browser.click('[data-key="toggle 1002"]')
    told(browser, "that has left")
    browser.hovers(2, 2)
    browser.wait(f"{row} === null && document.querySelector('#board [data-member=\"1700\"]') !== null")
    check(browser.run("document.getElementById('waiting').hidden"), "places that are shown are told as held back")
    place = "document.querySelector('#board [data-member=\"1003\"]').dataset.roomOf"
    check(browser.run(place) == "2", "a member that moved stays where it was")
    x, y = middle(browser, '[data-key="remove-room 1"]')
    browser.hovers(x, y)
    for line in ["unpin 1", "take-floor 1", "give-floor 1 1006", "mute 201007"]:
        others(browser, one, line)
        stands(browser, x, y, "remove-room 1", f"`{line}`")
    holds_details(browser, one)
    lets_touch_go(browser, one)


def holds_details(browser, one):
    """Beside the list the details keep their shape, and the history its order, while the pointer is there."""
    browser.hovers(2, 2)
    browser.run("acts.open(1008), true")
    x, y = middle(browser, '[data-line="remove-source 301008"]')
    browser.hovers(x, y)
    button = "document.elementFromPoint({}, {})?.closest('button')?.dataset.line".format(x, y)
    for line in ["add-source 100999 1008 audio", "mute 301008", "remove-source 201008", "set-gain 1008 201006 64"]:
        others(browser, one, line)
        check(browser.run(button) == "remove-source 301008", f"`{line}` moves a button of the details")
    row = "document.querySelector('[data-key=\"source row 201008\"]')"
    check(browser.run(f"{row}.matches('.left')"), "a source that has left isn't struck")
    browser.hovers(2, 2)
    browser.wait("document.querySelector('[data-key=\"source row 100999\"]') !== null")
    check(browser.run(f"{row} === null"), "a source that has left stays")
    browser.run("acts.close(), true")
    last = browser.run("past.done[past.done.length - 1].number")
    x, y = middle(browser, f'[data-key="walk {last}"]')
    browser.hovers(x, y)
    others(browser, one, "mute 201009")
    browser.wait("past.version === desk.version")
    stands(browser, x, y, f"walk {last}", "a call of the history")
    browser.hovers(2, 2)
    browser.wait(f"document.querySelector('#calls button').dataset.key !== 'walk {last}'")


def lets_touch_go(browser, one):
    """Places are held while a finger is down, and 600 ms longer."""
    x, y = middle(browser, '#board [data-member="1009"] .sends')
    browser.touch("touchStart", (x, y))
    others(browser, one, "remove-member 1004")
    row = "document.querySelector('#board [data-member=\"1004\"]')"
    check(browser.run(f"{row}?.matches('.left')"), "a touch doesn't hold places")
    browser.run("addEventListener('pointerup', () => { window.up = performance.now(); }, { once: true }), true")
    browser.run(f"window.went = 0; window.isGone1004 = () => {{ if (!went && !{row}) went = performance.now(); }}; "
                "new MutationObserver(isGone1004).observe(at('board'), { childList: true, subtree: true }); true")
    browser.touch("touchEnd")
    browser.wait("window.went > 0")
    waited = browser.run("window.went - window.up")
    check(waited >= 590, f"after a touch places are held for {waited} ms")


def pressed_at(browser, ask, line, press):
    """What the page says of a press right after it has drawn another operator's change."""
    browser.wait("!asking")
    threading.Timer(0.3, ask, [line]).start()
    return browser.run(f"""new Promise((done) => {{
      const version = desk.version;
      const look = () => {{
        if (desk.version === version) {{
          setTimeout(look);
          return;
        }}
        closeNotice();
        {press};
        done(at("notice").textContent);
      }};
      look();
    }})""")


def means_presses(browser):
    """A press isn't sent where another has changed its object, or places have moved, less than 300 ms ago. A pressed
    control is striped until its answer came, and takes no second press."""
    one = begins(browser, 2, 4)
    node = "document.querySelector('[data-key=\"toggle {}\"]')".format
    said = pressed_at(browser, one.ask, "mute 201001", f"{node(1001)}.click()")
    check("not sent" in said and "Another operator changed that just now" in said, f"at another's change: {said}")
    check(one.log.version == 2 and "201001" in one.history()[-2], f"such a press was sent: {one.history()}")
    said = pressed_at(browser, one.ask, "mute 201002", "at('undo').click()")
    check("not sent" in said and "Another operator changed" in said, f"an undo at another's change: {said}")
    by_pointer = "dispatchEvent(new MouseEvent('click', { bubbles: true, detail: 1 }))"
    said = pressed_at(browser, one.ask, "remove-member 1000", f"{node(1003)}.{by_pointer}")
    check("the list has just moved" in said, f"a press where rows have moved: {said}")
    pressed_at(browser, one.ask, "mute 302001", f"{node(1003)}.click()")
    browser.wait("desk.mutes.has(201003)")
    browser.click('[data-key="toggle 1003"]')
    browser.wait("!desk.mutes.has(201003)")
    time.sleep(MEANT)
    version = one.log.version
    pressed(browser, *middle(browser, '[data-key="toggle 1001"]'))
    browser.wait("!desk.mutes.has(201001)")
    check(one.log.version == version + 1, "a press that is meant isn't sent once")
    one.pause = 1.5
    x, y = middle(browser, '[data-key="toggle 1003"]')
    pressed(browser, x, y)
    striped = "document.querySelector('[data-key=\"toggle 1003\"]').ariaBusy === 'true'"
    check(browser.run(striped), "a pressed control isn't striped")
    pressed(browser, x, y)
    told(browser, "The press before has no answer yet.")
    told(browser, "sent, no answer yet.")
    one.pause = 0
    browser.wait("desk.mutes.has(201003)", 20)
    browser.wait(f"!({striped})")
    check(one.log.version == version + 2, "a second press was sent")
    one.token = "0" * 32
    time.sleep(MEANT)
    browser.click('[data-key="toggle 1003"]')
    told(browser, "started anew")
    check(one.log.version == version + 2, "a press with an old token was sent")
    browser.click('[data-key="toggle 1003"]')
    browser.wait("!desk.mutes.has(201003)")


def follows_by_sliders(browser):
    """A slider is the operator's while it is held, and follows the desk else, with the focus too. What another has
    changed meanwhile isn't overwritten."""
    one = begins(browser, 1, 4)
    others(browser, one, "set-gain 1003 201001 384")
    browser.run("acts.open(1003), true")
    selector = '[data-key="gain 1003 201001"]'
    browser.run(f"document.querySelector({json.dumps(selector)}).scrollIntoView({{ block: 'center' }}), true")
    gain, knob = "desk.gains.get('1003 201001')", f"Number(document.querySelector({json.dumps(selector)}).value)"
    x, y, width, height = browser.place(selector)
    y += height / 2
    browser.mouse("mousePressed", x + width * 0.4, y)
    browser.mouse("mouseMoved", x + width * 0.5, y)
    browser.mouse("mouseMoved", x + width * 0.6, y)
    others(browser, one, "set-gain 1003 201001 896")
    told(browser, "another operator set x3.50 while you held the slider.")
    check(browser.run(knob) == 896, f"the knob stands at {browser.run(knob)}")
    browser.mouse("mouseMoved", x + width * 0.7, y)
    browser.mouse("mouseReleased", x + width * 0.7, y)
    time.sleep(1)
    check(browser.run(f"[{gain}, {knob}]") == [896, 896], "what was held is sent over another's change")
    browser.run(f"document.querySelector({json.dumps(selector)}).focus(), true")
    others(browser, one, "set-gain 1003 201001 64")
    browser.wait(f"{knob} === 64")
    check(browser.run("document.activeElement.dataset.key") == "gain 1003 201001", "a slider loses the focus")
    browser.press("ArrowRight", 39)
    browser.wait(f"{gain} === 96")


def shows_trouble(browser):
    """A silent source is counted for the bridge and for its room, stands in its folded room, and brings its room up,
    but not under the pointer. The number is a filter, and a key goes to the next one."""
    one = begins(browser, 12, 4)
    sources = [(m["address"], s["ssrc"]) for s in one.log.desk.sources for m in one.log.desk.members
               if m["member"] == s["member"]]  # fmt: skip

    def counts(silent):
        rows = [{"address": address, "ssrc": ssrc, "packets": 9, "expected": 9, "lost": 0, "ago_ms": 5}
                for address, ssrc in sources if ssrc not in silent]  # fmt: skip
        one.counted = {"sources": rows, "strangers": []}

    number = "document.querySelector('[data-key=\"filter silent\"]').textContent"
    rooms = "[...document.querySelectorAll('#board .room')].map((room) => Number(room.dataset.room))"
    rows = "[...document.querySelectorAll('#board .member')].map((row) => Number(row.dataset.member))"
    counts([])
    browser.wait("stats !== null && stats.sources.size > 0")
    check(browser.run(f"[{number}, {rows}]") == ["0 silent", []], "a bridge without trouble shows some")
    time.sleep(SETTLED)
    counts([209002])
    browser.wait(f"{number} === '1 silent' && {rooms}[0] === 9", SETTLED + 10)
    check(browser.run(rows) == [9002], f"the rows in trouble are {browser.run(rows)}")
    head = browser.run("document.querySelector('[data-room=\"9\"] .count').textContent")
    check(head == "4 members, 1 silent", f"the head says {head}")
    x, y = middle(browser, '[data-key="fold 9"]')
    browser.hovers(x, y)
    counts([209002, 205001, 205003])
    browser.wait(f"{number} === '3 silent'", 10)
    time.sleep(SETTLED + 2.5)
    check(found(browser, x, y) == "fold 9", "trouble rises under the pointer")
    browser.hovers(2, 2)
    browser.wait(f"{rooms}[0] === 5", SETTLED + 10)
    browser.click('[data-key="filter silent"]')
    browser.wait(f"{rows}.length === 3 && {rooms}.length === 2")
    browser.run("document.activeElement.blur(), true")
    for member in 5001, 5003, 9002, 5001:
        browser.press("n", 78)
        check(browser.run("Number(document.activeElement.dataset.of)") == member, "n goes elsewhere")
    browser.click('[data-key="filter silent"]')
    browser.wait(f"{rooms}.length === 12")


def tells_its_link(browser):
    """A late link is told, and a press is sent; one that is gone is told, and a press is refused. The focus stays, and
    all can be read."""
    one = begins(browser, 2, 4)
    browser.run("document.querySelector('[data-key=\"open 1001\"]').focus(), true")
    status = "document.getElementById('status').textContent"
    one.pause = 60
    browser.wait(f"{status}.startsWith('Late: last news ')", 20)
    check(not browser.run("document.body.classList.contains('gone')"), "a late page is shown as gone")
    browser.press("m", 77)
    told(browser, "sent, no answer yet.")
    browser.wait(f"{status}.startsWith('No news since ') && document.body.classList.contains('gone')", 20)
    told(browser, "It may have been done")
    browser.press("m", 77)
    told(browser, "Nothing is sent until it is back.")
    check(browser.run("document.activeElement.dataset.key") == "open 1001", "the focus has gone")
    browser.press("Enter", 13)
    browser.wait("document.querySelector('#detail .address') !== null")
    one.pause = 0
    browser.wait(f"{status} === 'Live'", 30)
    browser.run("acts.close(), true")
    keeps_focus(browser, one)


def keeps_focus(browser, one):
    """Where the row that has the focus goes, the focus goes to the next one."""
    for key in "open 1002", "toggle 1003":
        browser.run(f"document.querySelector('[data-key=\"{key}\"]').focus(), true")
        others(browser, one, f"remove-member {key[-4:]}")
        browser.wait(f"document.querySelector('[data-key=\"{key}\"]') === null")
        focus = browser.run("document.activeElement.dataset.key")
        wanted = {"open 1002": "open 1003", "toggle 1003": "open 2000"}[key]
        check(focus == wanted, f"where the row of `{key}` goes the focus is at {focus}")


def stays(browser):
    for case in keeps_places, means_presses, follows_by_sliders, shows_trouble, tells_its_link:
        case(browser)
    print("nothing moves under the pointer, presses are meant, sliders follow, trouble rises, a late link is told")
