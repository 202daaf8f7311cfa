"""A call behind another person's call of the same row isn't sent, and a closed desk is told: over HTTP at the page's
program, and in two browsers at a plain desk."""

import contextlib
import json
import time

from checks import standin
from checks.following import Stream
from checks.persons import OPEN, opens, others, sent
from checks.staying import MEANT, check

# The program asks for the lease each second, and has this long to tell it.
TELLS = 3
CLOSED = "document.getElementById('closed')"


def stops_late_calls(page, bridge):
    """Such a call is answered 409 by the call that came first, and the bridge never gets it."""
    one, before = bridge.one, bridge.one.log.version
    check(one.ask("add-room 82", "bob") == f"ok {before + 1}", "another operator's room is refused")
    seen = {"Person": "ann", "Seen": str(before)}
    status, text = page.call("remove-room 82", **seen)
    words, _, call = text.partition("\n")
    check(status == 409 and words.startswith("Newer: "), f"a call behind another's is told {status} {text}")
    check(call.split(" ", 3)[3] == "1 bob add-room 82" and call.split(" ")[1] == str(before + 1), f"it is told {call}")
    with bridge.lock:
        check("remove-room 82" not in bridge.asked, "a call that is refused has gone to the bridge")
    for line, fields in [
        ("add-room 83", seen),
        ("remove-room 82", {"Person": "bob", "Seen": str(before)}),
        ("remove-room 83", {"Person": "ann", "Seen": str(before + 1)}),
    ]:
        told = page.call(line, **fields)
        check(told == (200, f"ok {one.log.version}"), f"`{line}` of {fields} is told {told}")
    for bad in "x", "-1", "1 2", str(2**64):
        status, text = page.call("add-room 82", Seen=bad)
        check(status == 400 and text.startswith("NoVersion: "), f"a version `{bad}` is told {status} {text}")


def judges_at_last(page, bridge):
    """The log is asked for right before such a call, and for no other call."""
    time.sleep(0.3)
    bridge.counted(0)
    check(page.call("add-room 85", Person="ann")[0] == 200, "a call without a version is refused")
    with bridge.lock:
        check("calls 512" not in bridge.asked, "a call without a version costs a question for the log")
        bridge.meanwhile["calls 512"] = "remove-room 85"
    status, text = page.call("remove-room 85", Person="ann", Seen=str(bridge.one.log.version))
    check(status == 409 and text.endswith(" 1 - remove-room 85"), f"a call that just came is told {status} {text}")


def tells_lease(page, bridge):
    """A stream says at its start whether the desk is closed, and tells each change once."""
    with contextlib.closing(Stream(page.port)) as one:
        one.head()
        check(one.next("lease")[0] == "open", "a desk without a lease is told as closed")
        for answer, wanted in [
            ("lease 0 agent-fleet", "closed agent-fleet"), ("lease 0 -", "closed -"), ("lease 1 ann", "open"),
            ("lease 0 ann", "closed ann"), ("fault 1 3 UnknownWord", "open"),
            ("lease 0 agent-fleet", "closed agent-fleet"),
        ]:  # fmt: skip
            bridge.lease = answer
            told, took = one.next("lease")
            check(told == wanted and took < TELLS, f"`{answer}` is told as {told} after {took:.1f} s")
        with contextlib.closing(Stream(page.port)) as two:
            two.head()
            check(two.next("lease")[0] == "closed agent-fleet", "a stream doesn't begin by a desk that is closed")
        asked = bridge.counted(4).get("lease", 0)
        check(2 <= asked <= 5, f"in 4 s the lease is asked for {asked} times")
        bridge.lease = "lease off"
        check(one.next("lease")[0] == "open", "a desk that is open again isn't told")


def judges_calls(page, bridge):
    stops_late_calls(page, bridge)
    judges_at_last(page, bridge)
    tells_lease(page, bridge)
    print("a call behind another person's call of its row isn't sent, and a stream tells whether the desk is closed")


def presses_late(browser, line, saw):
    """A line of somebody who saw an earlier desk, once the page has asked about it. What it asks."""
    time.sleep(MEANT)
    browser.run(f"call({json.dumps(line)}, undefined, null, {saw}), true")
    browser.wait(OPEN)
    return browser.run("document.getElementById('ask-text').textContent.replace(/[\\u2068\\u2069]/g, '')")


def answers(browser, button):
    browser.run(f"document.getElementById('{button}').click(), true")
    browser.wait(f"!({OPEN})")


def asks_whether(one, two, desk):
    """The page says what another person did to the row, and sends the line only where that is still wanted."""
    opens(one, desk, "J\u00f6rg"), opens(two, desk, "anna")
    sent(one, desk, "mute 201001")
    two.wait("past?.version === 2")
    text = presses_late(two, "unmute 201001", 1)
    is_asked = "J\u00f6rg: mute 201001." in text and text.endswith("Yours was not sent: unmute 201001.")
    check(is_asked, f"the question is {text}")
    answers(two, "ask-no")
    told = two.run("document.getElementById('notice').textContent")
    check("not sent." in told and desk.log.version == 2, f"a line that wasn't wanted any more is told {told}")
    presses_late(two, "unmute 201001", 1)
    answers(two, "ask-yes")
    two.wait("past?.version === 3")
    check(desk.past()[-2].endswith(" anna unmute 201001"), f"a line that was wanted is {desk.past()[-2]}")
    two.run("call('mute 201002', undefined, null, 1), true")
    two.wait("past?.version === 4")
    check(not two.run(OPEN), "a line about another row is asked about")
    others(two, desk, "mute 201003", "bob")
    time.sleep(MEANT)
    sent(two, desk, "unmute 201003")
    check(not two.run(OPEN), "a line about what the page shows is asked about")


def shows_closed(browser, desk):
    """A line at the top says that the desk is closed; calls are refused in words, and the rest goes on."""
    desk.closed = "agent-fleet"
    browser.wait(f"{CLOSED}.textContent.includes('may be on another bridge')")
    for width in 1280, 900, 390:
        browser.shows(width, 900)
        _, top, _, height = browser.place("#closed")
        _, next_top, _, _ = browser.place("header")
        is_whole = browser.run(f"{CLOSED}.scrollHeight <= {CLOSED}.clientHeight || {CLOSED}.title !== ''")
        check(top == 0 and height >= 24 and next_top >= height and is_whole, f"at {width} it has {top}, {height}")
    browser.shows(1280, 900)
    time.sleep(MEANT)
    browser.run("call('mute 201004'), true")
    browser.wait("document.getElementById('notice').textContent.includes('27')")
    check(desk.log.version == 6, "a closed desk takes a call")
    browser.reload()
    browser.wait(f"typeof desk !== 'undefined' && desk !== null && {CLOSED}.textContent !== ''", 60)
    desk.closed = None
    browser.wait(f"{CLOSED}.textContent === '' && {CLOSED}.clientHeight === 0")


def judges(one, two):
    """Two browsers at one desk: one row, two persons; and the desk is closed."""
    desk = standin.Standin()
    standin.fill(desk, 2, 4)
    asks_whether(one, two, desk)
    shows_closed(two, desk)
    for browser in one, two:
        browser.run("localStorage.removeItem('person'), true")
    print("the page asks before it goes over another person's change of a row, and says that a desk is closed")
