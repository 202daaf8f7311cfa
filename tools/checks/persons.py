"""Several persons and a program at one desk: the history says who did what and when, others' changes are told, Undo
leaves what a program did, and another person's change is taken back only after a question."""

import json

from checks import standin
from checks.driving import agrees, is_told
from checks.staying import check

PROGRAM = "agent-gateway"
OPEN = "document.getElementById('ask').open"


def opens(browser, one, name):
    """The page in a browser of somebody with this name, over a desk."""
    browser.open(f"http://127.0.0.1:{standin.serve(one).server_port}/")
    browser.wait("typeof desk !== 'undefined' && desk !== null && past !== null", 60)
    browser.shows(1280, 900)
    script = f"at('person').value = {json.dumps(name)}; at('person').dispatchEvent(new Event('change')); me"
    return browser.run(script)


def sent(browser, one, line):
    """A line that a browser sends is accepted."""
    before = one.log.version
    browser.run(f"call({json.dumps(line)}), true")
    browser.wait(f"past?.version === {before + 1}")


def others(browser, one, line, name):
    """Another one's call, once the page has it."""
    check(one.ask(line, name).startswith("ok "), f"`{line}` is refused")
    browser.wait(f"past?.version === {one.log.version}")


def newest(browser):
    """The newest call of the history, as it stands there."""
    return browser.run("document.querySelector('#calls li').textContent.replace(/[\\u2068\\u2069]/g, '')")


def names_persons(one, two, desk):
    """Each call stands in the history with its moment and its person, and others are told."""
    words = opens(one, desk, " J\u00f6rg B. "), opens(two, desk, "anna")
    check(words == ("J%C3%B6rg%20B.", "anna"), f"the names are sent as {words}")
    sent(one, desk, "mute 201001")
    check(desk.past()[-2].split(" ")[4:] == [words[0], "mute", "201001"], f"the log says {desk.past()[-2]}")
    two.wait("document.getElementById('news').textContent.endsWith(' \\u2068J\u00f6rg B.\\u2069: mute 201001')")
    two.wait("past?.version === 2")
    for browser in one, two:
        told, moment = newest(browser), browser.run("timeOf(calls.get(2).moment, Date.now())")
        check(told == f"mute 201001{moment} J\u00f6rg B., version 2", f"the history says {told}")
    check(one.run("document.getElementById('news').textContent") == "", "a page is told its own call")
    one.reload()
    one.wait("past !== null", 60)
    check(one.run("me") == words[0], "a browser forgets who is at it")


def asks_first(one, two, desk):
    """An own change is taken back at once, and another one's after a question, which a newer change closes."""
    two.run("new Promise((done) => setTimeout(done, 400))")
    two.run("document.getElementById('undo').click(), true")
    two.wait(OPEN)
    said = two.run("document.getElementById('ask').textContent.replace(/[\\u2068\\u2069]/g, '')")
    check("Undo what J\u00f6rg B. did?" in said and "J\u00f6rg B.: mute 201001." in said, f"the question is {said}")
    others(two, desk, "mute 201002", "bob")
    two.wait(f"!{OPEN}")
    is_told(two, [("document.getElementById('notice').textContent.startsWith('Not done: another change')", True)])
    check(desk.log.version == 3, "a question that was closed has taken something back")
    two.wait("!asking")
    two.run("new Promise((done) => setTimeout(done, 400))")
    two.run("document.getElementById('undo').click(), true")
    agrees(two)
    two.wait("past?.version === 4")
    one.wait("past?.version === 4")
    one.run("new Promise((done) => setTimeout(done, 400))")
    one.run("document.getElementById('undo').click(), true")
    one.wait("past?.version === 5")
    check(not one.run(OPEN) and desk.past()[-2].endswith(" undo 4"), f"an own undo is {desk.past()[-2]}")


def steps_over(one, two, desk):
    """Undo and Redo leave what a program did behind a person's call."""
    sent(one, desk, "mute 201001")
    others(one, desk, "group mute 201003 / mute 202003", PROGRAM)
    looks = [("buttons()", ["Undo: mute 201001", "Redo"]),
             ("document.getElementById('undo').title", "Undo: mute 201001 (revert 6, later calls stay)")]  # fmt: skip
    one.run("window.buttons = () => ['undo', 'redo'].map((id) => document.getElementById(id).textContent), true")
    is_told(one, looks)
    one.run("new Promise((done) => setTimeout(done, 400))")
    for button, line, wanted in [
        ("undo", "revert 6", ["Undo", "Redo: mute 201001"]), ("redo", "revert 8", ["Undo: mute 201001", "Redo"]),
    ]:  # fmt: skip
        version = desk.log.version + 1
        one.run(f"document.getElementById('{button}').click(), true")
        one.wait(f"past?.version === {version}")
        is_told(one, [("buttons()", wanted)])
        check(desk.past()[-2].endswith(f" {line}"), f"{button} sends {desk.past()[-2]}")
    rows = [row for row in desk.shown() if row.startswith("mute ")]
    check(rows == ["mute 201001", "mute 201003", "mute 202003"], f"after Undo and Redo there are {rows}")


def tells_persons(one, two):
    """Goes through all of it, with two browsers at one desk."""
    desk = standin.Standin()
    standin.fill(desk, 2, 4)
    names_persons(one, two, desk)
    asks_first(one, two, desk)
    steps_over(one, two, desk)
    for browser in one, two:
        browser.run("localStorage.removeItem('person'), true")
    print("the page says who did what, asks before another's change is taken back, and leaves what programs did")
