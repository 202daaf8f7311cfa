"""What lasts at the page: a desk that is saved and restored, and a bridge that is gone or comes back with another
desk."""

import pathlib
import time

from checks.driving import MEANT, settles
from operators.shared import fail


def check(holds, text):
    if not holds:
        fail(text)


def without_numbers(rows):
    """Rows without the places of members and the FIRST_SEQ of streams, which a restored desk has of its own."""
    words = [row.split(" ") for row in rows]
    return [one[:1] + one[2:-2] + one[-1:] if one[0] == "member" else one[:-2] + one[-1:] if one[0] == "slot" else one
            for one in words]  # fmt: skip


def downloaded(browser, folder):
    """The text of the desk that the page saves."""
    folder = pathlib.Path(folder) / f"saved{time.monotonic_ns()}"
    folder.mkdir()
    browser.ask("Browser.setDownloadBehavior", behavior="allow", downloadPath=str(folder))
    browser.click('[data-act="save"]')
    path = folder / "desk.txt"
    for _ in range(100):
        if path.exists() and path.read_text().endswith("commands\n"):
            return path
        time.sleep(0.1)
    return fail("the page saves no desk")


def gives(browser, path):
    """Picks a file to restore."""
    node = browser.ask("Runtime.evaluate", expression="document.getElementById('file')")["result"]["objectId"]
    browser.ask("DOM.setFileInputFiles", files=[str(path)], objectId=node)


def is_as_shown(browser, shown, what):
    """The page has the rows of the bridge's `show`."""
    rows, wanted = browser.run("desk.rows"), shown()[:-1]
    check(rows == wanted, f"the page has {rows} of {what}, the bridge {wanted}")


def is_told(browser, text):
    browser.wait(f"document.getElementById('notice').textContent.includes({text!r})")


def keeps_the_desk(browser, folder, ask, shown, told):
    """A saved desk is restored once the desk is empty, each group as one change, and nothing of it stays where one is
    refused."""
    before = browser.run("desk.rows")
    path = downloaded(browser, folder)
    gives(browser, path)
    is_told(browser, "the desk has rooms")
    version = browser.run("desk.version")
    rooms = [row.split()[1] for row in before if row.startswith("room ")]
    ask("group " + " / ".join(f"remove-room {room}" for room in rooms))
    settles(browser, version + 1)
    time.sleep(MEANT)
    for text in "group add-room 1\n", path.read_text().replace("group", "grouped", 1), "":
        bad = path.with_name("bad.txt")
        bad.write_text(text)
        gives(browser, bad)
        is_told(browser, "that is no saved desk")
        browser.run("notice(''), true")
    bad.write_text("group add-room 1\ngroup add-room 2 / add-room 2\n# end: 2 groups of 3 commands\n")
    gives(browser, bad)
    is_told(browser, "Nothing stays")
    settles(browser, version + 3)
    is_as_shown(browser, shown, "a desk of which a group is refused")
    gives(browser, path)
    is_told(browser, "groups were accepted")
    groups = sum(line.startswith("group ") for line in path.read_text().splitlines())
    settles(browser, version + 3 + groups)
    is_as_shown(browser, shown, "a restored desk")
    rows = browser.run("desk.rows")
    check(without_numbers(rows) == without_numbers(before), f"the restored desk is {rows}, not {before}")
    check(rows != before, "a restored stream begins at the number that it had")
    check(len(told(groups)) == groups + 1, "a restored group isn't one change")


def shows_stale(browser, go, come):
    """Once the bridge is gone, the desk is shown as stale. All of it can be read, and what is pressed is refused in
    words. `go` and `come` take the bridge away and back."""
    before = browser.run("desk.version")
    browser.run("document.querySelector('[data-key=\"open 10\"]').focus(), true")
    go()
    browser.wait("document.body.classList.contains('gone')", 30)
    told = browser.run("document.getElementById('status').textContent")
    is_known = told.startswith(("Bridge gone since", "No news since"))
    check(is_known, f"once the bridge is gone the page says {told}")
    check(browser.run("document.activeElement.dataset.key") == "open 10", "a bridge that goes takes the focus away")
    for key, modifiers in ("m", 0), ("z", 2):
        browser.run("closeNotice(), true")
        browser.press(key, ord(key.upper()), modifiers=modifiers)
        is_told(browser, "not sent. ")
        is_told(browser, "Nothing is sent until it is back.")
    browser.click('[data-key="open 10"]')
    check(browser.run("document.querySelector('#detail .address') !== null"), "a stale member can't be opened")
    check(browser.run("document.querySelectorAll('#calls li').length") > 0, "a stale page has no history")
    come()
    browser.wait("document.getElementById('status').textContent === 'Live'", 30)
    check(browser.run("desk.version") == before, "a press at a stale desk has changed it")
    browser.hovers(2, 2)


def finds_another(browser, other, shown, told):
    """A bridge that comes back with another desk is shown as it is now. `other` ends the bridge, and starts one with
    another desk and history."""
    other()
    lines = shown()
    settles(browser, int(lines[-1].split()[1]))
    browser.wait(f"desk.rows.length === {len(lines) - 1}")
    is_as_shown(browser, shown, "a bridge with another desk")
    last = told(1)[0].split(" ", 2)[2]
    browser.wait(f"buttons()[0] === {'Undo: ' + last!r}")
