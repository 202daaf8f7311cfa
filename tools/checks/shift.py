"""An operator's shift as one session, with a real pointer: of 1,022 members three are ill. The operator finds them,
mutes one of them, takes the mute back once two others have come, and says who did what."""

import time

from checks.counted import Counts
from checks.driving import is_told
from checks.staying import MEANT, begins, check, middle, pressed
from operators.shared import fail

ILL = [21004, 33007, 63015]
# Who comes meanwhile, each by one group of another operator or of a program.
COMERS = [
    ("Anna", "group add-member 90001 2 10.99.0.1:5000 pcmu 990001 0 0 / add-source 290001 90001 audio"),
    ("agent-gateway", "group add-member 90002 3 10.99.0.2:5000 pcmu 990002 0 0 / add-source 290002 90002 audio"),
]
ROWS = "[...document.querySelectorAll('#board .member')].map((row) => Number(row.dataset.member))"
BOTTOMS = "[...document.querySelectorAll('#board .member')].map((row) => row.getBoundingClientRect().bottom)"
HISTORY = "[...document.querySelectorAll('#calls li')].map((one) => one.textContent.replace(/[\\u2068\\u2069]/g, ''))"
# The longest time until the three stand in the window, in seconds.
FOUND = 5


def finds(browser):
    """The three stand in the window, and nobody else. How long that took from the moment the page was asked for."""
    begun = time.monotonic()
    browser.reload()
    stand = f"{ROWS}.join() === '{','.join(map(str, ILL))}' && Math.max(...{BOTTOMS}) < innerHeight"
    browser.wait(f"desk && {stand}", 60)
    return time.monotonic() - begun


def presses(browser, selector, version):
    """Goes to a control, means it, and presses it. Waits for the version that this makes."""
    browser.run(f"document.querySelector('{selector}').scrollIntoView({{ block: 'center' }}), true")
    x, y = middle(browser, selector)
    browser.hovers(x, y)
    time.sleep(MEANT)
    pressed(browser, x, y)
    browser.wait(f"past?.version === {version}")


def works_a_shift(browser):
    """Goes through all of it. Prints how long the operator looked for the three."""
    one = begins(browser, 64, 16)
    # A bridge has 1,024 members at most.
    said = one.ask("group remove-member 64014 / remove-member 64015")
    check(said.startswith("ok "), f"two members can't leave: {said}")
    one.counted = Counts(one, losing={233007: 0.1}, reports={921004: (0.1, 12, 60)}, silent={263015}).told
    browser.run("at('person').value = 'J\\u00f6rg', at('person').dispatchEvent(new Event('change')), true")
    took = finds(browser)
    mute = one.log.version + 1
    presses(browser, '[data-key="toggle 33007"]', mute)
    check("mute 233007" in one.shown(), f"a press on the row of 33007 sends {one.past()[-2]}")
    for name, line in COMERS:
        said = one.ask(line, name)
        if not said.startswith("ok "):
            fail(f"`{line}` is told {said}")
        browser.wait(f"past?.version === {one.log.version}")
    browser.click(f'[data-key="walk {mute}"]')
    presses(browser, f'[data-key="revert {mute}"]', mute + 3)
    rows = one.shown()
    check("mute 233007" not in rows, "a revert of the mute leaves it")
    members = {row.split(" ")[2] for row in rows if row.startswith("member ")}
    check({"90001", "90002"} <= members, "the revert of a mute takes out who came after it")
    # Nothing moves under the pointer.
    browser.hovers(2, 2)
    browser.wait(f"{HISTORY}[0].startsWith('reverted mute 233007')")
    told = browser.run(HISTORY)[:3]
    said = [("mute 233007", "J\u00f6rg"), ("add-member 90002", "agent-gateway"), ("add-member 90001", "Anna")]
    for line, (begins_by, name) in zip(told, said):
        check(begins_by in line and f" {name}, version " in line, f"of {name}'s call the history says `{line}`")
    is_told(browser, [("document.getElementById('undo').textContent.startsWith('Undo: the revert of mute')", True)])
    browser.run("localStorage.removeItem('person'), true")
    check(took <= FOUND, f"the three ill members stand there after {took:.1f} s")
    print(
        f"an operator finds three ill members of 1,022 in {took:.1f} s, mutes one, takes that back beside two who "
        "came, and says who did what"
    )
