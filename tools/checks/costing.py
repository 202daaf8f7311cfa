"""What the page costs its tab at 64 rooms of 16, beside an empty page that writes a number as often in the same run."""

import statistics
import time

from checks import standin
from checks.counted import Counts
from operators.shared import fail

ROOMS, EACH = 64, 16
# How long what goes on is watched, in seconds, and how many changes are made.
WATCHED, CHANGES = 10, 12
SPEAKERS = 24
LIVE = "typeof desk !== 'undefined' && desk !== null && document.getElementById('status').textContent === 'Live'"
EMPTY = """<!doctype html><title>Empty</title><p id="number">0</p><script>
let count = 0; setInterval(() => { document.getElementById("number").textContent = String(count += 1); }, EVERY);
</script>"""
# The bounds of what is printed: the first draw and a change by the tab's processor time in milliseconds, and the shares
# of a processor in percent. On a busy machine all shares are larger: then it is so many times that of the empty page.
MOST = {"first draw": 1000, "change": 50, "idle": 1, "speaking": 3}
TIMES = 4


def check(holds, text):
    if not holds:
        fail(text)


def is_within(what, got, beside=0):
    """Ends where a figure is over its bound. `beside` is the share of the empty page."""
    most = max(MOST[what], TIMES * beside)
    check(got <= most, f"the page's figure for `{what}` is {got:.2f}, and the most is {most:.2f}")


def share(browser, one=None):
    """The share of a processor that the tab takes, in percent, and the octets a second that it is sent."""
    octets, before, begun = one.octets if one else 0, browser.used(), time.monotonic()
    time.sleep(WATCHED)
    took = time.monotonic() - begun
    return (browser.used() - before) / took / 10, (one.octets - octets) / took if one else 0


def empty(browser, every):
    """The share of an empty page that writes a number so often, in milliseconds."""
    browser.open("about:blank")
    browser.wait("document.readyState === 'complete'")
    browser.run(f"document.open(), document.write({EMPTY.replace('EVERY', str(every))!r}), document.close(), true")
    time.sleep(1)
    return share(browser)[0]


def empty_costs(browser):
    """What an empty page costs its tab in milliseconds of its processor time: its first draw, and a number that it
    writes, each looked at as those of the page are."""
    browser.open("about:blank")
    browser.wait("document.readyState === 'complete'")
    before = browser.used()
    # It is written there: another address may be another process, which begins at 0.
    page = "<!doctype html><title>Empty</title><p id=number>0</p>"
    browser.run(f"document.open(), document.write({page!r}), document.close(), true")
    browser.wait("document.title === 'Empty' && document.readyState === 'complete'", 60)
    drawn, times = browser.used() - before, []
    for at in range(CHANGES):
        before = browser.used()
        browser.run(f"document.getElementById('number').textContent = '{at + 1}', true")
        browser.wait(f"document.getElementById('number').textContent === '{at + 1}'")
        browser.run("new Promise((done) => requestAnimationFrame(() => setTimeout(done)))")
        times.append(browser.used() - before)
    return drawn, statistics.median(times[2:])


def first_draw(browser, port):
    """How long the first draw took by the clock and by the tab's processor time, in milliseconds."""
    browser.open("about:blank")
    browser.wait("document.readyState === 'complete'")
    before = browser.used()
    browser.open(f"http://127.0.0.1:{port}/")
    are_drawn = f"document.querySelectorAll('#board .room').length === {ROOMS}"
    browser.wait(f"location.port === '{port}' && {LIVE} && {are_drawn}", 60)
    return browser.run("performance.now()"), browser.used() - before


def change(browser, one):
    """What another operator's change costs the tab, in milliseconds of its processor time."""
    times = []
    for at in range(CHANGES):
        before = browser.used()
        said = one.ask(f"{'un' * (at % 2)}mute 205003")
        check(said.startswith("ok "), f"a change is told {said}")
        browser.wait(f"desk.version === {said[3:]} && past?.version === {said[3:]}")
        browser.run("new Promise((done) => requestAnimationFrame(() => setTimeout(done)))")
        times.append(browser.used() - before)
    return statistics.median(times[2:])


def speaks(browser, one):
    """The share of a processor and the octets a second while some members speak."""
    sound = [source["ssrc"] for source in one.log.desk.sources if source["media"] == "audio"]
    it = Counts(one, levels={ssrc: -30.0 for ssrc in sound[:: len(sound) // SPEAKERS][:SPEAKERS]})
    one.counted = it.told
    browser.wait("stats?.span && document.querySelectorAll('#sum [data-of=\"speaking\"]').length === 1", 30)
    time.sleep(2)
    return share(browser, one)


def costs_little(browser):
    """The figures, each printed beside that of the empty page."""
    one = standin.Standin()
    standin.fill(one, ROOMS, EACH)
    port = standin.serve(one).server_port
    empty_drawn, empty_changed = empty_costs(browser)
    first_draw(browser, port)
    clock, drawn = first_draw(browser, port)
    changed = change(browser, one)
    time.sleep(6)
    idle, octets = share(browser, one)
    speaking, told = speaks(browser, one)
    second, every = empty(browser, 1000), empty(browser, 250)
    print(
        f"64 rooms of 16: first draw {clock:.0f} ms by the clock and {drawn:.0f} ms of the tab, and an empty page "
        f"{empty_drawn:.1f} ms: {drawn / max(empty_drawn, 0.1):.0f} times\na change {changed:.1f} ms of the tab, and "
        f"a number of an empty page {empty_changed:.2f} ms: {changed / max(empty_changed, 0.01):.0f} times\n"
        f"idle {idle:.2f} percent of a processor and {octets / 1000:.2f} kB/s, and an empty page that writes each "
        f"second {second:.2f} percent: {idle / max(second, 0.01):.1f} times\n{SPEAKERS} speak: {speaking:.2f} percent "
        f"and {told / 1000:.0f} kB/s, and an empty page that writes each quarter of a second {every:.2f} percent: "
        f"{speaking / max(every, 0.01):.1f} times"
    )
    is_within("first draw", drawn)
    is_within("change", changed)
    is_within("idle", idle, second)
    is_within("speaking", speaking, every)
    check(octets <= 1000, f"an idle page is sent {octets:.0f} octets a second")
