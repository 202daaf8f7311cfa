"""What the page shows of what a bridge counts."""

from checks.driving import is_told
from operators.shared import fail

# A desk on which a member sends sound that comes and a picture that doesn't.
DESK = [
    "add-room 8",
    "add-member 80 8 10.8.2.80:6000 pcmu 9080 0 0",
    "add-source 280 80 audio",
    "add-source 281 80 video",
]
COUNTED = {
    "sources": [
        {"address": "10.8.2.80:6000", "ssrc": 280, "packets": 9, "lost": 1, "ago_ms": 20},
        {"address": "10.8.2.80:6000", "ssrc": 281, "packets": 7, "lost": 0, "ago_ms": 61_000},
    ],
    "strangers": [
        {"address": "10.8.2.80:6000", "ssrc": 777, "payload_type": 0, "packets": 3},
        {"address": "10.8.2.99:6000", "ssrc": 778, "payload_type": 96, "packets": 1},
    ],
}
SILENT = "[...document.querySelectorAll('[data-room=\"8\"] .source.silent')].map((node) => node.dataset.source)"
UNKNOWN = "[...document.querySelectorAll('#strangers li')].map((node) => node.textContent)"
FIELDS = "['ssrc', 'member', 'kind'].map((name) => document.getElementById('add-source').elements[name].value)"


def shows_counts(browser, ask, sets):
    """A source that is silent stands out, the details count its packets, and an unknown sender becomes a source. A
    bridge that doesn't count shows nothing of it. `sets` hands over what the bridge counts."""
    browser.wait("desk !== null")
    for line in DESK:
        if not ask(line).startswith("ok "):
            fail(f"`{line}` is refused")
    browser.wait("sourceOf(desk, 281) !== undefined")
    is_told(browser, [(SILENT, []), ("document.getElementById('unknown').hidden", True)])
    sets(COUNTED)
    browser.wait("document.querySelectorAll('#strangers li').length === 2")
    is_told(browser, [(SILENT, ["281"])])
    browser.run("acts.open('80'), true")
    counts = "[...document.querySelectorAll('#detail .row .counted')].map((node) => node.textContent)"
    is_told(browser, [
        (counts, ["9 packets, 1 lost, the last one just now", "7 packets, 0 lost, the last one 1 min ago"]),
        (f"{UNKNOWN}[0].includes('the address of member 80')", True),
        (f"{UNKNOWN}[1].includes('no member has this address')", True),
    ])  # fmt: skip
    browser.click('[data-key="take-stranger 777"]')
    is_told(browser, [(FIELDS, ["777", "80", "audio"]), ("document.activeElement.name", "member")])
    browser.click("#add-source button")
    browser.hovers(2, 2)
    browser.wait("sourceOf(desk, 777) !== undefined")
    browser.wait("document.querySelectorAll('#strangers li').length === 1")
    adds_somebody(browser)
    sets(None)
    browser.wait("stats === null && document.getElementById('unknown').hidden")
    is_told(browser, [(SILENT, []), (counts, [])])


def adds_somebody(browser):
    """A name, an address and Enter bring somebody into a room by one call, with what comes from there already."""
    version = browser.run("at('add-person').elements.room.value = '8', desk.version")
    for field, text in ("name", "Zoe"), ("address", "10.8.2.99:6000"):
        browser.run(f"at('add-person').elements.{field}.focus(), true")
        browser.types(text)
    browser.press("Enter", 13)
    browser.wait("memberOf(desk, sourceOf(desk, 778)?.member)?.address === '10.8.2.99:6000'")
    browser.wait("nameOf(names, 'member', sourceOf(desk, 778).member) === 'Zoe'")
    browser.wait("document.querySelectorAll('#strangers li').length === 0")
    is_told(browser, [
        ("desk.version", version + 1), ("slotsOf(desk, sourceOf(desk, 778).member).length", 1),
        ("at('add-person').elements.address.value", ""),
    ])  # fmt: skip
