"""What a screen reader is told of the page, by Chromium's accessibility tree: what each control is called, which parts
the page has, and what a row says. Bugs are planted in the page, each of which has to be noticed."""

from checks.counted import Counts
from checks.staying import begins, check, others

CONTROLS = {"button", "checkbox", "combobox", "link", "searchbox", "slider", "spinbutton", "textbox"}
# Parts between which a reader jumps, and those that a page has once.
PARTS, ONCE = {"dialog", "form", "group", "meter", "region"}, {"banner", "contentinfo", "main", "search"}
# What is done to the page, and a part of the fault that this is.
BUGS = [
    ("at('search').removeAttribute('placeholder'), at('search').previousElementSibling.remove()", "has no name"),
    ("document.querySelectorAll('[data-key^=\"toggle \"]').forEach((one) => { one.ariaLabel = 'Mute'; })", "two"),
    ("at('rooms-title').outerHTML = '<h4>Rooms</h4>'", "of level 4"),
    ("at('sum').ariaLabel = 'Selected members'", "two"),
    ("document.querySelector('main').role = 'none'", "no main"),
    ("document.querySelector('#detail input[type=range]').ariaValueText = '384'", "says 384"),
]


def nodes(browser):
    """What a reader goes through, in its order: a role, a name, the level of a heading, and the name of the form that
    it is in."""
    told = {one["nodeId"]: one for one in browser.ask("Accessibility.getFullAXTree")["nodes"]}
    found = []

    def walk(one, form):
        role, name = one["role"]["value"], one.get("name", {}).get("value", "")
        more = {it["name"]: it["value"].get("value") for it in one.get("properties", [])}
        if not one.get("ignored"):
            found.append((role, name, more.get("level"), form))
        for child in one.get("childIds", []):
            if child in told:
                walk(told[child], name if role == "form" else form)

    walk(next(one for one in told.values() if "parentId" not in one), "")
    return found


def faults(browser):
    """What is wrong with the tree."""
    said, seen, level, past = [], set(), 0, nodes(browser)
    for role, name, more, form in past:
        is_named = role in CONTROLS or role in PARTS and role != "group"
        if is_named and not name:
            said.append(f"a {role} has no name")
        elif (role in CONTROLS or role in PARTS) and name:
            if (role, name, form) in seen:
                said.append(f"there are two {role} {name}")
            seen.add((role, name, form))
        if role == "heading":
            if more > level + 1:
                said.append(f"the heading {name} of level {more} comes after one of level {level}")
            level = more
    # The browser's tree has the numbers of sliders alone: their words go to the reader from the page.
    words = browser.run("[...document.querySelectorAll('[type=range]')].map((one) => one.ariaValueText)")
    said += [f"a slider says {one}" for one in words if not str(one).startswith("x")]
    roles = [role for role, *_ in past]
    said += [f"there is no {role}, or more than one" for role in sorted(ONCE) if roles.count(role) != 1]
    tops = sum(role == "heading" and more == 1 for role, _, more, _ in past)
    return said + ([f"there are {tops} headings of level 1"] if tops != 1 else [])


def reads_aloud(browser):
    """Each control has a name that no other one of its form has, headings skip no level, and a row says its trouble."""
    one = begins(browser, 2, 6)
    one.counted = Counts(one, losing={301001: 0.1}, silent={201003}, levels={201004: -20}).told
    for line in "mute 201005", "pin 2 302001", "set-gain 1002 201001 384":
        others(browser, one, line)
    browser.wait("stats !== null && stats.span !== null && infoOf(1).tally.losing > 0", 30)
    draws = "picked.add(1002), opened = 1002, render(null, true, true), acts.walk(past.done[0].number), true"
    browser.run(draws)
    found = faults(browser)
    check(not found, f"a screen reader finds these faults: {found}")
    said = {name for role, name, _, _ in nodes(browser) if role == "button"}
    for words in "Open member 1001, losing over 2 percent of its packets", "Open member 1003, silent: no packet comes":
        check(words in said, f"no row says `{words}`: {sorted(name for name in said if name.startswith('Open '))}")
    for script, words in BUGS:
        browser.run(f"{script}, true")
        found = faults(browser)
        check(any(words in fault for fault in found), f"after `{script}` a screen reader finds {found}")
        browser.reload()
        browser.wait("stats?.span && past", 60)
        browser.run(draws)
    print(f"a screen reader finds a name for each control, and each of {len(BUGS)} planted faults")
