"""The parts of documents that tools make.

Such a part stands between a comment that names it and the next comment that ends it. A page of which all is made begins
with the line that says which tool makes it.
"""

import re
import textwrap

PART = re.compile(r"(<!-- made: ([\w-]+) -->\n).*?(<!-- end -->\n)", re.S)
COMMENT = re.compile(r"<!--.*?-->\n?", re.S)
WHOLE = re.compile(r"# [^\n]*\n\n`tools/bridge make \w+` makes this page")


def names_in(text):
    """The names of the parts that are made, in order."""
    return [found[1] for found in PART.findall(text)]


def filled(text, made):
    """The text with each part as `made` gives it by its name. Parts that it doesn't name stay."""
    return PART.sub(lambda found: found[1] + made[found[2]] + found[3] if found[2] in made else found[0], text)


def by_hand(text):
    """The text without what tools make."""
    return "" if WHOLE.match(text) else PART.sub("", text)


def words(text):
    """How many words a text has, as `wc` counts them, without comments."""
    return len(COMMENT.sub("", text).split())


def wrapped(text):
    """Paragraphs in lines of 120 columns."""
    lines = [textwrap.fill(one, 120, break_long_words=False, break_on_hyphens=False) for one in text.split("\n\n")]
    return "\n\n".join(lines)
