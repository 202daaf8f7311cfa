"""Writes the index of docs/DECISIONS.md from its headings.

The index is a list for each group, of its decisions in their order.
"""

import re

from checks import made_parts
from operators.shared import ROOT

NEEDS = "nothing"

DOCUMENT = ROOT / "docs" / "DECISIONS.md"


def anchor_of(heading):
    """What a link to a heading names."""
    return re.sub(r"[^\w\- ]", "", heading.lower()).replace(" ", "-")


def index_of(groups):
    """The lists of the groups' decisions."""
    lines = []
    for heading in re.findall(r"^(##|###) (.*)$", groups, re.M):
        is_group, text = heading[0] == "##", heading[1]
        lines.append(f"\n**{text}**\n\n" if is_group else f"- [{text}](#{anchor_of(text)})\n")
    return "".join(lines)


def document(text):
    """The document with the index that its headings give."""
    return made_parts.filled(text, {"index": index_of(text[text.index("<!-- end -->") :]) + "\n"})


def run(_args):
    DOCUMENT.write_text(document(DOCUMENT.read_text()))
    return 0
