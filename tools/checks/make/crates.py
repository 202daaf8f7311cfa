"""Writes the table of crates of docs/ARCHITECTURE.md from the first sentence of each crate.

That is the sentence with which its lib.rt or main.rt begins. The crates of the bridge stand in the order of crates.txt,
lowest first. Those that are there to check aren't in the table.
"""

import itertools
import re

from checks import made_parts
from operators.shared import CRATES, ROOT, bridge_crates

NEEDS = "nothing"

DOCUMENT = ROOT / "docs" / "ARCHITECTURE.md"
LINK = re.compile(r"\[`([^`]+)`\](?:\([^)]*\))?")


def source_of(crate):
    """The file with which a crate begins."""
    return next(path for name in ("lib.rt", "main.rt") if (path := CRATES / crate / "src" / name).is_file())


def first_sentence(path):
    """The first sentence of the comment with which a file begins, without links."""
    lines = itertools.takewhile(lambda line: line.startswith("//! "), path.read_text().splitlines())
    said = " ".join(line[4:].strip() for line in lines)
    return LINK.sub(r"`\1`", re.split(r"(?<=[.!?]) (?=[A-Z`\[]|$)", said)[0]).rstrip(".")


def row_of(crate):
    path = source_of(crate)
    return f"| [{crate}](../{path.relative_to(ROOT)}) | {first_sentence(path)} |\n"


def document():
    """The text of the document with its table of crates."""
    table = "\n| Crate | What it is |\n|---|---|\n" + "".join(row_of(crate) for crate in bridge_crates()) + "\n"
    return made_parts.filled(DOCUMENT.read_text(), {"crates": table})


def run(_args):
    DOCUMENT.write_text(document())
    return 0
