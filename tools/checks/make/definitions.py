"""Writes docs/DEFINITIONS.md from the comments in specs/.

A file of definitions begins with a comment that says what it is, and which section of which standard it states. The
proofs of laws (specs/laws/), the words of private contracts (specs/inner/) and the specs of examples are left out.
"""

import re

from operators.shared import CRATES, ROOT, bridge_crates

NEEDS = "nothing"

DOCUMENT = ROOT / "docs" / "DEFINITIONS.md"

HEAD = """# Definitions

`tools/bridge make definitions` makes this page from the comment lines in `specs/`. Don't edit it by hand. Each line is
one file: what it says, the section of the standard that it states, and its words.

A reader of the contracts has to believe these files. The proofs of laws (`laws/`) and the words of private contracts
(`inner/`) stand next to them. "own" means that no standard says it. [FORMATS](FORMATS.md) and [MEDIA](MEDIA.md) have
such rules, and [DECISIONS](DECISIONS.md) says why.

| File | What it says | Section | Words |
|---|---|---|---|
"""

SECTION = re.compile(r"\(([^()]*\b(?:RFC \d|ITU-T|own\b)[^()]*)\)")
NAMED = re.compile(r"RFC \d+ (?:sections? \d(?:[\d.]*\d)?|[A-Z]\.\d)|ITU-T G\.\d+")
WORD = re.compile(r"(?:(?:abbrev|unfoldable) )?pub (?:data |record )?([^\s:{(]+)")


def first_comment(lines):
    """The comment lines with which a file begins, as one."""
    said = []
    for line in lines:
        if not line.startswith("--"):
            break
        said.append(line[2:].strip())
    return " ".join(said)


def words_of(lines):
    """The names of a file's public definitions."""
    found = (WORD.match(line) for line in lines)
    return [word.group(1) for word in found if word and word.group(1) not in ("mod", "use")]


def sections_in(lines):
    """The standards' sections that the comments of a file name, each once."""
    named = [section for line in lines if line.startswith("--") for section in NAMED.findall(line)]
    return ", ".join(dict.fromkeys(named))


def row_of(crate, path):
    """The line of a file."""
    lines = path.read_text().splitlines()
    said = first_comment(lines)
    found = SECTION.search(said)
    if found:
        section = found.group(1)
        said = (said[: found.start()].rstrip() + said[found.end() :]).strip()
    else:
        section = sections_in(lines)
    words = ", ".join(f"`{word}`" for word in words_of(lines))
    file = f"{crate}: [{path.stem}](../crates/{crate}/specs/{path.name})"
    return "| " + " | ".join(cell.replace("|", "\\|") for cell in (file, said, section, words)) + " |"


def definition_files():
    """The files of definitions, with their crates."""
    for crate in bridge_crates():
        for path in sorted((CRATES / crate / "specs").glob("*.antt")):
            if path.stem not in ("Lib", "inner", "laws"):
                yield crate, path


def document():
    """The text of the document."""
    return HEAD + "\n".join(row_of(crate, path) for crate, path in definition_files()) + "\n"


def run(_args):
    DOCUMENT.write_text(document())
    return 0
