"""Writes what refusals and faults mean into FORMATS and into the page's script.

crates/operator_lines/specs/Advice.antt has these words, and Why.antt those of refusals that no desk of one operator
gives. The bridge's `why` is proved to tell them. FORMATS has them in two tables, and the page in advice.js.
"""

import json
import re

from checks import made_parts
from operators.shared import CRATES, ROOT

NEEDS = "nothing"

DOCUMENT = ROOT / "docs" / "FORMATS.md"
SCRIPT = CRATES / "desk_page/web/advice.js"
ADVICE = CRATES / "operator_lines/specs/Advice.antt"
WHY = CRATES / "operator_lines/specs/Why.antt"
NUMBERS = CRATES / "desk_edit/specs/Told.antt"
FAULTS = CRATES / "desk_text/specs/Text.antt"
# Faults of scripts alone, which no operator is told.
OF_SCRIPTS = ("BadHex", "BadFrame")


def options(parser):
    pass


def told(function, kind):
    """The words that a definition has for each variant of a kind."""
    found = re.findall(rf'^{function} \(?{kind}\.(\w+)[^=]*=\s+codes "([^"]*)"', ADVICE.read_text(), re.M)
    return dict(found)


def numbers_of_refusals():
    """The number of each refusal."""
    found = re.findall(r"^told_of \(?(\w+)[^=]*= record \{ number = (\d+);", NUMBERS.read_text(), re.M)
    return {name: int(number) for name, number in found}


def numbers_of_faults():
    """The number of each fault."""
    found = re.findall(r'^fault_text \w+ = codes "(\d+) (\w+)"', FAULTS.read_text(), re.M)
    return {name: int(number) for number, name in found}


def others():
    """The number, the name and the words of each refusal that is no other's, as `why` tells it."""
    found = re.findall(r'codes "refused (\d+) (\w+) ([^"]*)\\n"', WHY.read_text())
    return [(int(number), name, words) for number, name, words in found]


def rows():
    """Of refusals, and of faults: the number, the name and the words of each, by number."""
    for function, kind, numbers, more in (
        ("refusal_advice", "refusals", numbers_of_refusals(), others()),
        ("fault_advice", "faults", numbers_of_faults(), []),
    ):
        words = told(function, kind)
        yield sorted([(number, name, words[name]) for name, number in numbers.items()] + more)


def table(title, lines):
    """A table of numbers, names and words."""
    cells = "".join(f"| {number} {name} | {text} |\n" for number, name, text in lines)
    return f"\n| {title} | In words |\n|---|---|\n{cells}\n"


def document():
    """FORMATS with both tables."""
    refusals, faults = rows()
    faults = [one for one in faults if one[1] not in OF_SCRIPTS]
    made = {"refusals": table("Refusal", refusals), "faults": table("Fault", faults)}
    return made_parts.filled(DOCUMENT.read_text(), made)


def script():
    """The page's script with both tables."""
    lines = ["// What refusals and faults mean, and what to do. `tools/bridge make words` writes this."]
    for name, part in zip(("advice", "faults"), rows()):
        lines.append(f"export const {name} = {{")
        lines += [f"  {number}: {json.dumps(text)}," for number, _, text in part]
        lines.append("};")
    return "\n".join(lines) + "\n"


def run(_args):
    DOCUMENT.write_text(document())
    SCRIPT.write_text(script())
    return 0
