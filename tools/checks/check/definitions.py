"""Checks that what tools make of the documents is current, and that what documents call proved is in the sources.

Made are DEFINITIONS, ALL_PROMISES, parts of other documents, and the words of the page's advice. So each function and
clause that docs/promises.txt names is in the sources, and each public law is named there. Where a document says
"(proved: `NAME`)", or links a name to a source, a function, a type or a trait has that name.
"""

import re

from checks import contracts
from checks.check.style import documents
from checks.make import crates, definitions, performance, promises, words
from operators.shared import CRATES, ROOT

NEEDS = "nothing"

PROVED = re.compile(r"\bproved\b[^()]{0,20}: ((?:\[?`[\w:]+`(?:\]\([^)]*\))?(?:,\s+)?)+)")
LINKED = re.compile(r"\[`([A-Za-z]\w*(?:::\w+)?)`\]\((?:\.\./)+crates/(\S+?\.rt)\)")
QUOTED = re.compile(r"`([\w:]+)`")


def made():
    """The documents that tools make, in whole or in part: by which tool, where each stands, and its text."""
    yield "make crates", crates.DOCUMENT, crates.document()
    yield "make definitions", definitions.DOCUMENT, definitions.document()
    yield "make performance", performance.DOCUMENT, performance.document()
    yield "make promises", promises.DOCUMENT, promises.document()
    yield "make promises", promises.TEN, promises.ten_document()
    yield "make words", words.DOCUMENT, words.document()
    yield "make words", words.SCRIPT, words.script()


def is_in(name, file):
    """Whether a file of crates/ has a function, a type, a trait or a constant of a name."""
    text, last = (CRATES / file).read_text(), name.rpartition("::")[2]
    return re.search(rf"\b(?:fn|struct|enum|trait|type|const) {last}\b", text) is not None


def missing_names():
    """The names that documents call proved, or link to a source, and that aren't there."""
    known = {name for one in contracts.functions() for name in (one.name, one.path, one.owner)}
    for path in documents():
        text = path.read_text()
        for said in PROVED.findall(text):
            yield from (f"{path.name}: {name} is in no source" for name in QUOTED.findall(said) if name not in known)
        for name, file in LINKED.findall(text):
            if not (CRATES / file).is_file() or not is_in(name, file):
                yield f"{path.name}: {name} isn't in {file}"


def run(_args):
    stale = [(tool, path) for tool, path, text in made() if not path.exists() or path.read_text() != text]
    for tool, path in stale:
        print(f"{path.relative_to(ROOT)} is stale: run `tools/bridge {tool}`")
    missing = list(missing_names())
    print("".join(f"{one}\n" for one in missing), end="")
    return 1 if stale or missing else 0
