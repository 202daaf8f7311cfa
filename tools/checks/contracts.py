"""The functions of the crates' sources with the clauses of their contracts."""

import dataclasses
import functools
import re

from operators.shared import CRATES, bridge_crates

# What opens a block whose functions belong to a type or a trait: a line without indent.
OWNER = re.compile(r"(?:(pub )?(?:ghost )?trait (\w+))|impl\b")
FUNCTION = re.compile(r"(    )?(pub(?:\([^)]*\))? )?(?:const )?(?:unsafe )?fn (\w+)")
CLAUSE = re.compile(r"\b(requires|ensures)\b(?: (\w+))? \{")
EXPORT = re.compile(r"^pub use [\w:]+::(?:\{([^}]*)\}|(\w+));", re.M)
# A law of a trait, an invariant of a type.
GHOST = re.compile(r"^    (?:pub )?ghost (\w+): \{", re.M)


@dataclasses.dataclass(frozen=True)
class Clause:
    kind: str
    name: str
    text: str


@dataclasses.dataclass(frozen=True)
class Function:
    crate: str
    # The file, from crates/ on.
    file: str
    # The type or the trait that it belongs to, if it does.
    owner: str
    # The trait that its type has by it, if it is one of a trait's.
    trait: str
    name: str
    is_public: bool
    clauses: tuple
    # What stands between the braces of its body, without comments and spaces; none of a trait's.
    body: str

    @property
    def ensures(self):
        return [clause for clause in self.clauses if clause.kind == "ensures"]

    @property
    def path(self):
        return f"{self.owner}::{self.name}" if self.owner else self.name


def closed(text, begin, braces="{}"):
    """Where the brace at a place is closed."""
    depth = 0
    for at in range(begin, len(text)):
        depth += (text[at] == braces[0]) - (text[at] == braces[1])
        if depth == 0:
            return at
    raise ValueError("a brace is never closed")


def without_generics(words):
    """A type's or a trait's name: without what it is generic over."""
    depth, kept = 0, ""
    for before, letter in zip(" " + words, words):
        depth += letter == "<"
        kept += letter if depth == 0 else ""
        depth -= letter == ">" and before != "-"
    return kept


def owner_of(line):
    """The type or trait that a line opens, and the trait that it implements."""
    found = OWNER.match(line)
    if found and found[2]:
        return found[2], ""
    said = without_generics(line.removeprefix("impl").partition(" where")[0]).rstrip("{ \n")
    trait, is_for, name = said.partition(" for ")
    last = lambda path: re.split(r"[ :&]+", path.strip())[-1]
    return (last(name), last(trait)) if is_for else (last(trait), "")


def clauses_of(text):
    """The clauses in the text between a function's name and its body."""
    at, found = 0, []
    while one := CLAUSE.search(text, at):
        end = closed(text, one.end() - 1)
        found.append(Clause(one[1], one[2] or "", text[one.end() : end].strip()))
        at = end + 1
    return tuple(found)


def head_and_body(text, begin, indent):
    """What stands between a function's name and its body, and what in that."""
    ends = re.compile(rf"\n{indent}\{{(.*)|\)(?: -> [^\n]*)? \{{(.*)|;$|;\n", re.M)
    at = begin
    while True:
        found = ends.search(text, at)
        inside = CLAUSE.search(text, at)
        if inside and inside.start() < found.start():
            at = closed(text, inside.end() - 1) + 1
            continue
        if text[found.start()] == ";":
            return text[begin : found.start()], None
        opened = text.index("{", found.start())
        return text[begin:opened], text[opened + 1 : closed(text, opened)]


def functions_in(crate, path):
    """The functions of a file that stand in no other function."""
    text = re.sub(r"^ *//.*$", "", path.read_text(), flags=re.M)
    text = re.sub(r" // .*$", "", text, flags=re.M)
    owner, trait, at = "", "", 0
    for line in text.splitlines(keepends=True):
        if OWNER.match(line) and not line.rstrip().endswith("}"):
            whole = text[at : text.index("{", at)].replace("\n", " ") if "{" not in line else line
            owner, trait = owner_of(whole)
        elif line.startswith("}"):
            owner, trait = "", ""
        found = FUNCTION.match(line)
        if found and bool(found[1]) == bool(owner):
            head, body = head_and_body(text, at + found.end(), found[1] or "")
            body = None if body is None else re.sub(r"\s+", " ", body).strip()
            file = str(path.relative_to(CRATES))
            clauses = clauses_of(head)
            yield Function(crate, file, owner, trait, found[3], (found[2] or "").strip() == "pub", clauses, body)
        at += len(line)


@functools.cache
def exported(crate):
    """The functions, types and traits that a crate gives out."""
    text = (CRATES / crate / "src/lib.rt").read_text() if (CRATES / crate / "src/lib.rt").is_file() else ""
    names = (re.split(r"[,\s]+", found[1] or found[2]) for found in re.finditer(EXPORT, text))
    return {name for some in names for name in some}


def is_exported(function):
    """Whether others may call a function."""
    return function.is_public and (function.owner or function.name) in exported(function.crate)


@functools.cache
def functions():
    """All functions of the bridge's crates."""
    return [
        function
        for crate in bridge_crates()
        for path in sorted((CRATES / crate / "src").glob("**/*.rt"))
        for function in functions_in(crate, path)
    ]


def laws_of(path, name):
    """The names of a trait's laws, or of a type's invariants, if a file has it."""
    found = re.search(rf"^(?:pub )?(?:trait|struct|enum) {name}\b.*?^\}}", path.read_text(), re.M | re.S)
    return GHOST.findall(found[0]) if found else None
