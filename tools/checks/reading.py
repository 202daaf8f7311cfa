"""What a reader of a clause has to believe: its words, the words of their definitions, and so on.

Definitions are those of specs/. What the toolchain declares of types, and the toolchain's own library, are left out.
Comments, imports and empty lines don't count.

Of a record of values only those fields count that something which is read names: a field that nothing names says
nothing. A record that speaks of values, such as `IsChosen`, is a fact: all its fields are what it says.
"""

import collections
import dataclasses
import functools
import re

from checks import contracts
from operators.shared import CRATES

USE = re.compile(r"^\s*(?:ghost |pub )?use Rattle\.([\w.]+)\.\{([^}]*)\}", re.M)
# A line that begins a definition, with its name. Others without indent are its equations.
BEGIN = re.compile(r"(?:(?:abbrev|unfoldable|instance|pub|data|record) )+([^\s:{(]+)|([^\s:]+) *:")
# A line that defines nothing.
OTHER = re.compile(r"(?:(?:pub )?(?:use|mod)|module) ")
# The line that begins a type with cases, and one that names a case.
DATA = re.compile(r"(?:pub )?data ")
CASE = re.compile(r" +(?:pub )?([\w'-]+) *:(?![:=])")
WORDS = re.compile(r"[\w'-]+(?:\.\w+)*")
# A record with what it is generic over, and a field of one.
RECORD = re.compile(r"(?:pub )?record [^\s:{(]+(.*?): Type \d+ where", re.S)
FIELD = re.compile(r"  (?:pub )?([\w'-]+) :(?![:=])")
# What a record is generic over, if that is types alone.
TYPES = re.compile(r"\s*(?:[{(][\w\s]+ : Type \d+[})]\s*)*")
# A field that a text names: behind a value, or where a record is made.
NAMED = re.compile(r"\.([\w'-]+)|[{;]\s*([\w'-]+) =|^ +([\w'-]+) =", re.M)


@dataclasses.dataclass(frozen=True)
class Definition:
    file: str
    name: str
    lines: tuple

    @property
    def crate(self):
        return self.file.partition("/")[0]


def imports_in(text):
    """The words that a file imports: their own place and name there."""
    found = {}
    for place, words in USE.findall(text):
        for word in words.split(","):
            name, _, given = word.strip().partition(" as ")
            found[given.strip() or name] = (place, name)
    return found


@functools.cache
def file_of(place):
    """The file of a place as imports name it, and the type there whose parts it names, if it does."""
    crate, specs, *rest = place.split(".")
    if specs == "specs" and rest and rest[0] != "declared":
        for length in range(len(rest), 0, -1):
            path = CRATES / crate / "specs" / ("/".join(rest[:length]) + ".antt")
            if path.is_file():
                return path, rest[length] if length < len(rest) else None
    return None, None


def lines_of(path):
    """The lines of a file's definitions. What stands in a module without a name stands as if it stood outside."""
    is_in_module = False
    for line in USE.sub("", path.read_text()).splitlines():
        is_in_module = line.startswith("module ") or is_in_module and (line.startswith("  ") or not line)
        line = line[2:] if is_in_module and line.startswith("  ") else line
        if line.strip() and not line.lstrip().startswith("--") and not OTHER.match(line):
            yield line


@functools.cache
def definitions_in(path):
    """The definitions of a file by their names and those of their cases, and what it imports."""
    found, name = {}, None
    for line in lines_of(path):
        begun = BEGIN.match(line)
        name = (begun[1] or begun[2]) if begun else name
        found.setdefault(name, []).append(line)
    file = str(path.relative_to(CRATES))
    parts = {name: Definition(file, name, tuple(lines)) for name, lines in found.items()}
    types = [one for one in parts.values() if DATA.match(one.lines[0])]
    cases = {case[1]: one for one in types for line in one.lines[1:] if (case := CASE.match(line))}
    return {**cases, **parts}, imports_in(path.read_text())


def resolve(word, own, imported):
    """The definition that a word names, if it is one of specs/. A file may give out what it imports."""
    if word in own:
        return own[word]
    if word in imported:
        place, name = imported[word]
        path, kind = file_of(place)
        if path:
            return resolve(kind or name, *definitions_in(path))
    return None


def named_in(text, own, imported):
    """The definitions that a text names."""
    for word in WORDS.findall(text):
        for part in {word, *word.split(".")[:1]}:
            if found := resolve(part, own, imported):
                yield found


def fields_of(definition):
    """The places of the lines of each field of a record of values by its name, and those of the lines before them. None
    of anything else."""
    head = RECORD.match("\n".join(definition.lines))
    if not head or not TYPES.fullmatch(head[1]):
        return None
    before, fields, name = [], {}, None
    for at, line in enumerate(definition.lines):
        field = FIELD.match(line) if at > head[0].count("\n") else None
        name = field[1] if field else name
        (fields.setdefault(name, []) if name else before).append(at)
    return before, fields


def fields_named(text):
    """The fields that a text may name."""
    return {name for found in NAMED.findall(text) for name in found if name}


class Reading:
    """What is read so far, from the text of clauses on, but for definitions that are given: the definitions, each with
    the places of its lines that count."""

    def __init__(self, given):
        self.given, self.found, self.fields = given, {}, set()
        # The records of values that are read, each with its fields that nothing has named so far.
        self.left = {}

    def read(self, text, own, imported):
        """Reads a text of clauses, and all that it makes one read."""
        texts = [(text, own, imported)]
        while texts:
            text, own, imported = texts.pop()
            self.fields |= fields_named(text)
            for one in named_in(text, own, imported):
                if one not in self.found and one.name not in self.given:
                    self.found[one], self.left[one] = fields_of(one) or (list(range(len(one.lines))), {})
                    texts.append(self.text(one, self.found[one]))
            texts += [self.text(one, at) for one, fields in self.left.items() for at in self.due(one, fields)]

    def text(self, one, places):
        """Lines of a definition, without the names of fields that they declare, with what their file imports."""
        lines = [FIELD.sub("", one.lines[at]) if self.left[one] or at > 0 else one.lines[at] for at in places]
        return ("\n".join(lines), *definitions_in(CRATES / one.file))

    def due(self, one, fields):
        """The places of the fields of a record that something has named by now."""
        for name in sorted(fields.keys() & self.fields):
            places = fields.pop(name)
            self.found[one] = [*self.found[one], *places]
            yield places


def believed(file, texts, given=()):
    """The definitions that a reader of these clauses of a file has to believe, each with the places of its lines that
    count. Those of these names are given and aren't read."""
    reading = Reading(frozenset(given))
    reading.read("\n".join(texts), {}, imports_in((CRATES / file).read_text()))
    return {one: frozenset(places) for one, places in reading.found.items()}


def conclusion(text):
    """What a clause promises: what stands behind the last `→`, and so within brackets, too."""
    parts = [""]
    for letter in text:
        if letter in "([{":
            parts.append("")
        elif letter in ")]}":
            inside = parts.pop()
            parts[-1] += f"({inside})"
        else:
            parts[-1] = "" if letter == "→" else parts[-1] + letter
    return parts[0]


def together(readings):
    """What one reads for all of these."""
    found = collections.defaultdict(frozenset)
    for one, places in ((one, places) for each in readings for one, places in each.items()):
        found[one] |= places
    return dict(found)


def counts(found):
    """How many definitions, lines, files and crates."""
    files = {one.file for one in found}
    lines = sum(map(len, found.values()))
    return len(found), lines, len(files), len({one.crate for one in found})


def by_file(found):
    """The names of definitions by their files, each with how many lines of it count."""
    files = collections.defaultdict(list)
    for one in sorted(found, key=lambda one: (one.file, one.name)):
        files[one.file].append(f"{one.name} {len(found[one])}")
    return files


def function_named(file, path):
    """The function of a file under crates/, such as `Desk::prepare`."""
    found = [one for one in contracts.functions() if one.file == file and one.path == path]
    return found[0] if len(found) == 1 else None
