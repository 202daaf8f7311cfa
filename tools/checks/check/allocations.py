"""Checks that something runs each public function that allocates.

A body that always gives up for lack of memory meets any contract. So each public function of the libraries that takes
an allocator has to run once where memory is ample: from a test, from a program of cases, or from the program itself on
its stored input. Each such function has a line with what runs it, or NOWHERE; the status is 1 where one has nothing.

Calls are found in the text, by names: `Type::name(..)`, `module::name(..)`, `name(..)`, and `x.name(..)` where the type
of x is told nearby or one type alone has such a method. A trait's method that is called calls that of each type. What
can't be told counts as no call.
"""

import re
from collections import defaultdict, deque

from operators.shared import CRATES, crates

NEEDS = "nothing"

PROGRAMS = {
    "confbridge", "desk_page",
    "x_cases_files", "x_cases_bridge", "x_cases_front", "x_cases_page",
}  # fmt: skip
# How the names of crates begin that have no function of a library.
NO_LIBRARY = ("worked_", "x_tests_", "x_bench")

FN = re.compile(r"(?P<vis>pub(?:\(crate\))? |)(?:const )?fn (?P<name>\w+)\s*(?P<generics><[^(]*>)?\(")
IMPL = re.compile(
    r"^(?:impl|pub trait|trait)\b(?:<[^{]*?>)?\s*(?:(?:\w+::)*(?P<trait>\w+)(?:<[^{]*>)? for )?(?P<owner>\w+)[^{]*\{",
    re.M,
)
ENUM = re.compile(r"enum (\w+)(?:<[^{;]*>)?\s*\{")
STRUCT = re.compile(r"struct (\w+)(?:<[^{;]*>)?\s*\{([^}]*)\}")
EXPORT = re.compile(r"pub use (?:self::)?\w+::(\w+|\{[^}]*\})")
IGNORED = re.compile(r"//[^\n]*|^\s*ghost use [^\n]*|\"(?:[^\"\\]|\\[\s\S])*\"", re.M)
RESULT = re.compile(r"\s*(->[^{;]*?(?=\s(?:requires|ensures|ghost|where|decreases)\b|\s*[{;]))?")
CLAUSE = re.compile(r"\s*(requires|ensures|ghost|decreases)\b[^{]*|\s*where(?:(?!\s(?:requires|ensures)\b)[^{])*")
ALIAS = re.compile(r"\btype (\w+)(?:<[^=]*>)? = (\w+)")
VARIANT = re.compile(r"(\w+)::(\w+)\((?:mut )?(\w+)\)")
LET = re.compile(r"let (?:mut )?((?:Ok|Some|Err)?\(?(?:mut )?\w+)\)? = ([^;{]*)")
CALL = re.compile(r"((?:[A-Za-z_]\w*\.)+|)(?:(\w+)(?:::<[^>(]*>)?::)?(\w+)(?:::<[^>(]*>)?\(")
CHAINED = re.compile(r"(?:\)\??|\])\s*\.(\w+)\(")
INDEXED = re.compile(r"\b([A-Za-z_]\w*(?:\.\w+)*)\[[^\]]*\]\.(\w+)\(")
CHAIN = re.compile(r"\b(\w+(?:\.\w+)*)\.(\w+)\([^()]*\)\.(\w+)\(")


# Reading


def closing(text, start):
    """The place behind the bracket that closes the one at `start`."""
    depth = 0
    for place in range(start, len(text)):
        depth += text[place] in "{(["
        depth -= text[place] in "})]"
        if depth == 0:
            return place + 1
    return len(text)


def after_clauses(text, place):
    """The place behind the clauses of a function."""
    while found := CLAUSE.match(text, place):
        place = closing(text, found.end()) if found.group(1) else found.end()
    return place


class Function:
    """A function: where it stands, what it takes and gives, and its body without its contract."""

    def __init__(self, crate, owner, trait, match, text):
        self.crate, self.owner, self.trait, self.name = crate, owner, trait, match["name"]
        self.bounds = dict(re.findall(r"(\w+): (\w+)", match["generics"] or ""))
        self.is_public = match["vis"] == "pub "
        self.is_test = "#[test]" in text[max(0, match.start() - 40) : match.start()]
        place = text.index("(", match.end() - 1)
        end = closing(text, place)
        self.takes = text[place:end]
        result = RESULT.match(text, end)
        self.gives = result.group(1) or ""
        begins = re.compile(r"\s*\{").match(text, after_clauses(text, result.end()))
        self.body = ""
        if begins:
            self.body = re.sub(r"\s+\.", ".", text[begins.end() : closing(text, begins.end() - 1)])

    def __str__(self):
        return "::".join(filter(None, [self.crate, self.owner, self.name]))

    def takes_an_allocator(self):
        """Whether it can run out of memory. A law gives nothing."""
        return self.gives and re.search(r"\balloc: (A|Global)\b", self.takes)


class Sources:
    """All functions, the fields of all structs, and the names that each crate exports."""

    def __init__(self):
        self.functions, self.fields, self.exports, self.aliases = [], defaultdict(dict), defaultdict(set), {}
        depends = {name: [other for other in others if (CRATES / other).is_dir()] for name, others in crates().items()}
        self.sees = {name: {name, *others} for name, others in depends.items()}
        for crate in depends:
            for path in sorted((CRATES / crate / "src").glob("**/*.rt")):
                self.read(crate, path.name, IGNORED.sub("", path.read_text()))
        self.by_name = defaultdict(list)
        for f in self.functions:
            self.by_name[f.name].append(f)
        self.types = {f.owner for f in self.functions if f.owner} | set(self.fields)

    def read(self, crate, file, text):
        if file == "lib.rt":
            for names in EXPORT.findall(text):
                self.exports[crate] |= set(re.findall(r"\w+", names))
        for name, inside in STRUCT.findall(text):
            self.fields[name].update(re.findall(r"(\w+): ([^\n]+)", inside))
        self.aliases.update(ALIAS.findall(text))
        for match in ENUM.finditer(text):
            inside = text[match.end() : closing(text, match.end() - 1)]
            self.fields[match[1]].update(re.findall(r"(\w+)\((\w[^)]*)\)", inside))
        spans = [(m.start(), closing(text, m.end() - 1), m["owner"], m["trait"]) for m in IMPL.finditer(text)]
        for match in FN.finditer(text):
            within = ((owner, trait) for start, end, owner, trait in spans if start < match.start() < end)
            self.functions.append(Function(crate, *next(within, (None, None)), match, text))

    def type_in(self, words):
        named = (self.aliases.get(word, word) for word in re.findall(r"\b[A-Z]\w+", words))
        return next((word for word in named if word in self.types), None)

    def candidates(self, f, name):
        """The functions of this name that a function can call."""
        return [g for g in self.by_name[name] if g.crate in self.sees[f.crate]]

    def given(self, f):
        """The methods that types give for a trait's method."""
        return [g for g in self.by_name[f.name] if f.owner and g.trait == f.owner and f.crate in self.sees[g.crate]]

    def only_method(self, found):
        """The methods among these functions, if one type alone has them."""
        methods = [g for g in found if g.owner]
        return methods if len({g.owner for g in methods}) == 1 else []

    # The types of names within a function

    def bind(self, f, known, name, value):
        """Keeps the type of what a `let` binds, if it is told there."""
        called = re.match(r"&?(?:mut )?(?:(\w+)(?:::<[^>]*>)?::)?(\w+)\(", value)
        if called:
            given = [g for g in self.candidates(f, called[2]) if g.owner == called[1] or not called[1]]
            told = {self.type_in(g.gives.replace("Self", g.owner or "")) for g in given}
            if len(told) == 1:
                known[name] = told.pop()
        elif path := re.match(r"&?(?:mut )?(\w+(?:\.\w+)+)\s*;?\s*$", value):
            known[name] = self.type_of_path(known, path[1].split("."))
        elif re.match(r"(\w+)(?:::\w+)?\s*$|(\w+) \{", value):
            known[name] = self.type_in(value)

    def locals_of(self, f):
        """The types of a function's arguments and of what it binds."""
        known = {}
        for name, text in re.findall(r"(\w+): ([^,)]+(?:<[^)]*>)?)", f.takes):
            known[name] = self.type_in(text) or f.bounds.get(re.findall(r"\w+", text)[-1])
        known["self"] = f.owner
        for owner, variant, name in VARIANT.findall(f.body):
            if variant in self.fields.get(owner, {}):
                known[name] = self.type_in(self.fields[owner][variant])
        for names, value in LET.findall(f.body):
            self.bind(f, known, re.findall(r"\w+", names)[-1], value)
        return known

    def type_of_path(self, known, path):
        """The type of `x.y.z`."""
        kind = known.get(path[0])
        for part in path[1:]:
            kind = self.type_in(self.fields.get(kind, {}).get(part, ""))
        return kind

    def inside(self, known, path):
        """What the declaration of `x.y.z` says of its type, without the first word that holds elements."""
        kind = self.type_of_path(known, path[:-1]) if len(path) > 1 else None
        return re.sub(r"^\W*Vec<|^\W*\[", "", self.fields.get(kind, {}).get(path[-1], ""))

    # Calls

    def calls(self, f):
        """The functions that a function calls."""
        known = self.locals_of(f)
        for head, owner, name in CALL.findall(f.body):
            found = self.candidates(f, name)
            owner = f.owner if owner == "Self" else owner
            if owner:
                yield from [g for g in found if g.owner == owner or (owner.islower() and not g.owner)]
            elif head:
                kind = self.type_of_path(known, head[:-1].split("."))
                yield from self.only_method(found) or [g for g in found if g.owner and g.owner == kind]
            else:
                yield from [g for g in found if not g.owner]
        for name in CHAINED.findall(f.body):
            yield from self.only_method(self.candidates(f, name))
        for head, name in INDEXED.findall(f.body):
            kind = self.type_in(self.inside(known, head.split(".")))
            yield from [g for g in self.candidates(f, name) if g.owner and g.owner == kind]
        for head, first, name in CHAIN.findall(f.body):
            kind = self.type_of_path(known, head.split("."))
            given = {self.type_in(g.gives) for g in self.candidates(f, first) if g.owner and g.owner == kind}
            yield from [g for g in self.candidates(f, name) if g.owner and g.owner in given]

    def run_by(self):
        """Each function that is run, with the test or the program that runs it."""
        roots = [f for f in self.functions if f.is_test]
        roots += [f for f in self.functions if f.crate in PROGRAMS and f.name == "main"]
        found, waiting = {}, deque((f, f) for f in roots)
        while waiting:
            f, root = waiting.popleft()
            if f not in found:
                found[f] = root
                waiting += [(g, root) for g in [*self.calls(f), *self.given(f)]]
        return found

    def allocating(self):
        """The public functions of the libraries that take an allocator."""
        for f in self.functions:
            is_library = f.crate not in PROGRAMS and not f.crate.startswith(NO_LIBRARY)
            is_public = f.is_public and (f.owner or f.name) in self.exports[f.crate]
            if is_library and is_public and f.takes_an_allocator():
                yield f


def run(_args):
    sources = Sources()
    run_by = sources.run_by()
    missing = [f for f in sources.allocating() if f not in run_by]
    for f in sources.allocating():
        print(f"{f}: {run_by.get(f, 'NOWHERE')}")
    return 1 if missing else 0
