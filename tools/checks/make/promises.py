"""Writes docs/ALL_PROMISES.md from docs/promises.txt, and into docs/PROMISES.md how much one has to read for each.

Each function, type and clause that promises.txt names has to be in the sources, and each public law of the crates has
to be named there. What one has to read for a clause are the definitions of specs/ that it names, those that these name,
and so on: what a reader has to believe. Lines `given N` of promises.txt name definitions that need not be read: a
public function that does something promises them of each of its calls, so whoever calls it has them, whatever they say.
A promise may have them as conditions alone; what it promises may not rest on them. With `--reading N` it prints what
one reads for the Nth of the ten promises by files, with how many lines. With `--unnamed` it prints the public functions
that have clauses and that promises.txt doesn't name.
"""

import collections
import dataclasses
import itertools
import re

from checks import contracts, made_parts, reading
from operators.shared import CRATES, ROOT, fail

NEEDS = "nothing"

LIST = ROOT / "docs" / "promises.txt"
DOCUMENT = ROOT / "docs" / "ALL_PROMISES.md"
TEN = ROOT / "docs" / "PROMISES.md"

HEAD = """# All promises

`tools/bridge make promises` makes this page from [promises.txt](promises.txt), and finds each function and clause in
the sources. Don't edit it by hand. A row has a promise, the function or type whose contract carries it with its clauses
(`ensures NAME`; a single one has no name), and what shows it: proved calls (`worked_..`), cases or tests.
[PROMISES](PROMISES.md) says how far the proofs reach, and [DEFINITIONS](DEFINITIONS.md) has the clauses' words. A law
is a function that does nothing when it runs.

Further public functions have clauses that no row names, most of them constructors and getters. `tools/bridge make
promises --unnamed` lists them.
"""
WITHOUT = """Of these functions no clause says what they do, only that they are safe. Methods of traits are left out,
since their traits' clauses hold of them. So are the functions of the page's program, desk_page: none has a clause.
"""
CARRIER = re.compile(r"  (\w+/src/\S+\.rt) (\w+(?:::\w+)?)(?: as (\w+))?(?:: (.*))?$")
SHOWN = "  shown: "
CONDITIONS = "Conditions"


@dataclasses.dataclass(frozen=True)
class Carrier:
    """A function or a type, with the clauses of it that carry a promise."""

    file: str
    name: str
    trait: str
    clauses: tuple


@dataclasses.dataclass
class Entry:
    promise: str
    carriers: list
    shown: str


def options(parser):
    parser.add_argument("--reading", type=int, metavar="N", help="what the Nth of the ten promises makes one read")
    parser.add_argument("--unnamed", action="store_true", help="public functions that no promise names")


@dataclasses.dataclass(frozen=True)
class Given:
    """Definitions that a function promises of each of its calls."""

    names: tuple
    by: Carrier


# The list


def carrier_of(line):
    found = CARRIER.match(line) or fail(f"promises.txt: not a function or a type: {line.strip()}")
    return Carrier(found[1], found[2], found[3] or "", tuple((found[4] or "").split()))


def entry_of(lines):
    """An entry by its lines."""
    said = " ".join(line for line in lines if not line.startswith(" "))
    shown = "".join(line.removeprefix(SHOWN) for line in lines if line.startswith(SHOWN))
    named = [line for line in lines if line.startswith(" ") and not line.startswith(SHOWN)]
    return Entry(said, [carrier_of(line) for line in named], shown)


def sections():
    """The headings of the list, each with what its sections begin by and its entries."""
    _, *parts = re.split(r"^# ", LIST.read_text(), flags=re.M)
    for part in parts:
        title, *blocks = [block.splitlines() for block in part.strip().split("\n\n")]
        about = [" ".join(block).removeprefix("about: ") for block in blocks if block[0].startswith("about: ")]
        yield title[0], about, [entry_of(block) for block in blocks if not block[0].startswith("about: ")]


def ten():
    """The carriers of the ten promises, by their numbers."""
    found = collections.defaultdict(list)
    for number, rest in re.findall(r"^ten (\d+): (.*)$", LIST.read_text(), re.M):
        found[int(number)].append(carrier_of("  " + rest))
    return found


def given():
    """What the ten promises are given, by their numbers."""
    found = collections.defaultdict(list)
    for number, names, rest in re.findall(r"^given (\d+): ([\w ]+) by (.*)$", LIST.read_text(), re.M):
        found[int(number)].append(Given(tuple(names.split()), carrier_of("  " + rest)))
    return found


def names_given(number):
    """The names of the definitions that one of the ten is given."""
    return {name for one in given()[number] for name in one.names}


# What the sources have


def parsed(file):
    """The functions of a file of crates/."""
    crate = file.partition("/")[0]
    of_bridge = [one for one in contracts.functions() if one.file == file]
    return of_bridge or list(contracts.functions_in(crate, CRATES / file))


def functions_of(carrier):
    """The functions whose clauses a carrier may name."""
    if carrier.trait:
        return [one for one in contracts.functions() if one.owner == carrier.trait and not one.trait]
    return [one for one in parsed(carrier.file) if one.path == carrier.name]


def is_there(carrier):
    """Whether a file has the type of a carrier, as one of the trait."""
    text = (CRATES / carrier.file).read_text()
    if carrier.trait:
        return re.search(rf"^impl\b.*\b{carrier.trait}\b.* for {carrier.name}\b", text, re.M)
    return re.search(rf"\b(?:struct|enum|trait) {carrier.name}\b", text)


def fault_of(carrier, kind):
    """What is wrong with a carrier, if anything is. Its clauses are of this kind."""
    if not (CRATES / carrier.file).is_file():
        return "there is no such file"
    functions = functions_of(carrier)
    if (carrier.trait or not functions) and not is_there(carrier):
        return "the file has no such function, type, or type as the trait"
    laws = () if functions else contracts.laws_of(CRATES / carrier.file, carrier.name) or ()
    known = {one.name or "-" for function in functions for one in function.clauses if one.kind == kind} | set(laws)
    missing = [name for name in carrier.clauses if name not in known and not (carrier.trait and not known)]
    return f"it has no clause {', '.join(missing)}" if missing else None


def kind_of(title):
    """The kind of clauses that a section names."""
    return "requires" if title == CONDITIONS else "ensures"


def named_under(kind):
    """The functions and types that sections name for clauses of a kind."""
    for title, _, entries in sections():
        if kind_of(title) == kind:
            yield from (one for entry in entries for one in entry.carriers)


def unnamed(kind, is_due):
    """The public functions that the list doesn't name and should."""
    named = {(one.file, one.name) for one in named_under(kind)}
    for one in contracts.functions():
        if contracts.is_exported(one) and is_due(one) and (one.file, one.path) not in named:
            yield f"promises.txt names no {one.path} of {one.file}"


def is_law(function):
    """Whether a function is a law: one that does nothing when it runs."""
    return function.file.endswith("/laws.rt") or function.crate.endswith("_laws") or function.body == ""


def left_out():
    """The public functions with clauses of which neither they nor their type is in the list."""
    types = {(one.file, one.name) for one in named_under("ensures")}
    return unnamed("ensures", lambda one: one.ensures and (one.file, one.owner) not in types)


def given_faults():
    """What is wrong with what the ten promises are given."""
    for number, gifts in given().items():
        for one in gifts:
            yield from gift_faults(f"promises.txt: given {number}: {one.by.file} {one.by.name}", one)
        for carrier in ten()[number]:
            promised = [clause.text for clause in clauses_of(carrier)]
            rests_on = {one.name for one in reading.believed(carrier.file, map(reading.conclusion, promised))}
            for name in sorted(rests_on & names_given(number)):
                yield f"promises.txt: given {number}: what {carrier.name} promises rests on {name}"


def gift_faults(place, gift):
    """What is wrong with definitions that a function is to promise of its calls."""
    if fault := fault_of(gift.by, "ensures"):
        yield f"{place}: {fault}"
        return
    function = reading.function_named(gift.by.file, gift.by.name)
    if not function or not contracts.is_exported(function) or is_law(function):
        yield f"{place}: it is no public function that does something"
        return
    words = set(re.findall(r"\w+", " ".join(clause.text for clause in clauses_of(gift.by))))
    for name in gift.names:
        if name not in words:
            yield f"{place}: its clauses don't name {name}"


def clauses_of(carrier):
    """The clauses that a carrier names, of a function."""
    names = [] if "-" in carrier.clauses else carrier.clauses
    function = reading.function_named(carrier.file, carrier.name)
    return [clause for clause in function.ensures if not names or clause.name in names]


def faults():
    """What the list says and the sources don't have, and which laws and conditions it doesn't name."""
    yield from given_faults()
    for kind in ("ensures", "requires"):
        for one in [*named_under(kind), *(itertools.chain(*ten().values()) if kind == "ensures" else ())]:
            if fault := fault_of(one, kind):
                yield f"promises.txt: {one.file} {one.name}: {fault}"
    yield from unnamed("ensures", is_law)
    yield from unnamed("requires", lambda one: any(clause.kind == "requires" for clause in one.clauses))


# The documents


def in_groups(carriers):
    """Carriers in a row of one file and type that have the same clauses, as lists."""
    key = lambda one: (one.file, one.name.rpartition("::")[0], one.trait, one.clauses)
    return [list(group) for _, group in itertools.groupby(carriers, key)]


def carriers_said(carriers):
    """A cell with the carriers of a promise: files once, and types once for functions in a row."""
    said, file, owner = [], "", ""
    for group in in_groups(carriers):
        names = []
        for one in group:
            its, _, name = one.name.rpartition("::")
            shown = f"`{name if one.file == file and its == owner else one.name}`"
            names.append(shown if one.file == file else f"[{shown}](../crates/{one.file})")
            file, owner = one.file, its
        trait = f" as `{group[0].trait}`" if group[0].trait else ""
        clauses = ", ".join(f"`{name}`" for name in group[0].clauses if name != "-")
        said.append(", ".join(names) + trait + (f": {clauses}" if clauses else ""))
    return "; ".join(said)


def place_said(place):
    """What shows a promise, as a link if it is a file."""
    for folder in ("crates", ""):
        if (ROOT / folder / place).is_file():
            path = ROOT / folder / place
            name = path.parts[-2] if path.name in ("stdin", "README.md") else path.stem
            return f"[{name}](../{path.relative_to(ROOT)})"
    if not place.startswith(("tools/bridge ", "check ")):
        fail(f"promises.txt: nothing is at {place}")
    return f"`{place}`"


def row_of(entry, title):
    """The line of an entry under a heading."""
    promise = "*all of these*" if entry.promise == "= all of these" else entry.promise
    shown = ", ".join(place_said(place) for place in entry.shown.split(", ") if place)
    cells = [promise.replace("|", "\\|"), carriers_said(entry.carriers), *([] if title == CONDITIONS else [shown])]
    return re.sub(r" +\|", " |", f"| {' | '.join(cells)} |")


def document():
    """The text of the page of all promises."""
    found = list(faults())
    if found:
        fail("\n".join(found))
    text = HEAD
    for title, about, entries in sections():
        rows = "\n".join(row_of(entry, title) for entry in entries)
        said = "".join(f"{made_parts.wrapped(one)}\n\n" for one in about)
        text += f"\n## {title}\n\n{said}{heading_of(title)}{rows}\n"
    return text + without_clauses()


def heading_of(title):
    """The first lines of a section's table."""
    columns = ["Condition", "Functions"] if title == CONDITIONS else ["Promise", "Carried by", "Shown by"]
    return f"| {' | '.join(columns)} |\n|{'---|' * len(columns)}\n"


def amount(definitions):
    """How much definitions are to read, in words."""
    count, lines, files, crates = reading.counts(definitions)
    if not count:
        return "no definition"
    where = "one file" if files == 1 else f"{files} files" + (f" of {crates} crates" if crates > 1 else "")
    return f"{count} definitions, {lines:,} lines, in {where}"


def read_for(number):
    """What one has to read for one of the ten."""
    gifts = names_given(number)
    return reading.together(
        reading.believed(carrier.file, [clause.text for clause in clauses_of(carrier)], gifts)
        for carrier in ten()[number]
    )


def given_said(number):
    """A sentence on what one of the ten is given, if it is given anything."""
    if not given()[number]:
        return ""
    names = [f"`{name}`" for name in sorted(names_given(number))]
    by = []
    for one in given()[number]:
        clauses = ", ".join(f"`{name}`" for name in one.by.clauses)
        by.append(f"[`{one.by.name}`](../crates/{one.by.file}) ({clauses})")
    return f" You are given {in_a_row(names)} by {in_a_row(by)}."


def in_a_row(words):
    """Words with commas between them, and `and` before the last one."""
    *front, last = words
    return f"{', '.join(front)} and {last}" if front else last


def without_clauses():
    """A table of the functions of which no clause says what they do. Methods of traits are left out, for their traits'
    clauses hold of them, and the page's program, of which no function has one."""
    found = collections.defaultdict(lambda: collections.defaultdict(list))
    for one in contracts.functions():
        if not one.ensures and not one.trait and one.body is not None and one.crate != "desk_page":
            found[one.file][one.owner].append(one.name)
    rows = ""
    for file, owners in found.items():
        rows += f"| [{file.replace('/src/', ': ').removesuffix('.rt')}](../crates/{file}) | {said_names(owners)} |\n"
    return f"\n## Without a clause\n\n{WITHOUT}\n| File | Functions |\n|---|---|\n{rows}"


def said_names(owners):
    """The names of functions by their types."""
    parts = []
    for owner, names in owners.items():
        first = f"{owner}::{names[0]}" if owner else names[0]
        parts.append(", ".join(f"`{name}`" for name in [first, *names[1:]]))
    return "; ".join(parts)


def counted():
    """The parts of the page of ten promises that say how much one has to read."""
    each = {number: read_for(number) for number in ten()}
    said = {number: f"To believe it you read {amount(found)}.{given_said(number)}" for number, found in each.items()}
    *first, _ = each.values()
    said["all"] = (
        f"To believe the first nine you read {amount(reading.together(first))}. To believe all ten you read"
        f" {amount(reading.together(each.values()))}."
    )
    return {f"reading-{number}": f"\n{made_parts.wrapped(text)}\n\n" for number, text in said.items()}


def ten_document():
    """The text of the page of ten promises."""
    return made_parts.filled(TEN.read_text(), counted())


def print_reading(number):
    """Prints what one has to read for a promise."""
    found = reading.by_file(read_for(number))
    for file, names in found.items():
        print(f"{file}: {', '.join(names)}")


def run(args):
    if args.reading:
        print_reading(args.reading)
    elif args.unnamed:
        print("\n".join(left_out()))
    else:
        DOCUMENT.write_text(document())
        TEN.write_text(ten_document())
    return 0
