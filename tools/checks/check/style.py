"""Checks how documents and sources are written.

Documents are README.md, CONTRIBUTING.md, docs/ and the pages of examples/. The status is 1 where one has a median
sentence of over 16 words, a sentence of over 38, a line over 120 columns, or a link that leads nowhere. Code, tables,
headings and lists of names are no sentences, and a piece of code within a sentence counts as one word. Tables and code
may be wider. How many lines a document has doesn't matter. How many words it has by hand, and how many a tool made, is
printed, as `wc` counts them, without comments: the bars of tables are words, too. The status is 1 as well where a
measured figure of README stands in another document, too: one has it, and the other links there. It is 1 where the
index of DECISIONS isn't what `make decisions` writes.

Of sources the status is 1 where a function of crates/*/src has over 30 lines or over five parameters beside `self`,
`rt` and `alloc`, or a file over 300 lines (of the page its web files count, not what is made of them), and where a name
of the bridge's crates is doubled: a type with two homes, a word of definitions with three. Types are structs, enums,
traits and aliases, public or not; those of cases, examples and tests don't count. It is 1 as well where the lib.rt of a
crate of the bridge has no example, or where a lib.rt names a function of another crate ("`NAME` of CRATE") that isn't
there. And it is 1 where a source of desk_page isn't what `make page` writes from the page's web files, or where a text
that an edit of edits/ or must-fail/ replaces doesn't stand once in its file, or where a crate that is there to check
sorts before one of the product.

A line of src/, specs/, proofs/, the page's web files and tools/ has at most 120 columns, if it is more than one text in
quotes. `make layout` breaks those of specs/ and proofs/. Of the folders of tools/, operators imports neither of the
others, since a package ships it alone, and checks imports nothing of lab.
"""

import ast
import collections
import itertools
import re
import statistics

from checks import made_parts
from checks.gate import edits
from checks.make import decisions
from checks.make.definitions import definition_files, words_of
from checks.make.page import SOURCES, PARTS, WEB, stale
from checks.plants import PLANTS
from operators.shared import CRATES, ROOT, bridge_crates, crates

NEEDS = "nothing"

MOST_MEDIAN = 16
MOST_WORDS = 38
MOST_LINES_OF_FUNCTION = 30
MOST_PARAMETERS = 5
MOST_COLUMNS = 120
MOST_LINES_OF_FILE = 300

TOOLS = ROOT / "tools"
# Which folders of tools/ each may import besides itself. A package ships the first one alone.
MAY_IMPORT = {"operators": [], "checks": ["operators"], "lab": ["operators", "checks"]}
# A line that is a text in quotes.
ONE_TEXT = re.compile(r'\s*"[^"]*"[,;]?')


def options(parser):
    which = parser.add_mutually_exclusive_group()
    which.add_argument("--docs", action="store_true", help="documents alone")
    which.add_argument("--sources", action="store_true", help="sources alone")


def tell(faults, what):
    """Prints how many faults there are, and each. Whether there are none."""
    print(f"{len(faults)} {what}")
    print("".join(f"       {fault}\n" for fault in faults), end="")
    return not faults


# Documents


def documents():
    pages = sorted((ROOT / "docs").glob("*.md")) + sorted((ROOT / "examples").glob("*/README.md"))
    return [ROOT / "README.md", ROOT / "CONTRIBUTING.md", *pages]


def without_fences(text):
    """The text without what stands between fences, which code and diagrams do: such lines are empty."""
    kept = []
    fenced = False
    for line in text.split("\n"):
        if line.lstrip().startswith("```"):
            fenced = not fenced
            kept.append("")
        else:
            kept.append("" if fenced else line)
    return "\n".join(kept)


def paragraphs(text):
    """Paragraphs and list items, each as one line; tables and headings are left out."""
    current = []
    for line in without_fences(made_parts.COMMENT.sub("\n", text)).split("\n") + [""]:
        bare = line.strip()
        begins_item = re.match(r"([-*]|\d+\.) ", bare)
        if not bare or bare.startswith(("|", "#")) or begins_item:
            if current:
                yield " ".join(current)
            current = []
        if bare and not bare.startswith(("|", "#")):
            current.append(bare[begins_item.end() :] if begins_item else bare)


def plain(paragraph):
    """The paragraph with each piece of code as one word, links as their text, and no emphasis."""
    paragraph = re.sub(r"`[^`]*`", "code", paragraph)
    paragraph = re.sub(r"\[([^\]]*)\]\([^)]*\)", r"\1", paragraph)
    return paragraph.replace("*", "")


def is_list_of_names(sentence):
    """Whether a sentence is six short pieces or more."""
    pieces = re.split(r"[,;]", sentence)
    return len(pieces) >= 6 and statistics.median(len(piece.split()) for piece in pieces) <= 3


def sentences(text):
    """Each sentence, with how many words it has."""
    for paragraph in paragraphs(text):
        for sentence in re.split(r"(?<=[.!?])\)?\s+(?=[\"(]?[A-Z0-9`]|code)", plain(paragraph)):
            words = [word for word in sentence.split() if re.search(r"\w", word)]
            if words and not is_list_of_names(sentence):
                yield len(words), sentence


def broken_links(path, text):
    """The targets of links that lead to no file or to no heading."""
    for target in re.findall(r"\]\(([^)\s]+)\)", without_fences(text)):
        if re.match(r"[a-z]+:", target):
            continue
        file, _, anchor = target.partition("#")
        goal = (path.parent / file).resolve() if file else path
        if not goal.exists():
            yield target
        elif anchor and anchor not in anchors(goal):
            yield target


def anchors(path):
    """What a link can name in a document: its headings."""
    for line in without_fences(path.read_text()).split("\n"):
        if line.startswith("#"):
            yield decisions.anchor_of(line.lstrip("# "))


def wide_lines(text):
    """The lines over 120 columns, with their numbers. A row of a table, code and a diagram may be wider."""
    for number, line in enumerate(without_fences(text).split("\n"), 1):
        if len(line) > MOST_COLUMNS and not line.lstrip().startswith("|"):
            yield number, line


def faults_of(path, text, found):
    """What is wrong with a document whose sentences were found."""
    median = statistics.median([count for count, _ in found] or [0])
    faults = [f"the median is over {MOST_MEDIAN}"] if median > MOST_MEDIAN else []
    faults += [f"{count} words: {sentence}" for count, sentence in found if count > MOST_WORDS]
    faults += [f"line {number}: {len(line)} columns" for number, line in wide_lines(text)]
    return faults + [f"a link leads nowhere: {target}" for target in broken_links(path, text)]


def check_documents():
    """Prints a line for each document, and what is wrong with it. Whether nothing is."""
    good, own, all_words = True, [0, 0], [0, 0]
    print(f"{'document':28}{'sentences':>10}{'median':>8}{'longest':>9}{'by hand':>9}{'made':>8}")
    for path in documents():
        text = path.read_text() if path.exists() else ""
        found = list(sentences(text))
        lengths = [count for count, _ in found] or [0]
        numbers = f"{len(found):>10}{statistics.median(lengths):>8g}{max(lengths):>9}"
        words = words_of_document(text)
        print(f"{str(path.relative_to(ROOT)):28}{numbers}{words[0]:>9}{words[1]:>8}")
        all_words = [sum(pair) for pair in zip(all_words, words)]
        own = own if path.relative_to(ROOT).parts[0] == "examples" else all_words
        faults = faults_of(path, text, found) if path.exists() else ["is missing"]
        good = good and not faults
        print("".join(f"  {fault}\n" for fault in faults), end="")
    print(f"{'words without examples/':55}{own[0]:>9}{own[1]:>8}\n{'words':55}{all_words[0]:>9}{all_words[1]:>8}")
    return good


def words_of_document(text):
    """How many words were written by hand, and how many a tool made."""
    whole, by_hand = made_parts.words(text), made_parts.words(made_parts.by_hand(text))
    return by_hand, whole - by_hand


# A measured figure. Milliseconds, seconds and octets are limits as well, which are said where a reader needs them.
FIGURE = re.compile(r"(?<![\w.,])([0-9]+(?:[.,][0-9]+)*) (ns|us|minutes|kB|MB|GB|percent)\b")


def figures(path):
    return {" ".join(found) for found in FIGURE.findall(without_fences(path.read_text()))}


def check_figures():
    """Prints which measured figures of README another document has, too. Whether none does."""
    readme, *others = documents()
    doubled = [(one, path) for path in others for one in sorted(figures(readme) & figures(path))]
    print(f"{len(doubled)} figures of README in other documents")
    for figure, path in doubled:
        print(f"       {figure}: {path.relative_to(ROOT)}")
    return not doubled


def check_index():
    """Prints whether the index of DECISIONS is stale. Whether it isn't."""
    text = decisions.DOCUMENT.read_text()
    is_stale = text != decisions.document(text)
    print("the index of DECISIONS is stale: run `tools/bridge make decisions`" if is_stale else "the index is current")
    return not is_stale


# Sources


def body_of(lines, first, indent):
    """The line at which the body of a function opens, if it has one that isn't empty."""
    depth = 0
    for at in range(first, len(lines)):
        line = lines[at]
        if line == indent + "{" or re.search(r"\)( -> .*)? \{$", line):
            return at
        # A clause may hold a record over several lines, whose fields end in semicolons.
        depth += line.count("{") - line.count("}")
        if not line or line.endswith("{}") or (line.endswith(";") and depth == 0):
            return None
    return None


def parameters(signature):
    """How many parameters a function has beside `self`, `rt` and `alloc`, by the text from its name on."""
    depth, begun, found = 0, False, [""]
    for before, letter in zip(" " + signature, signature):
        depth -= letter in ")]}" or letter == ">" and before != "-"
        if begun and depth == 0:
            break
        if begun and depth == 1 and letter == ",":
            found.append("")
        elif begun:
            found[-1] += letter
        depth += letter in "([{<"
        begun = begun or letter == "(" and depth == 1
    return sum(bool(one.strip()) and not re.match(r"\s*(&?('\w+ )?(mut )?self\b|(rt|alloc):)", one) for one in found)


def wrapped(body):
    """How many lines the layout adds to arms of a match that are one expression, too long for their pattern's line."""
    arms = zip(body, body[1:], body[2:])
    return 2 * sum(
        first.endswith(" => {") and last == re.match(r" *", first).group() + "}" for first, _, last in arms
    )


def functions(lines):
    """The name of each function with a body, how many lines that has, and how many parameters."""
    for first, line in enumerate(lines):
        begun = re.match(r"(\s*)(?:pub(?:\([^)]*\))? )?(?:const )?fn (\w+)", line)
        if not begun:
            continue
        indent, name = begun.groups()
        opened = body_of(lines, first, indent)
        if opened is not None:
            closed = lines.index(indent + "}", opened)
            count = closed - opened - 1 - wrapped(lines[opened + 1 : closed])
            yield name, count, parameters("\n".join(lines[first : opened + 1])[begun.end() :])


def print_longest(found):
    """Prints (length, where), the longest first."""
    for length, where in sorted(found, reverse=True):
        print(f"  {length:4} {where}")


def check_sources():
    """Prints how long functions and files of src/ are. Whether none is too long."""
    all_functions, long_files = [], []
    made = [SOURCES / f"{name}.rt" for name in PARTS]
    for path in [*sorted(CRATES.glob("*/src/**/*.rt")), *sorted(WEB.iterdir())]:
        lines, where = path.read_text().splitlines(), str(path.relative_to(ROOT))
        if len(lines) > MOST_LINES_OF_FILE and path not in made:
            long_files.append((len(lines), where))
        all_functions += [(length, count, f"{where}: {name}") for name, length, count in functions(lines)]
    long_functions = [(length, where) for length, _, where in all_functions if length > MOST_LINES_OF_FUNCTION]
    wide_functions = [(count, where) for _, count, where in all_functions if count > MOST_PARAMETERS]
    median = statistics.median(length for length, _, _ in all_functions)
    print(
        f"{len(all_functions)} functions, median {median:g} lines of body, {len(long_functions)} over "
        f"{MOST_LINES_OF_FUNCTION}"
    )
    print_longest(long_functions)
    print(f"{len(wide_functions)} functions with over {MOST_PARAMETERS} parameters")
    print_longest(wide_functions)
    print(f"{len(long_files)} files over {MOST_LINES_OF_FILE} lines")
    print_longest(long_files)
    return not (long_functions or wide_functions or long_files)


def files_with_lines():
    """The files of which a line may not be too long."""
    yield from sorted(CRATES.glob("*/src/**/*.rt"))
    yield from sorted(path for folder in ("specs", "proofs") for path in CRATES.glob(f"*/{folder}/**/*.antt"))
    yield from sorted(path for path in TOOLS.glob("**/*") if path.is_file() and "__pycache__" not in path.parts)
    yield from [*sorted(WEB.iterdir()), ROOT / "confbridge", ROOT / ".ci" / "run"]


def check_lines():
    """Prints which lines are too long. Whether there are none."""
    found = []
    for path in files_with_lines():
        for number, line in enumerate(path.read_text().split("\n"), 1):
            if len(line) > MOST_COLUMNS and not ONE_TEXT.fullmatch(line):
                found.append(f"{path.relative_to(ROOT)}:{number}: {len(line)} columns")
    return tell(found, f"lines over {MOST_COLUMNS} columns")


def homes_of(pairs, least):
    """The names among (name, home) that have so many homes, with these."""
    homes = collections.defaultdict(list)
    for name, home in pairs:
        if home not in homes[name]:
            homes[name].append(home)
    return {name: found for name, found in sorted(homes.items()) if len(found) >= least}


def type_names():
    """The types of the bridge's crates, public or not, with their homes."""
    for crate in bridge_crates():
        for path in sorted((CRATES / crate / "src").glob("**/*.rt")):
            for name in re.findall(r"^(?:pub(?:\([^)]*\))? )?(?:struct|enum|trait|type) (\w+)", path.read_text(), re.M):
                yield name, crate


def definition_names():
    """The words of definitions, with their homes."""
    for crate, path in definition_files():
        for name in words_of(path.read_text().splitlines()):
            yield name, f"{crate}/{path.stem}"


def check_names():
    """Prints which names have more homes than one meaning needs. Whether none has."""
    doubled = {
        "types with two homes": homes_of(type_names(), 2), "words with three homes": homes_of(definition_names(), 3)
    }
    for what, found in doubled.items():
        print(f"{len(found)} {what} or more")
        for name, homes in found.items():
            print(f"       {name}: {', '.join(homes)}")
    return not any(doubled.values())


# Examples

# One or more names in backquotes, and the crate that has them.
NAMED_CALLS = re.compile(r"((?:`\w+`(?:, and |, | and | ))+)of (\w+)")


def opening_of(path):
    """The comment with which a file begins."""
    lines = itertools.takewhile(lambda line: line.startswith("//!"), path.read_text().splitlines())
    return "\n".join(line[3:].strip() for line in lines)


def functions_of(crate):
    """The names of all functions of a crate."""
    return {
        name
        for path in (CRATES / crate / "src").glob("**/*.rt")
        for name in re.findall(r"\bfn (\w+)", path.read_text())
    }


def missing_calls(path):
    """The functions that the comment of a file names, and that their crates don't have."""
    for names, crate in NAMED_CALLS.findall(without_fences(opening_of(path)).replace("\n", " ")):
        if (CRATES / crate).is_dir():
            for name in sorted(set(re.findall(r"`(\w+)`", names)) - functions_of(crate)):
                yield f"{path.relative_to(ROOT)}: {crate} has no function `{name}`"


def check_examples():
    """Prints which lib.rt has no example, and which functions of other crates it names in vain. Whether there are
    none."""
    faults = []
    for path in sorted(CRATES.glob("*/src/lib.rt")):
        if path.parts[-3] in bridge_crates() and "```rust" not in opening_of(path):
            faults.append(f"{path.relative_to(ROOT)}: no example")
        faults += missing_calls(path)
    return tell(faults, "faults of examples in lib.rt")


def check_made():
    """Prints which sources aren't what the page's web files make. Whether there are none."""
    found = [f"{path.relative_to(ROOT)}: run `tools/bridge make page`" for path in stale()]
    return tell(found, "sources of the page are stale")


def stands(file, old):
    """Whether a text stands once in a file of crates/."""
    return (CRATES / file).is_file() and (CRATES / file).read_text().count(old) == 1


def check_edits():
    """Prints which edits and plants can't be made any more. Whether there are none."""
    plants = [f"plant {name}: {file}" for name, (file, old, _) in PLANTS.items() if not stands(file, old)]
    return tell(edits.stale() + plants, "edits can't be made")


def imported(path):
    """The names of the modules that a source in Python imports."""
    for node in ast.walk(ast.parse(path.read_text())):
        if isinstance(node, ast.Import):
            yield from (one.name for one in node.names)
        elif isinstance(node, ast.ImportFrom):
            yield node.module


def check_folders():
    """Prints which tools import a folder of tools/ that theirs may not. Whether none does."""
    found = []
    for path in sorted(TOOLS.glob("*/**/*.py")):
        folder = path.relative_to(TOOLS).parts[0]
        others = MAY_IMPORT.keys() - {folder, *MAY_IMPORT[folder]}
        found += [f"{path.relative_to(ROOT)}: {name}" for name in imported(path) if name.split(".")[0] in others]
    return tell(found, "imports of tools that their folder may not have")


def check_order():
    """Prints which crates that are there to check sort before one of the product. Whether none does."""
    product = bridge_crates()
    found = [name for name in crates() if name not in product and name < max(product)]
    return tell(found, "crates that are there to check sort before the product's")


def run(args):
    good = [args.sources or check() for check in (check_documents, check_figures, check_index)]
    if not args.docs:
        print()
        good += [check_sources(), check_lines(), check_names(), check_examples(), check_made(), check_edits()]
        good += [check_order(), check_folders()]
    return 0 if all(good) else 1
