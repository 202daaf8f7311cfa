"""Breaks the lines of specs/ and proofs/ that are over 120 columns.

The language of these files goes by indentation: a line that stands further in than the begin of its declaration goes on
with it. So what follows a break stands further in; how far is `rt fmt`'s work, which is called for each crate that was
changed. A list of imports becomes several imports, and a comment several comments. Shorter lines stay as they are.

The tool compares what a file says before and after, and leaves a file alone in which that would differ. It prints the
lines that are still too long, and the status is 1 where there are any.
"""

import re
import subprocess

from checks.terms import MOST_COLUMNS, broken, read
from operators.shared import CRATES, ROOT

NEEDS = "rt"

# How far a line stands in that goes on with the begin of a declaration.
DEEPER = 4
# `rt fmt` sets some lines further in, which are then too long again.
MOST_TIMES = 4
IMPORTS = re.compile(r"((?:pub )?use [^\s{]+\.\{)(.*)(\})")
# Behind these words at the end of a line a block begins, at the column of what follows.
OPENS_BLOCK = ("where", "do")


def options(parser):
    parser.add_argument("crates", nargs="*", metavar="CRATE", help="these crates alone")
    parser.add_argument("--folder", choices=["specs", "proofs"], help="this folder of crates alone")


class Blocks:
    """The blocks that are open at a line, by the columns of their declarations."""

    def __init__(self):
        self.columns, self.opens = [0], False

    def enter(self, line):
        """Takes the next line. Whether a declaration begins with it."""
        column = indent_of(line)
        if self.opens and column > self.columns[-1]:
            self.columns.append(column)
        while column < self.columns[-1]:
            self.columns.pop()
        words = code_of(line).split()
        self.opens = words[-1:] and words[-1] in OPENS_BLOCK
        return column == self.columns[-1]


def indent_of(line):
    return len(line) - len(line.lstrip(" "))


def is_comment(line):
    return line.lstrip().startswith("--")


def code_of(line):
    """A line without texts in quotes and without its comment."""
    return re.sub(r"(^|\s)--.*", "", re.sub(r'"(?:[^"\\]|\\.)*"', '""', line))


def comment_lines(line):
    """A comment as several, each a line of its own."""
    begin = " " * indent_of(line) + "--"
    lines = [begin]
    for word in line.strip()[2:].split():
        if len(lines[-1]) + 1 + len(word) > MOST_COLUMNS:
            lines.append(begin)
        lines[-1] += " " + word
    return lines


def import_lines(begin, names, end):
    """A list of imports as several of the same module."""
    lines = []
    for name in names.split(", "):
        if lines and len(lines[-1]) + len(", ") + len(name) + len(end) <= MOST_COLUMNS:
            lines[-1] += ", " + name
        else:
            lines.append(begin + name)
    return [line + end for line in lines]


def short_lines(line, begins):
    """The lines of one that is too long, where `begins` says whether a declaration begins with it."""
    if is_comment(line):
        return comment_lines(line)
    imports = IMPORTS.fullmatch(line)
    if imports:
        return import_lines(*imports.groups())
    if re.search(r"\s--|\bdo\b|\S  ", line):
        return [line]
    indent = indent_of(line)
    lines = broken(read(line.strip())[0], indent, indent + DEEPER if begins else indent)
    return [" " * indent + lines[0]] + lines[1:]


def goes_on(line, left):
    """Whether a comment goes on with the first of the lines that are left: no sentence ends at its end."""
    begin = " " * indent_of(line) + "-- "
    return line.startswith(begin) and line[-1] not in ".:" and bool(re.match(begin + "[^-]", left[0]))


def laid_out(text):
    """The text of a file with short lines."""
    blocks, lines, left = Blocks(), [], text.split("\n")
    while left:
        line = left.pop(0)
        begins = bool(code_of(line).strip()) and blocks.enter(line)
        new = short_lines(line, begins) if len(line) > MOST_COLUMNS else [line]
        if len(new) > 1 and goes_on(line, left):
            left[0] = new.pop() + " " + left[0].strip()[2:].strip()
        lines += new
    return "\n".join(lines)


def said(text):
    """What a file says: what its comments say, imports name by name, and its words."""
    lines = text.split("\n")
    code = "\n".join(line for line in lines if not is_comment(line))
    comments = " ".join(line.strip()[2:] for line in lines if is_comment(line)).split()
    imports = [(begin, name) for begin, names, _ in IMPORTS.findall(code) for name in names.split(", ")]
    return comments, imports, IMPORTS.sub("", code).split()


def files_of(crate, folder):
    for name in [folder] if folder else ["specs", "proofs"]:
        yield from sorted((CRATES / crate / name).glob("**/*.antt"))


def break_lines(path):
    """Breaks the long lines of a file. Whether that changed it."""
    text = path.read_text()
    new = laid_out(text) if any(len(line) > MOST_COLUMNS for line in text.split("\n")) else text
    if said(new) != said(text):
        print(f"{path.relative_to(ROOT)}: is left as it is")
        new = text
    if new != text:
        path.write_text(new)
    return new != text


def lay_out(crate, folder):
    """Lays out the files of a crate. How many lines are still too long."""
    for _ in range(MOST_TIMES):
        if not any([break_lines(path) for path in files_of(crate, folder)]):
            break
        subprocess.run(["rt", "fmt"], cwd=CRATES / crate, check=True, stdout=subprocess.DEVNULL)
    left = 0
    for path in files_of(crate, folder):
        for number, line in enumerate(path.read_text().split("\n"), 1):
            if len(line) > MOST_COLUMNS:
                left += 1
                print(f"{path.relative_to(ROOT)}:{number}: {len(line)} columns")
    return left


def run(args):
    left = sum(lay_out(crate, args.folder) for crate in args.crates or sorted(path.name for path in CRATES.iterdir()))
    print(f"{left} lines over {MOST_COLUMNS} columns")
    return 1 if left else 0
