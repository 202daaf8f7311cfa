"""Writes the tables of docs/PERFORMANCE.md from the results that are kept in docs/results.

A file of results begins with who measured (`by`), on which machine, what else ran (`while`), and the commit, if it is
one for all rows. Behind an empty line stand the columns and the rows. A figure is what a tool printed, and nobody edits
it in the document. A goal is in bold where it is missed. It is one for the figure where it has a unit, or where the row
has no ratio or the goal is over 1,000; else it is one for the ratio. `goal: COLUMN, .. at most FIGURE` gives a goal to
whole columns, whose cells are in bold where they miss it.
"""

import re
import textwrap

from checks import made_parts
from operators.shared import ROOT, fail

NEEDS = "nothing"

DOCUMENT = ROOT / "docs" / "PERFORMANCE.md"
RESULTS = ROOT / "docs" / "results"
KEYS = ["by", "machine", "while", "commit", "goal"]
NUMBER = re.compile(r"\d[\d,]*(?:\.\d+)?")
# What a goal is for, where it is none for a ratio.
FIGURES = ["Time", "Figure", "Instructions"]


def numbers_in(text):
    return [float(found.replace(",", "")) for found in NUMBER.findall(text)]


def misses(figure, goal):
    """Whether a figure misses a goal. Of a range the end that is worse counts."""
    reached, wanted = numbers_in(figure), numbers_in(goal)[0]
    if goal.startswith("at least"):
        return min(reached) < wanted
    if goal.startswith("under"):
        return max(reached) >= wanted
    return max(reached) > wanted


def judged(cells):
    """A row by its columns, with its goal in bold where it is missed."""
    goal = cells.get("Goal")
    if not goal:
        return cells
    figure = next((cells[name] for name in FIGURES if name in cells), "")
    has_unit = re.search(r"\d (?:ns|us|ms|s|percent)\b", goal)
    is_of_ratio = cells.get("Ratio") and not has_unit and numbers_in(goal)[0] <= 1000
    return {**cells, "Goal": f"**{goal}**" if misses(cells["Ratio"] if is_of_ratio else figure, goal) else goal}


def judged_by_column(cells, goal):
    """A row of which the cells of some columns are in bold where they miss these columns' goal."""
    columns, _, wanted = goal.partition(" at most ")
    missed = [name for name in columns.split(", ") if misses(cells[name], wanted)]
    return cells | {name: f"**{cells[name]}**" for name in missed}


def row(cells):
    return re.sub(r" +\|", " |", f"| {' | '.join(cells)} |") + "\n"


def cells_of(line, path):
    return [cell.strip() for cell in line.split(" |")] if " |" in line else fail(f"{path.name}: {line} has no columns")


def read(path):
    """What a file says of its results, its columns and its rows."""
    head, _, table = path.read_text().partition("\n\n")
    about = dict(line.split(": ", 1) for line in head.splitlines())
    if not {"by", "machine"} <= set(about) <= set(KEYS):
        fail(f"{path.name} says {', '.join(about)}, of {', '.join(KEYS)}")
    columns, *rows = [cells_of(line, path) for line in table.splitlines()]
    if len(set(columns)) < len(columns):
        fail(f"{path.name} has two columns of one name")
    if any(len(one) != len(columns) for one in rows):
        fail(f"{path.name} has a row of another length: {next(one for one in rows if len(one) != len(columns))}")
    return about, columns, [dict(zip(columns, one)) for one in rows]


def origin(path, about):
    """Where a table comes from, in a line."""
    commit = f", at `{about['commit']}`" if "commit" in about else ""
    beside = f", while {about['while']}" if "while" in about else ""
    said = f"[{path.stem}](results/{path.name}): {about['by']}{commit}, on {about['machine']}{beside}."
    return textwrap.fill(said, 120, break_long_words=False, break_on_hyphens=False) + "\n"


def table(path):
    """The part of the document that a file of results makes."""
    about, columns, rows = read(path)
    rows = [judged(one) for one in rows]
    if "goal" in about:
        rows = [judged_by_column(one, about["goal"]) for one in rows]
    lines = row(columns) + "|" + "---|" * len(columns) + "\n" + "".join(row(one.values()) for one in rows)
    return f"\n{lines}\n{origin(path, about)}\n"


def document():
    """The text of the document, with its tables."""
    made = {path.stem: table(path) for path in sorted(RESULTS.glob("*.txt"))}
    text = DOCUMENT.read_text()
    if sorted(made_parts.names_in(text)) != sorted(made):
        fail(f"docs/PERFORMANCE.md has the tables {made_parts.names_in(text)}, and docs/results {list(made)}")
    return made_parts.filled(text, made)


def run(_args):
    DOCUMENT.write_text(document())
    return 0
