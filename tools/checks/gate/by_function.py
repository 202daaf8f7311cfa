"""Tries wrong bodies by the proofs of the functions that they stand in, over the libraries that `rt ci` built.

A body changes no contract, so the proof of no other function sees it: callers go by the contract. The gate has proved
the crate as it stands, so a function that is no longer proved is refused for its edit. One process tries edits of
several functions of which none reaches another by calls, since a function whose callee isn't proved has no verdict of
its own. Where the function is still proved, or the edit stands in no function (in a constant, say), nothing is known of
the edit here.
"""

import collections
import os
import pathlib
import re
import shutil
import subprocess
import tempfile
from typing import NamedTuple

from operators.shared import CRATES, crates, crates_below

# What is called in a line of code. A method of these names is mostly one of the standard library.
CALL = re.compile(r"(?<![\w.])(\w+)(?:::<[^()]*>)?\(|\.(?!(?:new|len|get|push|iter|next|find|take|read)\b)(\w+)\(")
FUNCTION = re.compile(r"^( *)(?:pub(?:\([^)]*\))? )?(?:const |unsafe )*fn (\w+)", re.M)
IMPL = re.compile(r"^( *)impl\b(?:<.*?>(?= ))? (?:([\w:]+)(?:<.*>)? for )?&?(?:'\w+ )?(?:mut )?([\w:]+)", re.M)
# What a check prints of a function, and of a goal or a fault in a file.
VERDICT = re.compile(r"fn \w+::(?P<name>\S+): (?P<said>.*)")
TOLD = re.compile(
    r"(?:note: )?(?:\./)?(?P<path>(?:src|proofs)/\S+?):\d+:\d+: (?P<text>(?:error|it is not proved that).*)"
)
# A proof file that names what an edit took away says little of the contract.
BY_FORM = re.compile(r"has no field|is not in scope|has no `|was not admitted")


# With more lists of edits than these, a crate's functions are proved once before.
MOST_UNPREPARED = 3


class Edit(NamedTuple):
    """A wrong body: its file, the pairs of texts that it exchanges, and the functions that these stand in."""

    file: pathlib.Path
    pairs: list
    functions: frozenset


def kit():
    """The folder of the toolchain."""
    page = subprocess.run(["rt", "doc"], capture_output=True, text=True, check=True).stdout.strip()
    return pathlib.Path(page).parent


def check_words(crate, home):
    """How the prover is called for a crate, over libraries that are built. None where one of them isn't."""
    known, below = crates(), crates_below(crate) - {crate}
    built = {name: CRATES / name / "out" / "rlib" for name in below}
    if not all((folder / f"{name}.rlib" / "format").is_file() for name, folder in built.items()):
        return None
    root = "src/main.rt" if (CRATES / crate / "src/main.rt").is_file() else "src/lib.rt"
    words = [str(home / "bin" / "rattle"), "check", "--crate-name", crate, root]
    for name in ["std", *known[crate]]:
        words += ["--extern", f"{name}={built.get(name, home / 'rlibs') / f'{name}.rlib'}"]
    for folder in [home / "rlibs", *(built[name] for name in known if name in below)]:
        words += ["-L", f"dependency={folder}"]
    project = home / "rattle" / "logic" / "antt-project.json"
    return [*words, "--antt-project", str(project), "--logic-built", str(home / "logic_built"), "--links", f"{crate}="]


def function_at(path, text, place):
    """The name, or its end, by which a check knows the function at a place of a file. None where there is none."""
    before = [match for match in FUNCTION.finditer(text) if match.start() <= place]
    if not before:
        return None
    depth, name = len(before[-1][1]), before[-1][2]
    if not depth:
        return "::".join([*path.removeprefix("src/").removesuffix(".rt").split("/"), name])
    impls = [match for match in IMPL.finditer(text) if match.start() < before[-1].start()]
    if not impls:
        return None
    # A method stands in the module of its type, whatever file its impl is in: the end of its name has to do.
    trait, type_name = impls[-1][2] or "", impls[-1][3]
    return f"{type_name.split('::')[-1]}{trait.split('::')[-1]}::{name}"


def read_edit(file, texts):
    """An edit, given the texts of its crate's files by their paths."""
    pairs, functions, path, old = [], set(), None, ""
    made = dict(texts)
    for line in file.read_text().splitlines():
        word, _, text = line.partition(": ")
        if word == "file":
            path = text
        elif word == "old":
            old = text
        elif word == "new" and old in made.get(path, ""):
            functions.add(function_at(path, made[path], made[path].index(old)) if path.startswith("src/") else None)
            pairs.append((path, old, text))
            made[path] = made[path].replace(old, text)
    return Edit(file, pairs, frozenset(functions))


def with_edit(edit, texts):
    """The texts with an edit made in them, or None where one of its old texts doesn't stand there once."""
    made = dict(texts)
    for path, old, new in edit.pairs:
        if made[path].count(old) != 1:
            return None
        made[path] = made[path].replace(old, new)
    return made


def reach_of(texts):
    """For the last word of each function's name those of the functions that it calls, directly or not, as far as its
    text tells. Functions whose names end alike count as one."""
    calls = collections.defaultdict(set)
    for text in texts.values():
        code = re.sub(r"//.*", "", text)
        found = list(FUNCTION.finditer(code))
        ends = [match.start() for match in found[1:]] + [len(code)]
        for match, end in zip(found, ends):
            calls[match[2]].update(one or other for one, other in CALL.findall(code[match.end() : end]))
    reach = {name: words & calls.keys() - {name} for name, words in calls.items()}
    for through in reach:
        for name, names in reach.items():
            if through in names:
                reach[name] = names | reach[through]
    return reach


def meet(functions, others, reach):
    """Whether one of these functions is one of the others, or reaches one by calls, or the other way round."""
    ends, other_ends = [{name.rpartition("::")[2] for name in names} for names in (functions, others)]
    if ends & other_ends:
        return True
    down, up = [set().union(*(reach.get(name, ()) for name in names)) for names in (ends, other_ends)]
    return bool(down & other_ends or up & ends)


def batches(edits, texts, reach):
    """The edits in lists whose members don't meet, each with the texts that it makes."""
    found = []
    for edit in edits:
        for batch in found:
            made = None if meet(edit.functions, batch["functions"], reach) else with_edit(edit, batch["texts"])
            if made:
                batch.update(edits=[*batch["edits"], edit], functions=batch["functions"] | edit.functions, texts=made)
                break
        else:
            made = with_edit(edit, texts)
            if made:
                found.append({"edits": [edit], "functions": edit.functions, "texts": made})
    return found


def is_of(name, function):
    """Whether the name of a function as a check prints it is this function's, or that of a closure in it."""
    return re.search(rf"(^|::){re.escape(function)}(::|$)", name.replace("fn::", "")) is not None


def told_of(lines, verdicts, functions):
    """What a check says against one of these functions: the first goal above its line, back to the line before. None
    where nothing is known: it is proved, or it isn't since what it calls isn't."""
    for place, (name, said) in verdicts.items():
        if not any(is_of(name, function) for function in functions):
            continue
        above = list(range(place))[::-1]
        last = next((at for at in above if VERDICT.match(lines[at])), -1)
        told = [match for match in map(TOLD.match, lines[last + 1 : place]) if match]
        firm = [it for it in told if not (it["path"].startswith("proofs/") and BY_FORM.search(it["text"]))]
        if firm:
            return f"refused: {firm[0][0].removeprefix('note: ')}"
        if told:
            return f"refused by form: {told[0][0].removeprefix('note: ')}"
    return None


class Trial:
    """A copy of a crate in which edits are tried."""

    def __init__(self, crate, folder, home):
        self.crate = folder / "crate"
        # What a check of the crate as it stands has proved, for the checks with edits.
        self.seed = folder / "seed"
        self.kept = folder / "kept"
        self.words = check_words(crate, home)
        for part in ("src", "specs", "proofs"):
            if (CRATES / crate / part).is_dir():
                shutil.copytree(CRATES / crate / part, self.crate / part)
        self.texts = {str(path.relative_to(self.crate)): path.read_text() for path in self.crate.glob("src/**/*.rt")}
        self.reach = reach_of(self.texts)

    def check(self, texts, functions, kept):
        """The lines that the prover prints of these functions in a crate with these texts."""
        for path, text in texts.items():
            if (self.crate / path).read_text() != text:
                (self.crate / path).write_text(text)
        only = [word for name in sorted(functions) for word in ("--only", name)]
        words = [*self.words, "--incremental", str(kept), "--jobs", "1", *only]
        ran = subprocess.run(words, cwd=self.crate, capture_output=True, text=True, check=False)
        return (ran.stdout + ran.stderr).splitlines()

    def prepare(self, functions):
        """Proves these functions as they stand. Those of them that a check knows by such a name."""
        known = set(functions)
        while known:
            lines = self.check(self.texts, known, self.seed)
            errors = [line for line in lines if line.startswith("rattle: error:")]
            unknown = [name for name in known if any(f"`{name}`" in line for line in errors)]
            if not unknown:
                break
            known -= set(unknown)
        return known

    def outcomes(self, batch):
        """What comes of the edits of a batch, by their files. An edit of which nothing is known is left out."""
        edits = batch["edits"]
        if self.seed.is_dir():
            shutil.rmtree(self.kept, ignore_errors=True)
            shutil.copytree(self.seed, self.kept, copy_function=os.link)
        lines = self.check(batch["texts"], batch["functions"], self.kept)
        matches = [(place, VERDICT.match(line)) for place, line in enumerate(lines)]
        verdicts = {place: (match["name"], match["said"]) for place, match in matches if match}
        if not verdicts and len(edits) > 1:
            # One of them can't be read.
            halves = [again for part in (edits[::2], edits[1::2]) for again in batches(part, self.texts, self.reach)]
            return {file: said for half in halves for file, said in self.outcomes(half).items()}
        found = {edit.file: told_of(lines, verdicts, edit.functions) for edit in edits}
        return {file: said for file, said in found.items() if said}


def tried(crate, files, is_over):
    """What comes of a crate's edits, by their files, as long as time is left. An edit of which nothing is known is left
    out."""
    with tempfile.TemporaryDirectory(prefix="edits-") as folder:
        trial = Trial(crate, pathlib.Path(folder), kit())
        if trial.words is None:
            return {}
        edits = [read_edit(file, trial.texts) for file in files]
        edits = [edit for edit in edits if edit.pairs and None not in edit.functions]
        if len(batches(edits, trial.texts, trial.reach)) > MOST_UNPREPARED:
            known = trial.prepare(name for edit in edits for name in edit.functions)
            edits = [edit for edit in edits if edit.functions <= known]
        found = {}
        # The texts do not tell all calls. Where one of the same batch is called, nothing is known: each alone then.
        for alone in (False, True):
            left = [edit for edit in edits if edit.file not in found]
            parts = [[edit] for edit in left] if alone else [left]
            for batch in (batch for part in parts for batch in batches(part, trial.texts, trial.reach)):
                if not is_over():
                    found.update(trial.outcomes(batch))
        return found
