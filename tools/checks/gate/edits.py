"""Tries wrong bodies, each of which the prover has to refuse.

An edit is a file crates/CRATE/edits/NAME.edit, in the form of crates/CRATE/must-fail/*.edit: a line 'file: src/lib.rt'
and pairs of lines 'old: TEXT' and 'new: TEXT'. Each old text stands once in that file. Without names all edits of all
crates are tried. Crates are tried side by side, each in a copy of the repository that is removed afterwards, over what
earlier checks kept in out/. An edit takes 10 to 80 seconds of a processor, and its crate's first one a whole proof.

With --single an edit is first tried by the proof of the function that it changes, over the libraries that `rt ci`
built: a body changes no contract, so no other proof sees it. Only where that proof still holds, or the edit stands in
no function, is the crate proved for it.

tools/checks/gate/refused.txt says over which text of a crate all its edits were last refused, and on which day. --note
writes it, and --due leaves such crates out.

Each edit has a line: 'refused' with the first goal that fails; 'refused by form' where only a proof file fails, which
names what the edit removed; 'NOT REFUSED'; or 'BAD EDIT' where its text can't be found or read.
"""

import datetime
import hashlib
import pathlib
import re
import shutil
import subprocess
import tempfile
import time
from concurrent.futures import ThreadPoolExecutor

from checks.gate import by_function
from operators.shared import CRATES, ROOT, crates_below, fail

NEEDS = "`rt`, minutes"

SAID = re.compile(r"rt: must-fail (?P<edit>\S+?/\S+?\.edit): (?P<said>.*)")
NOTED = pathlib.Path(__file__).with_name("refused.txt")
NOTED_HEAD = "# All edits of a crate were refused over the text with this sum, on this day (gate edits --note).\n"


def options(parser):
    parser.add_argument("--jobs", type=int, default=2, help="how many crates are tried side by side (%(default)s)")
    parser.add_argument("--gate", action="store_true", help="try the edits of must-fail/ too")
    parser.add_argument("--single", action="store_true", help="prove the changed functions alone, where that tells")
    parser.add_argument(
        "--due",
        action="store_true",
        help="try those with a line 'gate: ..', and of crates that changed since all were refused all others",
    )
    parser.add_argument("--minutes", type=int, help="after so many minutes try those with a line 'gate: ..' alone")
    parser.add_argument("--note", action="store_true", help="note the crates all of whose edits are refused")
    parser.add_argument("names", nargs="*", metavar="CRATE | CRATE/EDIT")


def is_marked(edit):
    """Whether the gate tries an edit of edits/ at each run."""
    return any(line.startswith("gate: ") for line in edit.read_text().splitlines())


def edits_of(names, gate):
    """The edits that are asked for, by their crate."""
    found = {}
    folders = sorted(CRATES.glob("*/edits/")) + sorted(CRATES.glob("*/must-fail/")) * gate
    for folder in folders:
        crate = folder.parent.name
        for edit in sorted(folder.glob("*.edit")):
            if not names or crate in names or f"{crate}/{edit.stem}" in names:
                found.setdefault(crate, []).append(edit)
    return found


def sum_of(crate):
    """A sum of what the outcome of a crate's edits stands on: its texts, its edits, and the definitions below it."""
    folders = [CRATES / crate / part for part in ("src", "specs", "proofs", "edits", "must-fail")]
    folders += [CRATES / name / "specs" for name in sorted(crates_below(crate) - {crate})]
    found = hashlib.sha256()
    for file in sorted(file for folder in folders for file in folder.rglob("*") if file.is_file()):
        found.update(str(file.relative_to(CRATES)).encode() + b"\0" + file.read_bytes())
    return found.hexdigest()[:16]


def noted():
    """The crates whose edits were all refused: the sum of what was tried, and the day."""
    lines = NOTED.read_text().splitlines() if NOTED.is_file() else []
    return {words[0]: words[1:] for words in map(str.split, lines) if len(words) == 3}


def note(names):
    """Notes that all edits of these crates were refused today."""
    today = datetime.date.today().isoformat()
    known = noted() | {crate: [sum_of(crate), today] for crate in names}
    lines = [f"{crate} {' '.join(known[crate])}\n" for crate in sorted(known) if (CRATES / crate).is_dir()]
    NOTED.write_text(NOTED_HEAD + "".join(lines))


def due(found):
    """Of these edits those that are marked, and all of the crates that changed since all were refused."""
    known = noted()
    is_new = {crate: known.get(crate, [""])[0] != sum_of(crate) for crate in found}
    left = {crate: [edit for edit in edits if is_new[crate] or is_marked(edit)] for crate, edits in found.items()}
    return {crate: edits for crate, edits in left.items() if edits}


def fault_of(edit):
    """Why an edit can't be made, or None. A further pair is made in what the earlier ones left."""
    texts, path, old = {}, None, ""
    for line in edit.read_text().splitlines():
        word, _, text = line.partition(": ")
        if word == "file":
            path = edit.parents[1] / text
            texts.setdefault(path, path.read_text() if path.is_file() else "")
        elif word == "old":
            old = text
        elif word == "new" and texts[path].count(old) != 1:
            return f"stands {texts[path].count(old)} times: {old.strip()}"
        elif word == "new":
            texts[path] = texts[path].replace(old, text)
    return None


def stale():
    """The edits that can't be made any more, those of must-fail/ among them, and why."""
    edits = [edit for found in edits_of(set(), gate=True).values() for edit in found]
    faults = {edit.relative_to(ROOT): fault_of(edit) for edit in edits}
    return [f"{edit}: {fault}" for edit, fault in faults.items() if fault]


def copy_crates(crate, edits, top):
    """Makes a repository of the crate and those below it, with these edits alone in its must-fail/."""
    needed = crates_below(crate)
    for name in needed:
        leave = shutil.ignore_patterns("must-fail", "edits", *["out"] * (name == crate))
        shutil.copytree(CRATES / name, top / "crates" / name, ignore=leave)
    folder = top / "crates" / crate / "must-fail"
    folder.mkdir()
    for edit in edits:
        shutil.copy(edit, folder)
    shutil.copy(ROOT / "HANDLES", top)
    lines = (ROOT / "crates.txt").read_text().splitlines()
    lines = [line for line in lines if line.partition(":")[0].strip() in needed]
    (top / "crates.txt").write_text("\n".join(lines) + "\n")


def outcome(said):
    """What is printed of an edit, given what the prover says of it."""
    if said is None:
        return "BAD EDIT: it was not tried"
    if not said.startswith("refused"):
        return said
    goal = said.partition(": ")[2]
    return f"refused by form: {goal}" if "only because a proof file names" in said else f"refused: {goal}"


def try_edits(crate, edits):
    """Tries a crate's edits in the whole crate, and prints a line for each. What came of each."""
    with tempfile.TemporaryDirectory(prefix="edits-") as folder:
        copy_crates(crate, edits, pathlib.Path(folder))
        run = subprocess.run(["rt", "must-fail", crate], cwd=folder, capture_output=True, text=True, check=False)
    matches = [SAID.match(line) for line in (run.stdout + run.stderr).splitlines()]
    said = {match["edit"]: match["said"] for match in matches if match}
    outcomes = {edit: outcome(said.get(f"{crate}/{edit.name}")) for edit in edits}
    lines = [f"{crate}/{edit.name}: {text}" for edit, text in outcomes.items()]
    if len(said) < len(edits):
        lines.append(f"{crate}: {run.stdout[-600:]}{run.stderr[-600:]}")
    print("\n".join(lines), flush=True)
    return outcomes


class Trials:
    """Tries edits until a moment, and counts what came of them. Marked ones are tried at any time."""

    def __init__(self, single, end):
        self.single, self.end = single, end
        # The edits that were refused, those that were not, and those for which no time was left.
        self.refused, self.wrong, self.left = set(), set(), set()

    def is_over(self):
        return time.monotonic() > self.end

    def try_some(self, crate, edits, is_over):
        """Tries edits of a crate, and prints a line for each, as long as time is left."""
        found = by_function.tried(crate, edits, is_over) if self.single and edits else {}
        for edit, said in found.items():
            print(f"{crate}/{edit.name}: {said}", flush=True)
        self.refused.update(found)
        others = [edit for edit in edits if edit not in found]
        if others and is_over():
            self.left.update(others)
        elif others:
            outcomes = try_edits(crate, others)
            self.refused.update(edit for edit in others if outcomes[edit].startswith("refused"))
            self.wrong.update(edit for edit in others if not outcomes[edit].startswith("refused"))

    def try_crate(self, crate, edits):
        self.try_some(crate, [edit for edit in edits if is_marked(edit)], lambda: False)
        self.try_some(crate, [edit for edit in edits if not is_marked(edit)], self.is_over)


def run(args):
    found = edits_of(set(args.names), args.gate)
    if not found:
        fail("there is no such edit")
    if args.due:
        found = due(found)
    trials = Trials(args.single, time.monotonic() + 60 * args.minutes if args.minutes else float("inf"))
    by_count = sorted(found, key=lambda crate: -len(found[crate]))
    with ThreadPoolExecutor(args.jobs) as pool:
        list(pool.map(lambda crate: trials.try_crate(crate, found[crate]), by_count))
    if args.note:
        whole = edits_of(set(), True)
        note([crate for crate in found if set(whole[crate]) <= trials.refused])
    if trials.left:
        crates = ", ".join(sorted({edit.parents[1].name for edit in trials.left}))
        print(f"{len(trials.left)} edits not tried, since {args.minutes} minutes are over: {crates}")
    print(f"{len(trials.refused)} edits refused, {len(trials.wrong)} not refused")
    return 1 if trials.wrong else 0
