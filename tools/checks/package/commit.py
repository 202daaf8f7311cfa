"""The commit that a package is built from: its version, its moment and its changelog."""

import dataclasses
import os
import re
import shutil
import subprocess
import textwrap
import time

from operators.shared import ROOT, fail

# So many of the last changes stand in the changelog.
CHANGES = 100


@dataclasses.dataclass(frozen=True)
class Commit:
    """A commit by its sum, the moment that files of a package get, who looks after it, and its version in Debian's
    form."""

    name: str
    moment: int
    maintainer: str
    version: str

    def day(self):
        return time.strftime("%Y-%m-%d", time.gmtime(self.moment))


def git(*words):
    how = {"cwd": ROOT, "capture_output": True, "text": True, "check": False}
    run = subprocess.run(["git", *words], **how) if shutil.which("git") else None
    if not run or run.returncode:
        why = run.stderr.strip() if run else "there is no command `git`"
        fail(f"a package is named by its commit: {why}")
    return run.stdout.strip()


def commit_of(program, is_proved):
    """The commit of this clone. A program says the first number of the version."""
    name, moment, maintainer = git("log", "-1", "--format=%H%n%ct%n%cn <%ce>").splitlines()
    said = subprocess.run([program, "--version"], capture_output=True, text=True, check=False).stdout
    first = re.fullmatch(r"confbridge ([0-9.]+)\n", said)
    if not first:
        fail(f"{program} says no version, but {said!r}")
    moment = int(os.environ.get("SOURCE_DATE_EPOCH", moment))
    marks = (".changed" if git("status", "--porcelain") else "") + ("" if is_proved else ".unproved")
    when = time.strftime("%Y%m%d.%H%M%S", time.gmtime(moment))
    return Commit(name, moment, maintainer, f"{first[1]}+{when}.{name[:8]}{marks}-1")


def changelog(commit):
    """The last changes in the form of Debian's changelog (deb-changelog(5))."""
    subjects = git("log", f"-{CHANGES}", "--format=%s").splitlines()
    changes = [
        textwrap.fill(subject, 76, initial_indent="  * ", subsequent_indent="    ", break_on_hyphens=False)
        for subject in subjects
    ]
    when = time.strftime("%a, %d %b %Y %H:%M:%S +0000", time.gmtime(commit.moment))
    lines = [
        f"confbridge ({commit.version}) unstable; urgency=medium", "", f"  * Of commit {commit.name}.", *changes, "",
        f" -- {commit.maintainer}  {when}", "",
    ]  # fmt: skip
    return "\n".join(lines)
