"""Tries the cases of scripts, calls, codecs and sockets.

The programs of x_cases_files and x_cases_bridge are built without proofs. Sections of scripts that take them too long
are left out: those that fill the desk's tables and its log, and those of many datagrams and random calls. A program
that doesn't answer within the toolchain's time, as on a busy machine, says nothing of its cases: this is printed, and
is no failure.

Cases by sums are scripts too long to be kept. Each is a line of sums.txt beside this tool, as `tools/bridge make script
--sum` prints it: the SHA-256 of the output, its octets, and the arguments with which `make script` makes the script.
They are tried where there is a program, since one without proofs prints too little.

The program of x_cases_front is one that `rt ci` built. It runs the same cases on bridges of 1, 2, 4 and 16 lanes and
has to print the same each time. What differs is tried once more, by itself. Where the program is named, its cases alone
are tried.
"""

import argparse
import concurrent.futures
import functools
import hashlib
import pathlib
import subprocess
import tempfile

from checks.make import script
from operators.shared import CRATES, add_program, case_files, found_program, release_program, replay, tried

NEEDS = "`rt`, three minutes; with BINARY that program, a minute"

# Sections of the scripts of x_cases_files that take too long.
LONG = {"no desk", "many datagrams", "large requests and reports", "random calls", "lines of 8,388,608 octets"}
# The lanes of the bridges of x_cases_front whose case doesn't say how many. All are tried side by side.
LANES = [1, 2, 4, 16]
# The cases by sums.
SUMS = pathlib.Path(__file__).with_name("sums.txt")
# After this many seconds a program has not answered, as in the gate.
SECONDS = 120


def options(parser):
    add_program(parser, "x_cases_front")


def short_sections(text):
    """The text without its long sections. A section begins with its name behind two stars."""
    kept, is_long = [], False
    for line in text.splitlines(keepends=True):
        if line.startswith("** "):
            is_long = line[3:].strip() in LONG
        if not is_long:
            kept.append(line)
    return "".join(kept)


def are_good(crate, text, kinds=""):
    """Whether a program finds no case that differs. Prints what it says of these kinds of cases."""
    run = tried(crate, [], text)
    said = run.stdout + run.stderr
    counts = [line for line in said.splitlines() if line.endswith(" cases, 0 differ")]
    if counts:
        print(f"{crate}{kinds}: {counts[-1]}")
    elif "did not end within the time limit" in said:
        print(f"{crate}{kinds}: no answer in time")
    else:
        print(said)
        return False
    return True


def are_scripts_good():
    """Whether x_cases_files finds no script that differs, the long sections apart."""
    with tempfile.TemporaryDirectory() as folder:
        paths = []
        for path in case_files("scripts"):
            paths.append(pathlib.Path(folder) / path.name)
            paths[-1].write_text(short_sections(path.read_text()))
        return are_good("x_cases_files", "".join(f"scripts {path}\n" for path in paths), " of scripts")


def said_on_lanes(program, lanes):
    """What x_cases_front prints where bridges have so many lanes."""
    with (CRATES / "x_cases_front" / "stdin").open() as cases:
        try:
            run = subprocess.run(
                [program, str(lanes)], stdin=cases, capture_output=True, text=True, timeout=SECONDS, check=False
            )
        except subprocess.TimeoutExpired:
            return f"no answer in {SECONDS} s\n"
    return run.stdout + run.stderr


def are_good_on_lanes(program):
    """Whether x_cases_front prints what it has to with each number of lanes. Prints what it says."""
    wanted = (CRATES / "x_cases_front" / "stdout").read_text()
    with concurrent.futures.ThreadPoolExecutor() as pool:
        said = list(pool.map(functools.partial(said_on_lanes, program), LANES))
    is_good = True
    for lanes, text in zip(LANES, said, strict=True):
        print(f"x_cases_front on lanes {lanes}: {text}", end="")
        if text != wanted:
            # Four programs with their threads keep a machine of two processors busy, and the cases have moments.
            text = said_on_lanes(program, lanes)
            print(f"x_cases_front on lanes {lanes}, again, by itself: {text}", end="")
        is_good = is_good and text == wanted
    return is_good


def are_good_without_proofs():
    """Whether the programs that are built without proofs find no case that differs."""
    asked = "".join(f"{kind} {path}\n" for kind in ("codecs", "streams") for path in case_files(kind))
    good = [
        are_good("x_cases_files", asked, " of codecs and streams"),
        are_scripts_good(),
        are_good("x_cases_bridge", (CRATES / "x_cases_bridge" / "stdin").read_text()),
        have_their_sums(found_program(None)),
    ]
    return all(good)


def has_its_sum(program, case):
    """Whether the output of a script has the sum that its case says. Prints what it has."""
    wanted, size, *words = case.split(" ")
    parser = argparse.ArgumentParser()
    script.options(parser)
    lines = replay(script.lines_of(parser.parse_args(words)), program)
    printed = "".join(f"{line}\n" for line in lines).encode()
    got = hashlib.sha256(printed).hexdigest()
    print(
        f"make script {' '.join(words)}: "
        f"{'its sum' if got == wanted else f'{got} {len(printed)}, wanted {wanted} {size}'}"
    )
    return got == wanted


def have_their_sums(program):
    """Whether all cases by sums have their sums."""
    if program:
        return all([has_its_sum(program, case) for case in SUMS.read_text().splitlines()])
    print("cases by sums: not tried, since there is no program that is newer than the sources")
    return True


def run(args):
    if args.binary:
        return 0 if are_good_on_lanes(release_program(args.binary)) else 1
    is_good = are_good_without_proofs()
    program = found_program(None, "x_cases_front")
    if program:
        is_good = are_good_on_lanes(program) and is_good
    else:
        print("x_cases_front: not tried, since there is no program that is newer than the sources")
    return 0 if is_good else 1
