"""What several subcommands share: the crates, the programs, replaying a script, the first difference, and costs."""

import os
import pathlib
import re
import shutil
import subprocess
import sys

ROOT = pathlib.Path(__file__).resolve().parents[2]
CRATES = ROOT / "crates"
# Where a package has its programs; its tools stand in ../share/confbridge.
INSTALLED = ROOT.parents[1] / "lib/confbridge"
# `rt try` stops a program after this many seconds where nobody says how many.
SECONDS = 300


def fail(text):
    """Ends with a message and status 1."""
    sys.exit(f"tools/bridge: {text}")


# Crates


def crates():
    """Each crate of crates.txt with what it depends on, lowest first."""
    lines = [line.partition("#")[0] for line in (ROOT / "crates.txt").read_text().splitlines()]
    parts = [line.partition(":") for line in lines if ":" in line]
    return {name.strip(): names.split() for name, _, names in parts}


def bridge_crates():
    """The crates of the bridge itself, lowest first. Cases, examples and tests follow the last comment of
    crates.txt."""
    before, _, _ = (ROOT / "crates.txt").read_text().rpartition("\n#")
    lines = [line.partition("#")[0] for line in before.splitlines()]
    return [line.partition(":")[0] for line in lines if ":" in line]


def crates_below(crate):
    """The crates of the repository that a crate depends on, and the crate itself."""
    known, found, left = crates(), set(), [crate]
    while left:
        name = left.pop()
        if name in known and name not in found:
            found.add(name)
            left += known[name]
    return found


# Programs


def add_program(parser, crate="confbridge"):
    """Adds the argument that names a program."""
    parser.add_argument(
        "binary",
        nargs="?",
        metavar="BINARY",
        help=f"the program ({f'crates/{crate}/out' if CRATES.is_dir() else INSTALLED}/{crate} if not given)",
    )


def add_program_or_build(parser):
    """Adds the arguments of a subcommand that can build the program without its proofs."""
    add_program(parser)
    parser.add_argument(
        "--seconds", type=int, default=SECONDS, help="how long a program built without proofs may run (%(default)s)"
    )


def is_current(program):
    """Whether a program is newer than all sources and the list of crates."""
    made = program.stat().st_mtime
    return all(path.stat().st_mtime <= made for path in [ROOT / "crates.txt", *CRATES.glob("*/src/**/*.rt")])


def found_program(given, crate="confbridge"):
    """The path of the program that is named, or of the one that `rt run` or `rt ci` built from these sources, or the
    package's, or None."""
    if given:
        return pathlib.Path(given).resolve()
    if not CRATES.is_dir():
        return INSTALLED / crate if (INSTALLED / crate).is_file() else None
    program = CRATES / crate / "out" / crate
    return program if program.is_file() and is_current(program) else None


def release_program(given, crate="confbridge"):
    """The path of a program that isn't built without proofs. Ends where there is none."""
    program = found_program(given, crate)
    if not program:
        fail(f"no program is newer than the sources: run `rt run` in crates/{crate}, or name one")
    if not program.is_file():
        fail(f"{program} is no program")
    return program


def try_command(words, seconds=None):
    """The command that builds a crate's program without proofs and runs it, to be started in the crate's folder."""
    if not CRATES.is_dir():
        fail(f"{INSTALLED} lacks a program that this takes")
    if not shutil.which("rt"):
        fail(
            "there is no command `rt`: install the Rattle toolchain that README.md names, and put its bin/ on the path"
        )
    limit = ["--seconds", str(seconds)] if seconds else []
    return ["rt", "try", *limit, *(["--", *words] if words else [])]


def tried(crate, words, text, seconds=None):
    """Builds a crate's program without proofs and runs it once on a text. The completed process."""
    command = try_command(words, seconds)
    return subprocess.run(command, cwd=CRATES / crate, input=text, capture_output=True, text=True, check=False)


def replay(lines, given, seconds=SECONDS):
    """What the program prints for the lines of a script."""
    text = "".join(f"{line}\n" for line in lines)
    program = found_program(given)
    if program:
        run = subprocess.run([program, "replay"], input=text, capture_output=True, text=True, check=False)
    else:
        print("building a program without proofs, which prints 1 MiB at most", file=sys.stderr)
        run = tried("confbridge", ["replay"], text, seconds)
    if run.returncode:
        fail(f"the program ended with status {run.returncode}\n{run.stderr[-2000:]}")
    return run.stdout.splitlines()


# Cases


def case_files(kind):
    """The files of a kind of cases, as the stored input of x_cases_files names them."""
    folder, begins = CRATES / "x_cases_files", f"{kind} "
    lines = (folder / "stdin").read_text().splitlines()
    return [folder / "data" / line.removeprefix(begins) for line in lines if line.startswith(begins)]


# Comparing


def first_difference(script, printed):
    """Compares what was printed with a script of (text, lines wanted). The number of lines, or None with the first
    difference told."""
    at = 0
    for number, (text, wanted) in enumerate(script, 1):
        got = printed[at : at + len(wanted)]
        if got != wanted:
            print(f"{number}, {text}: wanted", *wanted, "got", *(got or ["nothing"]), sep="\n  ")
            return None
        at += len(wanted)
    if at != len(printed):
        print(f"{len(printed) - at} lines too many")
        return None
    return at


# Costs


def compiled(source, folder):
    """The path of a program in C, compiled to a folder for the processors that the bridge's programs are built for."""
    if not shutil.which("cc"):
        fail("there is no command `cc`")
    path = f"{folder}/{source.stem}"
    subprocess.run(["cc", "-O3", "-march=x86-64-v2", "-o", path, source], check=True)
    return path


def processor_time(command, given=subprocess.DEVNULL, told=subprocess.DEVNULL):
    """The processor time that a command takes, in seconds."""
    with subprocess.Popen(command, stdin=given, stdout=told) as run:
        _, status, used = os.wait4(run.pid, 0)
        run.returncode = os.waitstatus_to_exitcode(status)
    if run.returncode:
        fail(f"{command}: status {run.returncode}")
    return used.ru_utime + used.ru_stime


def instructions(command, given, told=subprocess.DEVNULL):
    """The instructions that a command takes, counted by callgrind."""
    if not shutil.which("valgrind"):
        fail("there is no command `valgrind`")
    counting = ["valgrind", "--tool=callgrind", "--callgrind-out-file=/dev/null", *command]
    said = subprocess.run(counting, stdin=given, stdout=told, stderr=subprocess.PIPE, text=True, check=True).stderr
    return int(re.search(r"Collected : (\d+)", said)[1])


def add_measuring(parser, runs):
    """Adds the options that benches share."""
    parser.add_argument(
        "--runs", type=int, default=runs, help="how many runs of each, of which the least counts (%(default)s)"
    )
    parser.add_argument("--only", default="", metavar="WORD", help="only the rows with this word in their names")
