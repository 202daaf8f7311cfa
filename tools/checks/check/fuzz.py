"""Compares what the bridge says of mutated input with readers of its own.

INPUT is one of
  datagrams RTP packets and RTCP compounds, by `rx` lines of `replay`, with waits between them: whether each is read, or
  its first fault fields these, by the program of crates/x_cases_files: each field that is read, and what compounds are
  written as lines       operators' lines, over a connection to a served bridge
  scripts     lines of scripts, besides frames, each by a `replay` of its own: some hundred a second
  settings    TOML texts, by the program of crates/x_cases_front
  captures    captures for `explain` and `watch`: none ends in a traceback, or takes over 60 s of a processor

Each input is a case of the repository that is changed at one to four places, or joined with another. The readers are
plain: those of tools/operators/models, and Python's `tomllib`. The first differences are printed. The status is 0 where
there is none. Of captures there are as many as a minute allows, where no --count says how many.
"""

import concurrent.futures
import random
import re
import socket
import subprocess
import tempfile
import time

from checks.explain.mutants import Captures, said_of
from checks.models.told import told_of
from operators.models.codec import Dropped, read_rtcp, read_rtp
from operators.models.lines import ALONE, fault_of_line, fault_of_script_line, settings_of
from operators.serving import settings, started
from operators.shared import CRATES, add_program, case_files, fail, release_program

NEEDS = "the program, of x_cases_files for fields, of x_cases_front for settings, none for captures; 25 s a million"

# The programs that answer, where it isn't the bridge's.
PROGRAMS = {"fields": "x_cases_files", "settings": "x_cases_front"}
BATCH = 20_000
MOST_SHOWN = 20
# How long captures are tried, in seconds.
MOST_SECONDS = 60
TELLING = [0, 1, 2, 3, 7, 8, 31, 32, 127, 128, 129, 192, 200, 201, 202, 203, 204, 205, 206, 207, 223, 224, 254, 255]
PRINTED = b" /.:-0123456789abcdefghijklmnopqrstuvwxyz\t\r\x00\x7f\xc3"
TOML = b' \t\n\r"\'=.[]{},#_+-:\\0123456789abcdefxounitrlsTZ\xc3\xa9'


def options(parser):
    parser.add_argument("input", choices=list(KINDS), metavar="INPUT")
    parser.add_argument("--count", type=int, help="how many inputs (1000000, but of captures as a minute allows)")
    parser.add_argument("--seed", type=int, default=1)
    parser.add_argument("--jobs", type=int, default=1, help="on how many processors at once (%(default)s)")
    add_program(parser)


# Mutation


def changed_at(draw, data, octets):
    """A datum with one place changed."""
    at, kind = draw.randrange(len(data) + 1), draw.randrange(6)
    if kind == 0:
        return data[:at]
    if kind == 1:
        return data[:at] + bytes([draw.choice(octets)]) + data[at:]
    if kind == 2:
        return data[:at] + data[at + 1 :]
    if kind == 3:
        size = draw.randrange(1, 9)
        return data[:at] + data[at : at + size] + data[at:]
    if not data:
        return bytes([draw.choice(octets)])
    at = draw.randrange(len(data))
    new = draw.choice(octets) if kind == 4 else data[at] ^ 1 << draw.randrange(8)
    return data[:at] + bytes([new]) + data[at + 1 :]


def mutant(draw, corpus, octets):
    data = draw.choice(corpus)
    if draw.randrange(8) == 0:
        other = draw.choice(corpus)
        data = data[: draw.randrange(len(data) + 1)] + other[draw.randrange(len(other) + 1) :]
    for _ in range(draw.randrange(1, 5)):
        data = changed_at(draw, data, octets)
    return data


# Datagrams


def said_of_datagram(data):
    """What `replay` says of a datagram from an address that is no member's."""
    if len(data) > 8192:
        return "rx dropped TooLong"
    if len(data) < 2 or data[0] >> 6 != 2:
        return "rx dropped Neither"
    try:
        (read_rtcp if 192 <= data[1] <= 223 else read_rtp)(data)
    except Dropped as dropped:
        return f"rx dropped {dropped}"
    return "rx dropped Unknown"


def datagrams_like(draw, count):
    """Lists of datagrams that are changed cases of the codecs."""
    texts = [path.read_text() for path in case_files("codecs")]
    corpus = [bytes.fromhex(word) for text in texts for word in re.findall(r"\b(?:[0-9a-f]{2}){8,400}\b", text)]
    return batches(count, lambda: mutant(draw, corpus, TELLING) or b"\x80")


def fields(draw, count, program):
    with tempfile.NamedTemporaryFile("w", suffix=".txt") as cases:
        for data in datagrams_like(draw, count):
            cases.seek(0)
            cases.truncate()
            wanted = [told_of(it) for it in data]
            cases.writelines(f"datagram {it.hex()} => {says}\n" for it, says in zip(data, wanted))
            cases.flush()
            run = subprocess.run([program], input=f"codecs {cases.name}\n", capture_output=True, text=True, check=False)
            *said, last = run.stdout.splitlines() or [""]
            if run.returncode or not last.startswith(f"{len(data)} cases, "):
                fail(f"status {run.returncode} after {len(data)} cases, and last {last!r}; the first: {data[0].hex()}")
            got = {
                int(at): text
                for text in "\n".join(said).split(f"{cases.name}:")
                for at in re.findall(r"^([0-9]+): ", text)
            }
            yield [it.hex() for it in data], wanted, [got.get(at, says) for at, says in enumerate(wanted, 1)]


def datagrams(draw, count, program):
    for data in datagrams_like(draw, count):
        # Nothing comes of the waits.
        waits = ["", "", "", "wait 0 9.9.9.9:9 1\n"]
        script = "".join(f"{draw.choice(waits)}rx 0 9.9.9.9:9 {it.hex()}\n" for it in data)
        run = subprocess.run([program, "replay"], input=script, capture_output=True, text=True, check=False)
        yield [it.hex() for it in data], [said_of_datagram(it) for it in data], run.stdout.splitlines()


# Lines


def script_lines():
    """The lines of the cases of scripts."""
    return [line for path in case_files("scripts") for line in path.read_text().splitlines()]


def is_alone(line):
    """Whether a line asks for more or less than one line."""
    return line.split(b" ")[0].decode("latin-1") in ALONE and fault_of_line(line) is None


def said_to(answer):
    """An answer without what only a model of the desk knows."""
    return "a reply" if answer.startswith(("ok ", "no ")) else answer


def lines(draw, count, program):
    words = script_lines()
    corpus = list({re.sub(r"^\S+ \S+ ", "", it).encode() for it in words if it.startswith("desk ") and len(it) < 200})
    corpus += len(corpus) // 20 * [b"history 18446744073709551615", b"history 1"]

    def line():
        while True:
            found = mutant(draw, corpus, PRINTED).replace(b"\n", b"").rstrip(b"\r")
            if not is_alone(found) and len(found) < 4096:
                return found

    with tempfile.TemporaryDirectory() as folder:
        bridge, _, port = started(program, settings(folder))
        with socket.create_connection(("127.0.0.1", port)) as connection:
            answers = connection.makefile("r", newline="\n")
            for data in batches(count, line, 2_000):
                connection.sendall(b"".join(it + b"\n" for it in data))
                got = [said_to(answers.readline().rstrip("\n")) for _ in data]
                yield [repr(it) for it in data], [fault_of_line(it) or "a reply" for it in data], got
            connection.sendall(b"stop\n")
        bridge.wait(10)


# Lines of scripts


def said_of_script(program, line):
    """The fault that `replay` tells of a line, if it tells one."""
    run = subprocess.run([program, "replay"], input=line + b"\n", capture_output=True, check=False)
    if (run.returncode == 0) == (run.stderr == b"") and run.returncode in (0, 1):
        return run.stderr.decode().strip().removeprefix("confbridge: ") or None
    return f"status {run.returncode}, {run.stderr!r}"


def scripts(draw, count, program):
    texts = [it.removeprefix("-- ") for it in script_lines()]
    words = ("desk ", "rx ", "wait ", "tick ", "report ", "show", "item", "#")
    corpus = list(
        {it.encode() for it in texts if it.startswith(words) and len(it) < 200 and it.isascii() and "{" not in it}
    )
    corpus += len(corpus) // 6 * [
        b"wait 18446744073709551615 255.255.255.255:65535 4294967295", b"wait 0 10.0.0.1:5000 101",
        b"bridge 4294967295 " + 255 * b"c" + b" renew", b"bridge 0 a", b"bridge 7 conf renew",
    ]  # fmt: skip

    def line():
        while True:
            found = mutant(draw, corpus, PRINTED).replace(b"\n", b"")
            if not found.startswith((b"frame", b"item frame")):
                return found

    for data in batches(count, line, 500):
        yield [repr(it) for it in data], [fault_of_script_line(it) for it in data], [
            said_of_script(program, it) for it in data
        ]


# Settings

ADDRESSES = 'udp = "127.0.0.1:5004"\ntcp = "127.0.0.1:7000"\n'
# Forms of TOML that no case has.
FORMS = [
    "lanes = 0x1_0", "lanes = +2", "lanes = 0b10", "operators = 0o17", "operators = 1_6", "report_ms = 1_000",
    "lanes = 1e1", "lanes = -inf", "lanes = nan",
    "cname = 'a b'", 'cname = """\na\\\n  b"""', "cname = '''\na'b'''", 'cname = "\\u0061\\U00000062\\t"',
    '"cname" = "a"', "'lanes' = 2",
    "lanes = true", "lanes = [1, 2,]", "lanes = { a = 1 }", "more.lanes = 1", "[more]\nlanes = 1", "[[more]]\n[[more]]",
    "[a.b]\n[a]", "\tlanes\t=\t2 # two",
]  # fmt: skip
# What is not judged: what a float past all floats is, TOML doesn't say. tomllib reads TOML 1.0, and some escapes, times
# without seconds, and line ends and last commas in inline tables are of 1.1. Python alone takes some other characters
# for line ends.
NOT_JUDGED = re.compile(
    r" > |[\x85\u2028\u2029\x0b\x0c\x1c-\x1e]|[eE][+]?[0-9_]{3}|\\[ex]|\{(?:(?s:.*)\n(?s:.*)\}|[^}]*,\s*\})"
    r"|(?<![0-9:+.-])[0-9]{2}:[0-9]{2}(?![0-9:])"
)


def escaped(text):
    return text.replace("\\", "\\\\").replace("\r", "\\r").replace("\n", "\\n") + "\\"


def said_of_settings(program, asked):
    """Which of these lines of x_cases_front come out otherwise. Ends where the program has not read them all."""
    run = subprocess.run([program], input="".join(f"{it}\n" for it in asked).encode(), capture_output=True, check=False)
    *differ, last, rest = ["", *run.stdout.decode(errors="replace").split("\n")]
    differ = set(differ[1:])
    if run.returncode or rest or last != f"{len(asked)} lines, {len(differ)} differ" or not differ <= set(asked):
        fail(f"status {run.returncode} after {len(asked)} settings, and last {last!r}; the first: {asked[0]}")
    return differ


def texts(draw, count, program):
    cases = (CRATES / "x_cases_front" / "stdin").read_text().splitlines()
    given = [it[9:].split(" > ")[0] for it in cases if it.startswith("settings ") and " > " in it]
    corpus = [it.replace("\\n", "\n").replace("\\\\", "\\").encode() for it in given if len(it) < 300]
    corpus += [f"{before}{it}\n".encode() for it in FORMS for before in ("", ADDRESSES)]
    had = set()

    def judged():
        """A new line of x_cases_front, with the answer that it wants."""
        while True:
            text = mutant(draw, corpus, TOML).decode(errors="ignore")
            says = "" if NOT_JUDGED.search(text) else settings_of(text)
            asked = f"settings {escaped(text)} > {says}"
            if says.isprintable() and says and asked not in had:
                had.add(asked)
                return asked, says

    for data in batches(count, judged):
        had.clear()
        asked, wanted = map(list, zip(*data))
        differ = said_of_settings(program, asked)
        yield asked, wanted, ["another" if it in differ else says for it, says in data]


# Captures


def captures(draw, count, _program):
    """So many captures, or as many as there is time for."""
    drawn, end = Captures(draw), time.monotonic() + MOST_SECONDS
    for data in batches(count or 10**9, drawn.one, 1 if not count else 20):
        yield [it.hex() for it in data], ["told"] * len(data), [said_of(it) for it in data]
        if not count and time.monotonic() > end:
            return


# All


def batches(count, made, size=BATCH):
    """Lists of made inputs, of so many in all."""
    for at in range(0, count, size):
        yield [made() for _ in range(min(size, count - at))]


KINDS = {
    "datagrams": datagrams, "fields": fields, "lines": lines, "scripts": scripts, "settings": texts,
    "captures": captures,
}  # fmt: skip


def tried(kind, seed, count, program):
    """Tries so many inputs. The first differences, how many there are, and how many inputs."""
    told, differ, tries = [], 0, 0
    for data, wanted, got in KINDS[kind](random.Random(seed), count, program):
        if len(got) != len(data):
            fail(f"{len(data)} inputs have {len(got)} answers")
        found = [f"{one}: wanted {says}, got {said}" for one, says, said in zip(data, wanted, got) if says != said]
        differ, tries = differ + len(found), tries + len(data)
        told += found[: MOST_SHOWN - len(told)]
    return told, differ, tries


def run(args):
    is_of_tools = args.input == "captures"
    program = None if is_of_tools else release_program(args.binary, PROGRAMS.get(args.input, "confbridge"))
    count = args.count or (0 if is_of_tools else 1_000_000)
    counts = [count // args.jobs + (job < count % args.jobs) for job in range(args.jobs)]
    with concurrent.futures.ProcessPoolExecutor(args.jobs) as pool:
        parts = [
            pool.submit(tried, args.input, f"{args.seed} {job}", count, program) for job, count in enumerate(counts)
        ]
        results = [part.result() for part in parts]
    differ, tries = sum(found for _, found, _ in results), sum(tries for _, _, tries in results)
    print(*[line for told, _, _ in results for line in told][:MOST_SHOWN], f"{tries} inputs, {differ} differ", sep="\n")
    return 1 if differ else 0
