"""Runs the command blocks of README, OPERATING, DEBUGGING, RATTLE and the examples, and compares what appears with
what they show. Compares the clauses and definitions that these pages and PROMISES quote with the sources.

A block of commands is run at the top of a clone, which is a folder of its own with links to the tree. The blocks of
text after it have to appear on standard output or standard error: as the whole of it, or in DEBUGGING and the examples
as lines one after the other. A bridge that a block starts runs on for the blocks after it; for `restore` it starts
anew, without a row. Some blocks are run with other programs in the place of those that they name
(tools/checks/substitutes.py): units are installed into a folder, sound goes into a file, and what is built is not built
again. Blocks that can't be run here are listed in this tool with their reasons, and named.

A block of Rattle (`rust`) has to stand in a source, each paragraph of definitions (`antt`) in a specification, and an
edit (`edit`) among the wrong bodies. What `./confbridge` says while it builds has to stand in that script.
"""

import contextlib
import functools
import re
import shutil
import socket
import subprocess
import tempfile

from checks.clone_folder import Folder, are_free, differs
from operators.shared import CRATES, ROOT, crates, fail, found_program

NEEDS = "`rt`; half a minute, and a minute or two where ./confbridge has to build one"


def has(*programs):
    """Whether the machine has these programs."""
    return all(shutil.which(one) for one in programs)


def is_built(crate):
    """Whether `rt ci` or `rt run` has built a program from these sources."""
    return found_program(None, crate) is not None


def may_capture():
    """Whether there is a tcpdump, and leave to capture."""
    with contextlib.suppress(OSError), socket.socket(socket.AF_PACKET, socket.SOCK_RAW):
        return has("tcpdump")
    return False


def plays(*elements):
    """Whether there is a GStreamer that has these elements."""
    inspect = ["gst-inspect-1.0", "--exists"]
    return has("gst-launch-1.0", inspect[0]) and all(
        subprocess.run([*inspect, one], check=False).returncode == 0 for one in elements
    )


def may_speak():
    ports = 6000, 6002, 6100, 6102, 6200
    return plays("mulawenc", "rtppcmupay", "rtppcmudepay", "rtpjitterbuffer") and are_free(udp=ports, tcp=())


def may_sing():
    ports = 6004, 6006, 6104, 6106, 6204
    return has("ffmpeg") and plays("rtpL16pay", "rtpL16depay", "rtpjitterbuffer") and are_free(udp=ports, tcp=())


def may_have_page():
    return is_built("desk_page") and are_free(udp=(), tcp=(7080,))


def may_have_fleet():
    return has("etcd", "curl") and are_free(udp=(5006,), tcp=(7001, 2379, 2380, 8095))


def never():
    return False


# Blocks that are not run, or not everywhere, by how they begin (the first that fits): what they take, and whether that
# is here.
TAKES = {
    "RT_JOBS=": ("all proofs; its last line is compared with the crates and edits that are there", never),
    "confbridge-tools demo": ("a package, which `check package` installs, and a sound card", never),
    "sudo cp /usr/share/confbridge/": ("a package, which `check package` installs", never),
    "examples/demo.sh --hear": ("a sound card; the demo runs until it is stopped", never),
    "(cd crates/desk_page && rt run": ("the page's program, which `rt ci` builds, and its port", may_have_page),
    "cd crates/confbridge && rt run --cpu": ("the program, which `rt ci` builds", lambda: is_built("confbridge")),
    "tools/bridge member 6000": ("GStreamer, and the members' ports", may_speak),
    "tools/bridge member 6004": ("GStreamer, ffmpeg, and the members' ports", may_sing),
    "tcpdump": ("tcpdump, and leave to capture", may_capture),
    "sudo apt install etcd-server": ("etcd, curl, and the ports of a fleet", may_have_fleet),
    "sudo apt": ("packages that the check doesn't install", never),
    "sudo install confbridge": ("the program, which `rt ci` builds", lambda: is_built("confbridge")),
    "sudo install -d /usr/local/lib/confbridge ": ("the program, which `rt ci` builds", lambda: is_built("confbridge")),
    "sudo install -D -m 644 examples/fleet/systemd/etcd.conf": (
        "etcd as a service of Debian's; `check fleet` gives one its users",
        never,
    ),
    "export FLEET_SECRET": ("Kamailio, and a fleet; `check fleet` runs both", never),
    "nc -l 127.0.0.1 9000": ("a bridge with a trace; `check trace` runs one", never),
    "sed -n 's/^lane 0": ("the trace of a bridge; `check trace` replays one", never),
    "podman-compose": ("containers, and both programs in them", never),
    "podman build": ("containers, and both programs in them", never),
}
# What stands in blocks that take the bridge of an earlier one.
ASK_A_BRIDGE = ("127.0.0.1 7000", "127.0.0.1:7000", "127.0.0.1:8095/", "tools/bridge member")


def documents():
    return [
        ROOT / "README.md",
        ROOT / "docs/OPERATING.md",
        ROOT / "docs/DEBUGGING.md",
        ROOT / "docs/RATTLE.md",
        ROOT / "docs/PROMISES.md",
        *sorted(ROOT.glob("examples/*/README.md")),
    ]


def blocks(path):
    """The blocks of a document: where each stands, its language and its text."""
    text = path.read_text()
    for found in re.finditer(r"^```(\w+)\n(.*?)^```$", text, re.M | re.S):
        yield f"{path.relative_to(ROOT)}:{text.count(chr(10), 0, found.start()) + 1}", found[1], found[2]


def reason(commands):
    """Why a block is not run, if there is a reason."""
    why, is_here = next((how for begin, how in TAKES.items() if commands.startswith(begin)), (None, None))
    return why if why and not is_here() else None


def check_said(where, text):
    """What `./confbridge` says of its building stands in it."""
    script = (ROOT / "confbridge").read_text()
    for line in text.splitlines():
        if f"say '{line.removeprefix('./confbridge: ')}'" not in script:
            fail(f"{where}: ./confbridge never says\n{line}")


# A wrong body, and the line of the clause that refuses it.
REFUSED = re.compile(r"rt: must-fail (\w+)/(\S+): refused, .* note: ([^\s:]+):(\d+):")


def check_refused(where, text):
    """The edit of a refusal is there, and a function begins at the line that it names."""
    crate, edit, file, number = REFUSED.match(text).groups()
    line = (CRATES / crate / file).read_text().splitlines()[int(number) - 1]
    if not (CRATES / crate / "must-fail" / edit).exists() or " fn " not in line:
        fail(f"{where}: {edit} isn't there, or line {number} of {file} is another one: {line}")


def check_count(where, text):
    """The last line of the gate counts the crates and the wrong bodies."""
    wanted = f"{len(crates()) + len(list(CRATES.glob('*/must-fail/*.edit')))} passed, 0 failed\n"
    if text != wanted:
        differs(where, text, wanted)


# Where a quotation has to stand, by the language of its block.
HOMES = {"rust": "*/src/**/*.rt", "antt": "*/specs/**/*.antt", "edit": "*/*/*.edit"}


# A line of a source that is a comment, and no documentation.
COMMENT = re.compile(r"^ *// .*\n", re.M)


@functools.cache
def texts_of(language):
    """The files in which a quotation may stand, without comments between clauses, and with one space for each gap."""
    return [" ".join(COMMENT.sub("", path.read_text()).split()) for path in CRATES.glob(HOMES[language])]


def check_quoted(where, language, text):
    """Each paragraph of a quotation stands in a file, however its lines are broken."""
    for part in text.split("\n\n") if language == "antt" else [text]:
        if not any(" ".join(part.split()) in one for one in texts_of(language)):
            fail(f"{where}: no file of {HOMES[language]} has\n{part}")


class Reader:
    """Goes through the blocks of a document."""

    def __init__(self, folder, path):
        self.folder, self.is_whole = folder, path.name != "DEBUGGING.md" and "examples" not in path.parts
        self.commands, self.why, self.compared, self.left_out = None, None, 0, []

    def take(self, where, language, text):
        if language == "sh":
            self.take_commands(where, text)
        elif language in HOMES:
            check_quoted(where, language, text)
            self.compared += 1
        elif language == "text" and text.startswith("rt: must-fail "):
            check_refused(where, text)
            self.compared += 1
        elif language == "text" and self.commands:
            self.take_text(where, text)

    def take_commands(self, where, text):
        self.commands, self.why = text, reason(text)
        if " serve " in text and not self.why and not (are_free() and not self.folder.bridges):
            self.why = "the ports 5004 and 7000, of which one is taken"
        if any(one in text for one in ASK_A_BRIDGE) and not self.why and not self.folder.bridges:
            self.why = "the bridge of an earlier block, which isn't run"
        if self.why:
            self.left_out.append(f"{where}: `{text.splitlines()[0]}` takes {self.why}")
        else:
            self.run_commands(where, text)
            self.compared += 1

    def run_commands(self, where, text):
        """Runs a block. Before its line that restores a desk, the bridge starts anew."""
        kept, restores, rest = text.partition("tools/bridge restore ")
        if restores:
            self.folder.run(where, kept)
            self.folder.renew(where)
        self.folder.run(where, restores + rest if restores else text)

    def take_text(self, where, text):
        if text.startswith("./confbridge: "):
            check_said(where, text)
        elif self.commands.endswith(" rt ci\n"):
            check_count(where, text)
        elif not self.why:
            self.folder.shows(where, text, self.is_whole)


def run(_args):
    compared, left_out = 0, []
    with tempfile.TemporaryDirectory(ignore_cleanup_errors=True) as path:
        folder = Folder(path)
        try:
            for document in documents():
                reader = Reader(folder, document)
                for block in blocks(document):
                    reader.take(*block)
                folder.end()
                compared, left_out = compared + reader.compared, left_out + reader.left_out
        finally:
            folder.end()
    for line in left_out:
        print(f"not run: {line}")
    print(f"{compared} blocks run or compared, {len(left_out)} not run")
    return 0
