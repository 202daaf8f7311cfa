"""Compares the codecs' answers with a folder of cases.

FOLDER holds .txt files in the form that crates/x_cases_files/README.md describes for the codecs.

With --rx it holds what other programs sent. The bridge gets each packet as an `rx` line, and its answer is compared:
  rtp-*.txt a datagram a line, then its dissection (HEX by=.. marker= pt= seq= ts= ssrc= ..). A packet made of the
  number
               before it comes first, and ends its probation.
  trace-*.txt the numbers of a stream, with what RFC 3550 A.1 says of each (rtp NS seq= ts= expect=). Its packets are
  made
               from its numbers.
"""

import collections
import pathlib
import re
import subprocess

from operators.models.streams import Source
from operators.packets import rtp
from operators.shared import add_program_or_build, fail, found_program, replay, tried

NEEDS = "a program, of x_cases_files too, a minute"


def options(parser):
    parser.add_argument("folder", metavar="FOLDER")
    parser.add_argument("--rx", action="store_true", help="FOLDER holds what other programs sent")
    add_program_or_build(parser)


# Cases of the codecs


def check_codecs(folder, binary, seconds):
    """Runs x_cases_files over the files of a folder. The exit status."""
    paths = sorted(folder.glob("*.txt"))
    if not paths:
        fail(f"there are no .txt files in {folder}")
    text, program = "".join(f"codecs {path}\n" for path in paths), found_program(binary, "x_cases_files")
    if program:
        done = subprocess.run([program], input=text, capture_output=True, text=True, check=False)
    else:
        done = tried("x_cases_files", [], text, seconds)
    print(done.stdout, end="")
    counts = [line for line in done.stdout.splitlines() if line.endswith(" differ")]
    if done.returncode or not counts:
        fail(done.stderr or "the program gave no answer")
    return 0 if counts[-1].endswith(" 0 differ") else 1


# Packets of other programs


def fields_of(line):
    return dict(re.findall(r"(\w+)=(\S+)", line))


class Script:
    """A script with what its `rx` lines may be answered with."""

    def __init__(self):
        self.lines, self.wanted, self.counts, self.senders = ["desk 0 add-room 1"], [], collections.Counter(), 0

    def add_sender(self, ssrc, kind):
        """The address of a new member that sends this source, in the place of the one before it."""
        n = self.senders
        address = f"10.{n // 250 // 250}.{n // 250 % 250}.{n % 250 + 1}:5000"
        if n:
            self.lines.append("desk 0 remove-member 7")
        self.lines.append(f"desk 0 add-member 7 1 {address} pcmu {1000 if ssrc != 1000 else 1001} 0 0")
        self.lines.append(f"desk 0 add-source {ssrc} 7 {kind}")
        self.senders += 1
        return address

    def add(self, place, line, answers):
        self.lines.append(line)
        self.wanted.append((place, answers))

    def add_datagram(self, path, number, line):
        """A datagram with its dissection, behind a packet of the number before it. That has no payload, so that its
        kind takes it."""
        f, place = fields_of(line), f"{path.name} line {number}"
        if line.startswith("#") or not line.strip() or f.get("class") != "Rtp" or "fault" in f:
            return
        seq, ssrc, pt = int(f["seq"]), int(f["ssrc"]), int(f["pt"])
        address = self.add_sender(ssrc, "audio" if pt in (0, 97) else "video")
        self.add(place, f"rx 0 {address} {rtp(seq - 1, 0, ssrc, b'', 0, pt).hex()}", {"rx probation"})
        self.add(place, f"rx 0 {address} {line.split()[0]}", {f"rx accepted {seq}"})
        self.counts[path.name] += 1

    def add_trace(self, path):
        """The packets of a trace. A video packet that is accepted may be late or doubled for its frame."""
        lines = path.read_text().splitlines()
        head = fields_of(lines[0])
        ssrc, is_video = int(head["ssrc"]), head["rate"] == "90000"
        address, source = self.add_sender(ssrc, "video" if is_video else "audio"), Source(int(head["rate"]))
        for number, line in enumerate(lines, 1):
            if not line.startswith("rtp "):
                continue
            f, place = fields_of(line), f"{path.name} line {number}"
            verdict, ext = source.verdict(int(f["seq"]))
            if {"begun": "accepted"}.get(verdict, verdict) != f["expect"]:
                fail(f"{place}: the model says {verdict}")
            octets = rtp(int(f["seq"]), int(f["ts"]), ssrc, b"x", 0, 100 if is_video else 0)
            names = ["accepted", "late", "duplicate"] if is_video and verdict == "accepted" else [f["expect"]]
            answers = {f"rx {name}" + ("" if ext is None else f" {ext}") for name in names}
            self.add(place, f"rx {line.split()[1]} {address} {octets.hex()}", answers)
            self.counts[path.name] += 1


def script_of(folder):
    """The script of all packets of a folder."""
    script = Script()
    for path in sorted(folder.glob("rtp-*.txt")):
        for number, line in enumerate(path.read_text().splitlines(), 1):
            script.add_datagram(path, number, line)
    for path in sorted(folder.glob("trace-*.txt")):
        script.add_trace(path)
    if not script.wanted:
        fail(f"there is no packet in rtp-*.txt and trace-*.txt of {folder}")
    return script


def check_rx(folder, binary, seconds):
    """Compares what the bridge says of each packet of a folder. The exit status."""
    script = script_of(folder)
    got = replay(script.lines, binary, seconds)
    refused = [line for line in got if line.startswith("no ")]
    got = [line for line in got if line.startswith("rx ")]
    differ = [
        f"{place}: {text}, wanted {' or '.join(sorted(good))}"
        for (place, good), text in zip(script.wanted, got) if text not in good
    ]
    print(*refused, *differ, *(f"{name}: {count} packets" for name, count in sorted(script.counts.items())), sep="\n")
    print(f"{len(script.wanted)} lines wanted, {len(got)} got, {len(differ)} differ")
    return 1 if refused or differ or len(got) != len(script.wanted) else 0


def run(args):
    check = check_rx if args.rx else check_codecs
    return check(pathlib.Path(args.folder).resolve(), args.binary, args.seconds)
