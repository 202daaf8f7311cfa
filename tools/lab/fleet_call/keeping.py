"""`tools/bridge keep` and `restore`, tried."""

import socket
import subprocess
import sys

from checks.filling import add_member, in_groups
from lab.fleet_call.parts import BridgePart, commands_of
from operators.shared import ROOT

TOOL = [sys.executable, "-B", ROOT / "tools/bridge"]
# A desk with rows of each kind. The first numbers wrap.
DESK = [
    "add-room 1", "add-room 2 44100", "add-room 3", "add-member 12 2 10.0.0.3:5000 l16 9003 5 0",
    "add-member 10 1 10.0.0.1:5000 pcmu 9001 65000 7", "add-member 11 1 10.0.0.2:5000 pcmu 9002 0 0",
    "add-source 101 10 video", "add-source 102 11 video", "add-source 201 10 audio", "add-source 202 11 audio",
    "add-slot 501 11 0 65535 1000", "add-slot 502 10 1 64536 0", "subscribe 501 101", "subscribe 502 102", "mute 201",
    "mute 102", "set-gain 11 201 128", "set-gain 10 202 256", "pin 1 101", "give-floor 1 11",
]  # fmt: skip


def later(row):
    """A row as it is behind `restore`: FIRST_SEQ is 1,000 further on."""
    words = row.split(" ")
    if words[0] in ("member", "slot"):
        words[-2] = str((int(words[-2]) + 1000) % 65536)
    return " ".join(words)


class Keeping:
    """A desk that is kept and restored."""

    def __init__(self, check, folder, program):
        self.check, self.folder, self.program, self.file = check, folder, program, folder / "desk.txt"
        self.bridges = [BridgePart(name, folder, program) for name in ("from", "to")]

    def keep(self, address):
        """What `keep` prints, what it says, and its status."""
        done = subprocess.run([*TOOL, "keep", address], capture_output=True, text=True, check=False)
        return done.stdout, done.stderr, done.returncode

    def restore(self, address, text):
        """What `restore` says of such a file, and its status."""
        self.file.write_text(text)
        done = subprocess.run([*TOOL, "restore", address, self.file], capture_output=True, text=True, check=False)
        return done.stderr.strip(), done.returncode

    def addresses(self):
        return [f"127.0.0.1:{one.tcp}" for one in self.bridges]

    def refused(self, said, status, words, text):
        """Checks that something is told in these words with this status, and that the second bridge has no row."""
        rows, _ = self.bridges[1].operator.show()
        good = said[1] == status and words in said[0] and not rows
        self.check(good, f"{text}: `{words}`, status {status}", (said, rows))

    def step_round_trip(self):
        one, two = self.bridges
        for line in DESK:
            one.do(line)
        (source, target), rows = self.addresses(), one.operator.show()[0]
        text, said, status = self.keep(source)
        self.check(status == 0 and "FIRST_SEQ of each stream is 1000 further on" in said, "a desk is kept", said)
        self.check(self.restore(target, text)[1] == 0, "an empty bridge takes it")
        restored, version = two.operator.show()
        self.check(restored == [later(row) for row in rows], "it has the same rows but for FIRST_SEQ", restored)
        told = two.operator.shown("groups")
        good = told[:-1] == text.splitlines()[1:-1] and told[-1] == f"end {version}"
        self.check(good, "and tells the same groups", (told, text))
        commands = [part for group in text.splitlines()[1:-1] for part in group.removeprefix("group ").split(" / ")]
        same = [part.removesuffix(" 8000") if part.startswith("add-room") else part for part in commands]
        self.check(commands_of(rows) == same, "an agent makes the same commands of the rows", commands_of(rows))
        self.check(self.keep(target)[1:] == (said, 0), "its desk is kept as well")
        said = self.restore(target, text)
        good = said[1] == 1 and "isn't empty: it has 20 rows" in said[0]
        self.check(good, "a bridge that isn't empty gets nothing", said)
        self.check(two.operator.show() == (restored, version), "and stays as it is")
        two.do(f"undo {version}")
        self.check(two.operator.show()[0] == [], "one undo takes the group back")
        self.text = text

    def step_refusals(self):
        source, target = self.addresses()
        lines = self.text.splitlines(keepends=True)
        self.refused(self.restore(target, "".join(lines[:-1])), 3, "is cut", "a file without its last line")
        self.refused(self.restore(target, self.text[: len(self.text) // 2]), 3, "is no group", "a file cut in a line")
        self.refused(self.restore(target, ""), 3, "is cut", "an empty file")
        self.refused(self.restore(target, lines[0] + "stop\n" + lines[-1]), 3, "line 2 of", "a line that is no group")
        self.refused(self.restore(target, lines[0] + lines[-1]), 3, "lines of it are missing", "a file without a group")
        bad = f"group subscribe 501 102 / subscribe 501 103\n{lines[-1]}".replace("1 groups of 20", "2 groups of 22")
        said = self.restore(target, "".join(lines[:-1]) + bad)
        self.refused(said, 1, "group 2 (line 3), command 1 from 0, `subscribe 501 103`: 4 NoSource", "a refused group")
        self.check("Nothing stays" in said[0], "and says that nothing stays", said)
        said = self.restore("127.0.0.1:1", self.text)
        self.refused(said, 2, "there is no bridge at 127.0.0.1:1", "a bridge that is gone")
        # With the operator of this test, all seats are taken.
        taken = [self.bridges[1].seated() for _ in range(2)]
        for one in taken:
            one.ask("remove-room 999")
        for said in self.restore(target, self.text), self.keep(target)[1:]:
            self.refused(said, 2, "is busy: all seats at its desk are taken", "a busy bridge")
        for one in taken:
            one.tell("quit")
        with socket.create_server(("127.0.0.1", 0)) as deaf:
            address = f"127.0.0.1:{deaf.getsockname()[1]}"
            with subprocess.Popen([*TOOL, "keep", address], stderr=subprocess.PIPE, text=True) as one:
                deaf.accept()[0].close()
                said = one.stderr.read()
            self.refused((said, one.returncode), 2, "is gone", "a bridge that ends meanwhile")

    def step_lines(self):
        """Lines that make anything but rows, in a file; and a hostile program in a bridge's place."""
        target = self.addresses()[1]
        bad = [
            "stop", "undo 1", "add-room 5", "group stop", "group add-room 5 / stop", "group add-room 5 / remove-room 1",
            "group add-room 5 / undo 1", "group add-room 05", "group add-room 5 ", "group  add-room 5", "group",
            "group add-room 4294967295999", "group add-room 5\x0bstop", "group mute 1 2",
            "group " + " / ".join(f"add-room {room}" for room in range(65)),
        ]  # fmt: skip
        for line in bad:
            said = self.restore(target, f"{line}\n# end: 1 groups of 1 commands\n")
            self.refused(said, 3, "line 1 of", f"a file with {line[:40]!r}")
        for text, group in [
            ("an escape sequence", b"group add-room 1\x1b]0;x\x07"), ("no group", b"room 1"), ("C1", b"\x9b2J"),
            ("a group that does more", b"group add-room 1 / remove-room 2"),
        ]:  # fmt: skip
            said, status = self.kept_of(b"end 1\n", group + b"\nend 1\n")
            good = status == 2 and " is no group of rows" in said and all(" " <= one <= "~" for one in said.strip())
            self.check(good, f"a bridge that says {text} as a group: status 2, in printable octets", (status, said))
        said, status = self.kept_of(b"hello\nend 1\n")
        self.check(status == 2 and "it says `hello`" in said, "what is no bridge: status 2", (status, said))
        said, status = self.kept_of(b"end 2\n", b"fault 1 3 UnknownWord\n")
        good = status == 2 and "is an older one, which doesn't know the line `groups`" in said
        self.check(good, "an older bridge without `groups`: status 2, and that is said", (status, said))

    def kept_of(self, *answers):
        """What `keep` says of a program that answers its lines so in a bridge's place, and its status."""
        with socket.create_server(("127.0.0.1", 0)) as one:
            address = f"127.0.0.1:{one.getsockname()[1]}"
            with subprocess.Popen([*TOOL, "keep", address], stdout=-1, stderr=-1, encoding="latin-1") as keeping:
                connection, _ = one.accept()
                for octets in answers:
                    connection.recv(4096)
                    connection.sendall(octets)
                out, said = keeping.communicate()
                connection.close()
        return out + said, keeping.returncode

    def step_large(self):
        """As many members as a desk has, each with a source, in 16 rooms. The model takes its time, and has fewer."""
        count = 1024 if self.program else 160
        one, two = self.bridges
        for bridge in self.bridges:
            for room in bridge.desk()[0]:
                bridge.do(f"remove-room {room}")
        commands = [f"add-room {room}" for room in range(1, 17)]
        commands += [add_member(m).replace(f"add-member {m} 1 ", f"add-member {m} {m % 16 + 1} ") for m in range(count)]
        commands += [f"add-source {200000 + m} {m} audio" for m in range(count)]
        for group in in_groups(commands, 40):
            one.do(group)
        text, _, status = self.keep(self.addresses()[0])
        sizes = [line.count(" / ") + 1 for line in text.splitlines()[1:-1]]
        good = status == 0 and max(sizes) <= 45 and sum(sizes) == 16 + 2 * count
        self.check(good, f"a desk of {count} members is {len(sizes)} groups", sizes)
        self.check(max(map(len, text.splitlines())) <= 4096, "no line is longer than a bridge reads")
        self.check(self.restore(self.addresses()[1], text)[1] == 0, "an empty bridge takes them")
        self.check(two.operator.show()[0] == [later(row) for row in one.operator.show()[0]], "and has the same rows")

    def close(self):
        for one in self.bridges:
            one.close()
