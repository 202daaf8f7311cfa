"""A folder that is the top of a clone to command blocks of documents, and what runs there."""

import array
import contextlib
import json
import os
import pathlib
import re
import signal
import socket
import subprocess
import time
import urllib.request

from checks.sound import amplitude, write_tone
from checks.substitutes import write_all
from operators.shared import ROOT, fail

# What differs each time: the moment at which a bridge that listens began, the SSRC of a mix that an agent chose, the
# moments of calls.
ANY = re.compile(r'(?<=, ticks from )[0-9]+$|(?<="mix": )[0-9]+|^[0-9-]{10}T[0-9:.]{12}(?= call )', re.M)
# Blocks that end with another status than 0.
STATUSES = {f"tools/bridge explain {name}.pcap\n": 1 for name in ("lacking", "full")}
# How many seconds a command may take: a build without proofs on a busy machine.
PATIENCE = 1800
# What a block says once it serves, by a part of its commands, and whether it runs on for the blocks after it.
SERVES = {
    "fleet/fleet.py ": ("fleet: the agent", True),
    " serve ": ("confbridge: listening", True),
    "crates/desk_page": ("desk_page: http://", False),
}


def is_free(kind, port):
    with socket.socket(type=kind) as one, contextlib.suppress(OSError):
        if kind == socket.SOCK_STREAM:
            one.setsockopt(socket.SOL_SOCKET, socket.SO_REUSEADDR, 1)
        one.bind(("127.0.0.1", port))
        return True
    return False


def are_free(udp=(5004,), tcp=(7000,)):
    """Whether programs can have these ports: by themselves those of examples/serve.toml."""
    kinds = (socket.SOCK_DGRAM, udp), (socket.SOCK_STREAM, tcp)
    return all(is_free(kind, port) for kind, ports in kinds for port in ports)


def differs(where, wanted, got):
    fail(f"{where}: it shows\n{wanted}and what appears is\n{got}")


def toolchain():
    """The folder of the toolchain."""
    page = subprocess.run(["rt", "doc"], stdout=subprocess.PIPE, check=True).stdout.decode().strip()
    return str(pathlib.Path(page).parent)


def samples(path):
    """The whole samples of a file."""
    octets = path.read_bytes()
    return array.array("h", octets[: len(octets) // 2 * 2])


def end_of(run):
    """Ends commands, and what they left running."""
    with contextlib.suppress(ProcessLookupError):
        os.killpg(run.pid, signal.SIGTERM)
    run.wait()


class Folder:
    """The top of a clone as blocks see it, and the bridges that run there."""

    def __init__(self, path):
        self.path, self.bridges, self.said = pathlib.Path(path), [], ("", "")
        self.start, self.toolchain = None, toolchain()
        for name in "README.md", "confbridge", "crates", "crates.txt", "docs", "examples", "tools":
            (self.path / name).symlink_to(ROOT / name)
        write_all(self.path)
        # A song of two members, of one tone.
        write_tone(self.path / "song.wav", 1000, 44100, 10)

    def started(self, commands):
        """Commands that have begun, and the files with what they say."""
        out, err = self.path / "said.out", self.path / "said.err"
        environment = os.environ | {"PATH": f"{self.path / 'bin'}:{os.environ['PATH']}", "RATTLE": self.toolchain}
        with out.open("w") as one, err.open("w") as other:
            how = {"cwd": self.path, "stdin": subprocess.DEVNULL, "stdout": one, "stderr": other, "env": environment}
            run = subprocess.Popen(["sh", "-ec", commands], start_new_session=True, **how)
        return run, lambda: (out.read_text(), err.read_text())

    def run(self, where, commands):
        """Runs a block to its end, or until it serves."""
        # The seat of an operator is free a moment after the connection ended.
        time.sleep(0.1)
        (self.path / "heard").unlink(missing_ok=True)
        run, said = self.started(commands)
        self.bridges.append(run)
        begins, runs_on = next((how for part, how in SERVES.items() if part in commands), (None, False))
        end, is_good = time.monotonic() + PATIENCE, False
        while not is_good and time.monotonic() < end:
            time.sleep(0.05)
            status, self.said = run.poll(), said()
            is_good = begins in "".join(self.said) if begins else status == STATUSES.get(commands, 0)
            # A shell that ends may leave programs that serve.
            if status or status == 0 and not commands.endswith("&\n"):
                break
        if not is_good:
            fail(f"{where}: it ends with status {run.returncode}\n{''.join(self.said)}")
        self.look(where, commands)
        if runs_on:
            self.start = commands
        else:
            self.bridges.remove(run)
            end_of(run)

    def look(self, where, commands):
        """Looks at what a block leads to that isn't printed."""
        if (self.path / "heard").exists():
            self.listen(where, 44100 if "44100" in commands else 8000)
        if "crates/desk_page" in commands:
            with urllib.request.urlopen("http://127.0.0.1:7080/", timeout=60) as page:
                if b"<title>" not in page.read():
                    fail(f"{where}: the page isn't there")
        if "fleet/fleet.py" in commands:
            self.wait_for_bridges(where)
        if commands.startswith("tcpdump") and not (self.path / "call.pcap").stat().st_size:
            fail(f"{where}: it captures nothing")

    def wait_for_bridges(self, where):
        """Waits until the agent of a fleet knows its two bridges."""
        asks = [ROOT / "examples/fleet/ask.py", "/tmp/fleet.secret", "http://127.0.0.1:8095/"]
        end = time.monotonic() + 60
        while time.monotonic() < end:
            said = subprocess.run(asks, capture_output=True, text=True, check=False)
            if said.returncode == 0 and len(json.loads(said.stdout)["bridges"]) == 2:
                return
            time.sleep(0.1)
        fail(f"{where}: the agent doesn't know two bridges")

    def listen(self, where, rate):
        """Whether the other member's tone of 1000 Hz was heard, and the own one of 440 Hz wasn't."""
        sound, piece = samples(self.path / "heard"), rate // 4
        pieces = [sound[at : at + piece] for at in range(0, len(sound) - piece, piece)]
        other, own = (
            max((amplitude(one, hertz, rate) / 32767 for one in pieces[4:]), default=0) for hertz in (1000, 440)
        )
        if other < 0.05 or own > other / 10:
            fail(f"{where}: the other's tone is heard at {other:.3f}, the own one at {own:.3f}")

    def shows(self, where, wanted, is_whole):
        """Whether a block of text is what the last commands said, or a part of it."""
        out, err = self.said
        # What the start of a bridge says of its building is no part of what the bridge says.
        own = "".join(line for line in err.splitlines(keepends=True) if not line.startswith("./confbridge: "))
        out, own, wanted = (ANY.sub("N", text).rstrip("\n") for text in (out, own, wanted))
        if is_whole and wanted not in (out, own) or not is_whole and wanted not in f"\n{out}\n{own}":
            differs(where, wanted, out + err)

    def renew(self, where):
        """Ends the bridge that runs, and starts another one as it was started, once the ports are free."""
        self.end()
        self.run(where, self.start)

    def end(self):
        """Ends the bridges that run, and waits until their ports are free: each stops by itself."""
        for one in self.bridges:
            end_of(one)
        end = time.monotonic() + PATIENCE
        while self.bridges and not are_free() and time.monotonic() < end:
            time.sleep(0.05)
        self.bridges = []
