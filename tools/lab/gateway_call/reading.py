"""What README of examples/gateway has a person type: its commands are run as they stand, and then callers join."""

import argparse
import contextlib
import os
import re
import signal
import socket
import subprocess
import tarfile
import time
import tomllib
import urllib.request

from checks.clone_folder import are_free
from checks.make import package
from checks.package.proved import lack_of_proof
from lab.gateway_call.callers import PhoneCaller
from lab.gateway_call.trial import Trial
from lab.waits import within
from operators.serving import free_port
from operators.shared import ROOT, release_program

FOLDER = ROOT / "examples/gateway"
# Its commands, those of them that a check doesn't give, and where each part is then.
BLOCK, INSTALLS = re.compile(r"\n```sh\n(.*?)```\n", re.S), "sudo "
PAGE, DESK, SIP = "http://127.0.0.1:8090", "http://127.0.0.1:7080/", "127.0.0.1:5060"
UDP, TCP = (5004, 2223, 2224, 5060), (7000, 7080, 8090, 8091)
# The page's program, which `rt ci` builds; and how long a person may take, in seconds.
DESK_PAGE, PATIENCE = ROOT / "crates/desk_page/out/desk_page", 600
# How many seconds its parts may take to end.
ENDS = 30
WELL = "All is well again."


def end_group(shell):
    """Ends what a shell has started, which takes a bridge a moment."""
    with contextlib.suppress(ProcessLookupError):
        os.killpg(shell.pid, signal.SIGTERM)
        shell.wait()
        end = time.monotonic() + ENDS
        while time.monotonic() < end:
            os.killpg(shell.pid, 0)
            time.sleep(0.1)
        os.killpg(shell.pid, signal.SIGKILL)


class Reading(Trial):
    """The steps of a person who follows it."""

    def try_package(self):
        """Four browsers and a phone, by a package's commands: it is unpacked, and not installed."""
        top, has_desk = self.unpacked()
        lines = [line.replace("/usr/share/", f"{top}/usr/share/") for line in self.commands(0)]
        lines = [line for line in lines if has_desk or "confbridge-page" not in line]
        self.follow(lines, self.folder, has_desk, {"PATH": f"{top}/usr/bin:{os.environ['PATH']}"})

    def try_clone(self):
        """The same by a clone's commands."""
        lines = self.commands(1)
        if self.args.binary:
            lines = [line.replace("./confbridge ", f"{self.args.binary} ") for line in lines]
        lines = [line for line in lines if self.has_desk() or "desk_page" not in line]
        self.follow(lines, ROOT, self.has_desk(), {})

    def commands(self, number):
        """README's commands, of the first or of the second block, but for those that install."""
        blocks = BLOCK.findall((FOLDER / "README.md").read_text())
        return [line for line in blocks[number].splitlines() if not line.startswith(INSTALLS)]

    def has_desk(self):
        if not DESK_PAGE.exists():
            print("skipped: the desk's page (it isn't built)")
        return DESK_PAGE.exists()

    def unpacked(self):
        """A package, unpacked: its folder, and whether the desk's page is in it."""
        program, has_desk = release_program(self.args.binary), self.has_desk()
        lack = lack_of_proof(program) or has_desk and lack_of_proof(DESK_PAGE)
        given = {"to": self.folder / "package", "unproved": bool(lack), "no_page": not has_desk}
        given |= {"program": program if lack else None, "page": DESK_PAGE if lack and has_desk else None}
        tar, _ = package.build(argparse.Namespace(**given))
        with tarfile.open(tar) as it:
            it.extractall(self.folder / "unpacked", filter="data")
        (top,) = (self.folder / "unpacked").iterdir()
        return top, has_desk

    def follow(self, lines, folder, has_desk, own):
        """Runs commands as they stand, and has callers join."""
        settings = [tomllib.loads((FOLDER / name).read_text()) for name in ("bridge.toml", "gateway.toml")]
        good = settings[0].items() >= {key: settings[1]["bridge"][key] for key in ("udp", "tcp")}.items()
        self.check(good and settings[0]["report_ms"] == 1000, "the settings agree, and the bridge reports each second")
        if not are_free(UDP, TCP):
            print("skipped: README's commands (their ports are taken)")
            return
        self.close_callers()
        log, begun = self.folder / "readme.log", time.monotonic()
        with log.open("w") as out:
            more = {"stdin": subprocess.DEVNULL, "stdout": out, "stderr": out, "start_new_session": True}
            more["env"] = os.environ | own
            shell = subprocess.Popen(["bash", "-c", "\n".join(lines)], cwd=folder, **more)
        try:
            self.is_followed(log, has_desk, begun)
        finally:
            self.close_callers()
            end_group(shell)

    def is_followed(self, log, has_desk, begun):
        """Whether all that it says comes."""
        self.comes(lambda: WELL in log.read_text(), f"the agent says `{WELL}`", lambda: log.read_text()[-800:], 120)
        print(f"      after {time.monotonic() - begun:.0f} s")
        for name in "ABCF":
            self.browser(name, PAGE).join()
        port = free_port(socket.SOCK_DGRAM)
        self.callers["D"] = PhoneCaller("D", self.folder, port, SIP)
        self.everyone_hears("README is followed")
        for one in self.browsers():
            self.sees(one, "README is followed")
        took = time.monotonic() - begun
        text = f"four browsers and a phone are in a call {took:.0f} s after the first command"
        self.check(took < PATIENCE, text, took)
        if has_desk:
            with within(30, "the desk's page"), urllib.request.urlopen(DESK, timeout=30) as said:
                self.check(said.status == 200, "the desk's page is there")
