"""A bridge that ./confbridge runs, as units and containers do: what signals and a bad standard error do to it."""

import os
import pathlib
import shutil
import signal
import socket
import subprocess
import time

from checks.bridges import accepted, check, operator_at
from checks.confined import confined, lacks
from checks.pair import Pair
from operators.serving import LISTENS, free_port, said_at_the_end, settings
from operators.shared import ROOT

SCRIPT, UNIT = ROOT / "confbridge", ROOT / "examples/confbridge.service"
# How many seconds a bridge may take to listen or to end. It takes one; a busy machine may take many.
PATIENCE = 150
# The status of a bridge that had to be killed.
KILLED = 143


def installed(folder, program):
    """The script as it stands in /usr/local/bin, with its program."""
    for one in "bin", "lib/confbridge":
        (folder / one).mkdir(parents=True)
    # Copies, which another user may run too.
    script = folder / "bin/confbridge"
    for source, target in (SCRIPT, script), (program, folder / "lib/confbridge/confbridge"):
        shutil.copyfile(source, target)
        target.chmod(0o755)
    return script


def cloned(folder, program):
    """The script at the top of a clone without a proved program, and the environment with a command `rt`."""
    tried, rt = folder / "crates/confbridge/out/tried", folder / "rt"
    for one in tried, rt / "toolchain/lib":
        one.mkdir(parents=True)
    (tried / "confbridge").symlink_to(program)
    (folder / "crates.txt").touch()
    os.utime(folder / "crates.txt", (0, 0))
    script, loader, command = folder / "confbridge", rt / "toolchain/lib/ld-linux-x86-64.so.2", rt / "rt"
    script.write_bytes(SCRIPT.read_bytes())
    loader.write_text('#!/bin/sh\nshift 3\nexec "$@"\n')
    command.write_text(f'#!/bin/sh\necho "{rt}/START-HERE.md"\n')
    for one in script, loader, command:
        one.chmod(0o755)
    return script, os.environ | {"PATH": f"{rt}:{os.environ['PATH']}"}


def begun(script, path, unit=None):
    """A bridge with these settings, and the ports of its sockets. It runs as a unit's, if one is named."""
    words = confined(unit, [script, "serve", path]) if unit else [script, "serve", path]
    null, pipe = subprocess.DEVNULL, subprocess.PIPE
    bridge = subprocess.Popen(words, stdin=null, stderr=pipe, text=True, start_new_session=True)
    said = bridge.stderr.readline()
    listens = LISTENS.fullmatch(said)
    check(listens, f"a bridge that ./confbridge runs doesn't say where it listens, but {said!r}")
    return bridge, int(listens[1]), int(listens[2])


def seated(tcp):
    return operator_at(tcp, PATIENCE)


def stop_in_mid_call(script, path, by):
    """SIGHUP does nothing to a call of two members; SIGTERM and SIGINT stop its bridge as `stop` does."""
    bridge, udp, tcp = begun(script, path)
    operator, pair = seated(tcp), Pair()
    accepted(operator, *pair.lines())
    pair.begin(udp)
    pair.wait_until_heard()
    for _ in range(2):
        bridge.send_signal(signal.SIGHUP)
    heard = [len(one) for one in pair.heard]
    end = time.monotonic() + PATIENCE
    while any(len(now) <= before + 10 for now, before in zip(pair.heard, heard)):
        check(time.monotonic() < end and bridge.poll() is None, "behind SIGHUP a call doesn't go on")
        time.sleep(0.05)
    bridge.send_signal(by)
    rest = bridge.stderr.read()
    check(bridge.wait(PATIENCE) == 0, f"{by.name} in mid-call: the bridge ends with status {bridge.returncode}")
    pair.end()
    calls, _ = said_at_the_end(rest)
    check(sum(calls.values()) == 5, f"{by.name} in mid-call: at its end the bridge says {rest!r}")


def stop_as_unit(script, path, has_pages):
    """A bridge works and stops with all that its unit takes from it, and has large pages as it has them without."""
    if lacks():
        print(f"skipped: a bridge as its unit runs it (there is no {lacks()})")
        return
    bridge, _, tcp = begun(script, path, UNIT)
    operator = seated(tcp)
    said = operator.ask("add-room 1")
    check(said == "ok 1", f"as its unit runs it, a bridge answers `add-room 1` by `{said}`")
    check(has_large_pages(bridge.pid) == has_pages, f"without its unit a bridge has large pages: {has_pages}")
    bridge.terminate()
    rest = bridge.stderr.read()
    check(bridge.wait(PATIENCE) == 0, f"as its unit runs it, a bridge ends with status {bridge.returncode}: {rest!r}")
    said_at_the_end(rest)


def has_large_pages(pid):
    """Whether the bridge that a script of this process runs has asked for large pages."""
    (child,) = pathlib.Path(f"/proc/{pid}/task/{pid}/children").read_text().split()
    lines = pathlib.Path(f"/proc/{child}/smaps").read_text().splitlines()
    return any(line.startswith("VmFlags:") and " hg" in line for line in lines)


def end_without_seat(script, path):
    """Where all seats are taken, SIGTERM kills."""
    bridge, _, tcp = begun(script, path)
    operator = seated(tcp)
    operator.show()
    begun_at = time.monotonic()
    bridge.terminate()
    status = bridge.wait(PATIENCE)
    check(status == KILLED, f"SIGTERM without a free seat: status {status}")
    bridge.stderr.close()
    return time.monotonic() - begun_at


def end_with_script(script, path):
    """A bridge doesn't outlive the script that runs it. Whether it had asked for large pages."""
    bridge, _, tcp = begun(script, path)
    has_pages = has_large_pages(bridge.pid)
    bridge.kill()
    bridge.wait()
    end = time.monotonic() + PATIENCE
    while answers(tcp):
        check(time.monotonic() < end, "a bridge goes on behind the end of its ./confbridge")
        time.sleep(0.1)
    bridge.stderr.close()
    return has_pages


def answers(tcp):
    try:
        socket.create_connection(("127.0.0.1", tcp), 1).close()
    except OSError:
        return False
    return True


def start_without_error(folder, script, environment):
    """A standard error that is full or closed, and streams that are all closed, keep no bridge from starting."""
    for which in "2> /dev/full", "2>&-", "<&- >&- 2>&-":
        tcp = free_port(socket.SOCK_STREAM)
        path = settings(folder, 0, tcp)
        line = f'exec "{script}" serve "{path}" {which}'
        with subprocess.Popen(["sh", "-c", line], env=environment, start_new_session=True) as bridge:
            end = time.monotonic() + PATIENCE
            while not answers(tcp):
                check(bridge.poll() is None and time.monotonic() < end, f"with {which} ./confbridge starts no bridge")
                time.sleep(0.1)
            bridge.terminate()
            check(bridge.wait(PATIENCE) == 0, f"with {which} the bridge ends with status {bridge.returncode}")


def check_script(program, folder):
    """All of it, with one program."""
    script = installed(folder / "installed", program)
    # As its unit runs it, a bridge has another user.
    folder.chmod(0o755)
    has_pages = end_with_script(script, settings(folder))
    stop_as_unit(script, settings(folder), has_pages)
    for by in signal.SIGTERM, signal.SIGINT:
        stop_in_mid_call(script, settings(folder), by)
    end_without_seat(script, settings(folder, operators=1))
    start_without_error(folder, script, None)
    start_without_error(folder, *cloned(folder / "clone", pathlib.Path(program)))
