"""Programs in the place of those that command blocks of documents name, in a folder that comes first on the path.

`nc` is a netcat, where the machine has none. `sudo` runs a command with the folders /etc and /usr/local of the system
in a folder of the check, and `systemctl enable` says what its units lack there. `apt` installs nothing, and starts an
etcd, as Debian does. `rt run` runs the program that is built. `gst-launch-1.0` and `tcpdump` are the machine's own and
end by themselves; where the first should play on a sound card, it writes samples into the file `heard`.
"""

import pathlib
import re
import shutil
import sys

# How many seconds programs run that would go on until someone stops them.
SOUND_SECONDS, CAPTURE_SECONDS = 5, 1

NC = """#!{python}
import socket, sys
one = socket.create_connection((sys.argv[1], int(sys.argv[2])))
one.sendall(sys.stdin.buffer.read())
one.shutdown(socket.SHUT_WR)
while octets := one.recv(65536):
    sys.stdout.buffer.write(octets)
"""

SUDO = """#!/bin/sh
for word do
    shift
    case $word in /etc/* | /usr/local/*) word="{system}$word" ;; esac
    set -- "$@" "$word"
done
exec "$@"
"""

SYSTEMCTL = """#!{python}
import sys
sys.path.insert(0, "{tools}")
from checks.substitutes import enable
enable("{system}", sys.argv[1:])
"""

APT = """#!/bin/sh
case " $* " in
*' etcd-server '*)
    etcd --data-dir {etcd} > {etcd}.log 2>&1 &
    exec curl -s --retry 30 --retry-delay 1 --retry-connrefused http://127.0.0.1:2379/health > /dev/null
    ;;
esac
"""

RT = """#!/bin/sh
[ "$1" = run ] || exec {rt} "$@"
while [ "$1" != -- ]; do
    shift
done
shift
exec "out/$(basename "$PWD")" "$@"
"""

GSTREAMER = """#!/bin/sh
for word do
    shift
    if [ "$word" = autoaudiosink ]; then
        set -- "$@" audioconvert ! audio/x-raw,format=S16LE ! filesink buffer-mode=unbuffered "location={heard}"
    else
        set -- "$@" "$word"
    fi
done
timeout {seconds} {program} "$@" || [ $? = 124 ]
"""

TCPDUMP = """#!/bin/sh
timeout -s INT {seconds} {program} "$@" || [ $? = 124 ]
"""


def write_all(folder):
    """Writes the programs into `bin` of a folder, next to which stand `system` and `heard`."""
    system = folder / "system"
    for name in "bin", "system/etc/systemd/system", "system/usr/local/bin", "system/usr/local/lib":
        (folder / name).mkdir(parents=True)
    texts = {"sudo": SUDO, "systemctl": SYSTEMCTL, "apt": APT, "rt": RT}
    ending = {"gst-launch-1.0": (GSTREAMER, SOUND_SECONDS), "tcpdump": (TCPDUMP, CAPTURE_SECONDS)}
    if not shutil.which("nc"):
        texts["nc"] = NC
    common = {
        "python": sys.executable,
        "tools": pathlib.Path(__file__).parents[1],
        "system": system,
        "heard": folder / "heard",
        "etcd": folder / "etcd",
        "rt": shutil.which("rt"),
    }
    for name, text in texts.items():
        write(folder / "bin" / name, text.format(**common))
    for name, (text, seconds) in ending.items():
        if program := shutil.which(name):
            write(folder / "bin" / name, text.format(program=program, seconds=seconds, **common))


def write(path, text):
    path.write_text(text)
    path.chmod(0o755)


def enable(system, words):
    """What `systemctl` does: it ends with what the units lack that it is to enable."""
    if words[0] == "enable":
        lacking = [one for name in words[1:] if not name.startswith("-") for one in lacks(pathlib.Path(system), name)]
        if lacking:
            sys.exit(f"systemctl: not there: {', '.join(lacking)}")


def lacks(system, name):
    """What isn't there of a unit, of the units of this repository that it wants, and of what these start."""
    stem, _, ending = name.partition(".")
    path = system / "etc/systemd/system" / f"{re.sub('@.*', '@', stem)}.{ending or 'service'}"
    if not path.exists():
        return [name]
    found = []
    for key, value in re.findall(r"^(ExecStart|Wants)=(.*)$", path.read_text(), re.M):
        for word in value.split():
            if key == "Wants" and word.startswith("confbridge"):
                found += lacks(system, word)
            if word.startswith(("/etc/", "/usr/local/lib/")) and "%" not in word and not (system / word[1:]).exists():
                found.append(word)
    return found
