"""What a .deb has beside its files: its description, its settings, and what is run when it is removed."""

import re
import subprocess

from operators.shared import fail

# The packages of Debian that have the libraries of programs.
LIBRARIES = {"libc.so.6": "libc6", "libm.so.6": "libc6", "libgcc_s.so.1": "libgcc-s1"}
# What operators and the gateway can use.
SUGGESTED = ["kamailio", "kamailio-python3-modules", "rtpengine-daemon", "tcpdump"]
NEEDED = re.compile(r"^\s*(lib\S+) =>", re.M)
UNPROVED = """ .
 THIS PACKAGE HAS A PROGRAM THAT WASN'T PROVED. It is for trying alone.
"""
DESCRIPTION = """Description: conference bridge for RTP, whose changes can be undone
 The bridge mixes audio (PCMU and L16) and forwards video between the members
 of rooms, as an SFU does. It is for engineers who run their own signalling,
 and let browsers and phones in through rtpengine.
 .
 Each change of a running call can be undone, many changes can be made as one,
 and tools explain from a capture who heard and saw whom, and why not.
"""
PRERM = """#!/bin/sh
set -e
if [ "$1" = remove ] && [ -d /run/systemd/system ]; then
    systemctl disable --now confbridge-gateway.target || true
    for name in agent kamailio rtpengine page calls desk; do
        systemctl disable --now "confbridge-$name.service" || true
    done
    systemctl disable --now confbridge.service || true
fi
"""
POSTINST = """#!/bin/sh
set -e
if [ "$1" = configure ] && [ -d /run/systemd/system ]; then
    systemctl daemon-reload || true
fi
"""
POSTRM = """#!/bin/sh
set -e
if [ "$1" = purge ]; then
    for name in confbridge-desk confbridge-page; do
        rm -rf /var/lib/"$name" /var/lib/private/"$name"
    done
fi
if [ -d /run/systemd/system ]; then
    systemctl daemon-reload || true
fi
"""


def depends(programs):
    """What programs need of a Debian. Ends where a library is unknown."""
    needs = {"python3"}
    for program in programs:
        said = subprocess.run(["ldd", program], capture_output=True, text=True, check=False).stdout
        for library in NEEDED.findall(said):
            if library not in LIBRARIES:
                fail(f"{program} needs {library}, and no package of Debian is known to have it")
            needs.add(LIBRARIES[library])
    versions = [
        (int(a), int(b)) for one in programs for a, b in re.findall(rb"GLIBC_([0-9]+)\.([0-9]+)", one.read_bytes())
    ]
    if versions:
        needs = needs - {"libc6"} | {"libc6 (>= {}.{})".format(*max(versions))}
    return ", ".join(sorted(needs))


def control(commit, programs, octets, is_proved):
    """The description of a package (deb-control(5)). It has so many octets."""
    lines = [
        "Package: confbridge", f"Version: {commit.version}", "Architecture: amd64", f"Maintainer: {commit.maintainer}",
        f"Installed-Size: {-(-octets // 1024)}", f"Depends: {depends(programs)}",
        f"Suggests: {', '.join(SUGGESTED)}", "Section: net", "Priority: optional",
    ]  # fmt: skip
    return "\n".join(lines) + "\n" + DESCRIPTION + ("" if is_proved else UNPROVED)


def members(commit, programs, octets, is_proved):
    """The files of a package's DEBIAN folder by their names, and whether they are run."""
    return {
        "control": (control(commit, programs, octets, is_proved), False),
        "conffiles": ("/etc/confbridge.toml\n/etc/confbridge-gateway.toml\n", False),
        "prerm": (PRERM, True), "postinst": (POSTINST, True), "postrm": (POSTRM, True),
    }  # fmt: skip
