"""Runs a command as systemd runs a unit's, as far as that goes without systemd.

    confined.py UNIT COMMAND ..

It reads the unit, and has of it the filters of system calls (SystemCallFilter, MemoryDenyWriteExecute,
RestrictAddressFamilies, RestrictNamespaces, LockPersonality), the limits, the mask of files and NoNewPrivileges. As
root also another user without capabilities (DynamicUser, CapabilityBoundingSet), a tree that is read only
(ProtectSystem), a /run of its own with the unit's RuntimeDirectory, and a /proc without others' processes
(ProtectProc). It needs libseccomp and systemd-analyze.
"""

import ctypes
import ctypes.util
import errno
import functools
import os
import pathlib
import resource
import shutil
import socket
import subprocess
import sys

USER = 10001
ALLOW, REFUSE = 0x7FFF0000, 0x00050000
# How a rule compares an argument: not equal, equal, and equal behind a mask (libseccomp).
NOT, EQUAL, MASKED = 1, 4, 7
EXEC_AND_WRITE, EXEC, SHM_EXEC = 6, 4, 0o100000
NAMESPACES = 0x00020000, 0x02000000, 0x04000000, 0x08000000, 0x10000000, 0x20000000, 0x40000000, 0x00000080
# Mounts: a namespace of its own; read only, bound again, private and all below it.
NEW_MOUNTS, READ_ONLY, REMOUNT, BIND, PRIVATE = 0x00020000, 1, 32, 4096, (1 << 18) | 16384
NO_NEW_PRIVILEGES, DROP_FROM_BOUNDING_SET = 38, 24
LIMITS = {"NOFILE": resource.RLIMIT_NOFILE, "AS": resource.RLIMIT_AS}


def lacks():
    """What this takes and isn't here."""
    found = {"libseccomp": ctypes.util.find_library("seccomp"), "systemd-analyze": shutil.which("systemd-analyze")}
    return " and no ".join(name for name, one in found.items() if not one)


def confined(unit, command):
    """The command that runs another one so."""
    return [sys.executable, "-B", pathlib.Path(__file__).resolve(), unit, *command]


class Argument(ctypes.Structure):
    """What a rule asks of an argument of a system call."""

    _fields_ = [("at", ctypes.c_uint), ("op", ctypes.c_int), ("a", ctypes.c_uint64), ("b", ctypes.c_uint64)]


@functools.cache
def libraries():
    seccomp, libc = ctypes.CDLL("libseccomp.so.2"), ctypes.CDLL(None, use_errno=True)
    seccomp.seccomp_init.restype = ctypes.c_void_p
    return seccomp, libc


class Filter:
    """A filter of system calls: what no rule names has the default."""

    def __init__(self, default):
        self.seccomp, self.rules = libraries()[0], []
        self.context = ctypes.c_void_p(self.seccomp.seccomp_init(ctypes.c_uint32(default)))

    def rule(self, action, name, *asked):
        number = self.seccomp.seccomp_syscall_resolve_name(name.encode())
        if number == -1:
            return
        given = (Argument * len(asked))(*(Argument(*one) for one in asked))
        failed = self.seccomp.seccomp_rule_add_array(self.context, ctypes.c_uint32(action), number, len(asked), given)
        # A call of another processor has no rule here.
        if failed not in (0, -errno.EINVAL, -errno.EDOM):
            sys.exit(f"confined: no rule for {name}: {failed}")

    def load(self):
        if self.seccomp.seccomp_load(self.context):
            sys.exit("confined: no filter of system calls can be loaded")


@functools.cache
def calls_of(group):
    """The names of a group of system calls such as @system-service, and of the groups in it."""
    words = ["systemd-analyze", "syscall-filter", group]
    said = subprocess.run(words, capture_output=True, text=True, check=True).stdout
    names = [line.strip() for line in said.splitlines()[1:]]
    names = [name for name in names if name and not name.startswith("#")]
    return {one for name in names for one in (calls_of(name) if name.startswith("@") else {name})}


def directives(path):
    """The lines of a unit's service by their names, each with all its values in order."""
    found = {}
    for line in pathlib.Path(path).read_text().partition("[Service]")[2].splitlines():
        name, is_one, value = line.partition("=")
        if is_one and not line.startswith(("#", "[")):
            found.setdefault(name, []).append(value)
    return found


def filters(unit):
    """The filters of a unit, to be loaded once all else is done."""
    allowed = {"execve", "exit", "exit_group", "rt_sigreturn"}
    for value in unit.get("SystemCallFilter", []):
        names = {one for group in value.lstrip("~").split() for one in calls_of(group)}
        allowed = allowed - names if value.startswith("~") else allowed | names
    calls = Filter(REFUSE | errno.EPERM)
    for name in allowed | calls_of("@default"):
        calls.rule(ALLOW, name)
    others, refuse = Filter(ALLOW), REFUSE | errno.EPERM
    if unit.get("MemoryDenyWriteExecute") == ["yes"]:
        others.rule(refuse, "mmap", (2, MASKED, EXEC_AND_WRITE, EXEC_AND_WRITE))
        for name in "mprotect", "pkey_mprotect":
            others.rule(refuse, name, (2, MASKED, EXEC, EXEC))
        others.rule(refuse, "shmat", (2, MASKED, SHM_EXEC, SHM_EXEC))
    if unit.get("RestrictNamespaces") == ["yes"]:
        for name in "unshare", "setns":
            others.rule(refuse, name)
        for flag in NAMESPACES:
            others.rule(refuse, "clone", (0, MASKED, flag, flag))
        others.rule(REFUSE | errno.ENOSYS, "clone3")
    if unit.get("LockPersonality") == ["yes"]:
        others.rule(refuse, "personality", (0, NOT, 0))
    families = {getattr(socket, name) for value in unit.get("RestrictAddressFamilies", []) for name in value.split()}
    for family in set(range(50)) - families if families else ():
        others.rule(REFUSE | errno.EAFNOSUPPORT, "socket", (0, EQUAL, family))
    return calls, others


def mounted(unit, libc):
    """As root: what a unit's command sees of the tree."""
    mount = lambda source, at, kind, flags, data=b"": libc.mount(source, at, kind, ctypes.c_ulong(flags), data) == 0
    if libc.unshare(NEW_MOUNTS):
        # The root of a container may have no mounts. All else is tried.
        return
    if not mount(None, b"/", None, PRIVATE):
        sys.exit("confined: no mounts of its own")
    mount(b"proc", b"/proc", b"proc", 0, b"hidepid=invisible")
    if not mount(b"tmpfs", b"/run", b"tmpfs", 0, b"mode=755"):
        sys.exit("confined: no /run of its own")
    for name in unit.get("RuntimeDirectory", []):
        os.mkdir(f"/run/{name}", 0o700)
        os.chown(f"/run/{name}", USER, USER)
    if not mount(None, b"/", None, READ_ONLY | REMOUNT | BIND):
        sys.exit("confined: the tree can't be made read only")


def limit(unit):
    for name, number in LIMITS.items():
        for value in unit.get(f"Limit{name}", []):
            most = int(value.rstrip("GM")) * {"G": 2**30, "M": 2**20}.get(value[-1], 1)
            resource.setrlimit(number, (most, most))
    os.umask(int(unit.get("UMask", ["022"])[0], 8))


def main():
    if len(sys.argv) < 3:
        sys.exit(__doc__)
    unit, command = directives(sys.argv[1]), sys.argv[2:]
    loaded, (_, libc) = filters(unit), libraries()
    if os.geteuid() == 0:
        mounted(unit, libc)
        for capability in range(64):
            libc.prctl(DROP_FROM_BOUNDING_SET, capability, 0, 0, 0)
        os.setgroups([])
        os.setresgid(USER, USER, USER)
        os.setresuid(USER, USER, USER)
    limit(unit)
    libc.prctl(NO_NEW_PRIVILEGES, 1, 0, 0, 0)
    # The last one to be loaded may not keep the other from it.
    for one in reversed(loaded):
        one.load()
    os.execvp(command[0], command)


if __name__ == "__main__":
    main()
