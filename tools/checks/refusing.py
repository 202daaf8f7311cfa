"""A bridge to which one request for memory is refused, by a library in C that stands before `malloc` and its kin."""

import ctypes
import mmap
import os
import pathlib
import shutil
import subprocess
import tempfile
import time

from checks.bridges import until
from operators.shared import fail

HERE = pathlib.Path(__file__).resolve().parent
# How many seconds a bridge may take for anything.
PATIENCE = 20
# Whose requests are counted, where it isn't one thread.
ANY, NONE = 0, -1


def library(folder, source="refusing.c"):
    """The path of a library of this folder, compiled to another one."""
    if not shutil.which("cc"):
        fail("there is no command `cc`")
    path = f"{folder}/{source}.so"
    subprocess.run(["cc", "-O2", "-shared", "-fPIC", "-o", path, HERE / source], check=True)
    return path


class Control(ctypes.Structure):
    """What the library is told and tells: `struct control` of refusing.c."""

    _fields_ = [
        ("thread", ctypes.c_int32),
        ("nth", ctypes.c_uint32),
        ("requests", ctypes.c_uint32),
        ("refused", ctypes.c_uint32),
        ("sizes", ctypes.c_uint64 * 4096),
    ]


def mapped(kind, folder):
    """A structure in a file of its own, which a library maps as well, and the file's name."""
    with tempfile.NamedTemporaryFile(dir=folder, delete=False) as file:
        file.truncate(ctypes.sizeof(kind))
        return kind.from_buffer(mmap.mmap(file.fileno(), ctypes.sizeof(kind))), file.name


class Heap:
    """The memory of a bridge: its requests are counted, and one of them is refused."""

    def __init__(self, folder, library):
        self.control, name = mapped(Control, folder)
        self.environment = os.environ | {"LD_PRELOAD": library, "CONFBRIDGE_REFUSED": name}
        self.release()

    def refuse(self, thread, nth):
        """From now on counts the requests of a thread, and refuses one of them."""
        self.control.requests, self.control.refused, self.control.nth = 0, 0, nth
        self.control.thread = thread

    def release(self):
        """Counts and refuses no more. How many octets each request asked for, and whether one was refused."""
        self.control.thread = NONE
        return self.control.sizes[: self.control.requests], self.control.refused > 0

    def requests(self):
        return self.control.requests


# Threads


def threads(bridge):
    return {int(name) for name in os.listdir(f"/proc/{bridge.pid}/task")}


def is_asleep(bridge, thread):
    """Whether a thread of a bridge waits for something, or has ended."""
    try:
        stat = pathlib.Path(f"/proc/{bridge.pid}/task/{thread}/stat").read_text()
    except OSError:
        return True
    return stat.rpartition(")")[2].split()[0] in "SZX"


def is_started(bridge, lanes):
    """Whether a bridge without operators has its front, the writer of its lines and all its lanes, and each waits
    whenever one looks."""
    try:
        for _ in range(5):
            if len(threads(bridge)) != lanes + 2 or not all(is_asleep(bridge, it) for it in threads(bridge)):
                return False
            time.sleep(0.001)
    except OSError:
        return False
    return True


def own_threads(bridge, lanes):
    """The threads of a bridge without operators, by name: the front, with which the program began, the writer of lines,
    which starts before the lanes, and these."""
    until(lambda: is_started(bridge, lanes), "the bridge doesn't start a thread for each lane")
    writer, *lanes = sorted(threads(bridge) - {bridge.pid})
    return {"front": bridge.pid, "writer": writer} | {f"lane {at}": it for at, it in enumerate(lanes)}
