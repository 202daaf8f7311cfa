"""Workers and programs that end with what started them, however that ends."""

import ctypes
import shutil
import signal

# `prctl` sends a process this signal where its parent ends (PR_SET_PDEATHSIG).
DEATH = 1


def ends_with_parent():
    """Has this worker end with the tool, to which it leaves Ctrl-C."""
    signal.signal(signal.SIGINT, signal.SIG_IGN)
    ctypes.CDLL(None).prctl(DEATH, signal.SIGKILL)


def under():
    """The words under which a program is started that ends with this worker."""
    return ("setpriv", "--pdeathsig", "KILL") if shutil.which("setpriv") else ()
