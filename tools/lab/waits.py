"""Waits that end: each has a name and a bound, and who waits too long says for what."""

import contextlib
import signal
import subprocess
import time

# The waits that have begun: when each ends, its seconds, and what is waited for.
WAITS = []


class Late(SystemExit):
    """A wait that took too long, in words. Where nobody catches it, they are the program's last ones."""

    def __init__(self, wait):
        _, seconds, text = self.wait = wait
        last = WAITS[-1][2]
        more = f", while it waited for {last}" if last != text else ""
        super().__init__(f"{text}: not over within {seconds} s{more}")


def ring(*_):
    for wait in WAITS:
        if wait[0] <= time.monotonic():
            raise Late(wait)


def set_alarm():
    """Rings when the first wait is over, and again each second where that is overheard."""
    signal.signal(signal.SIGALRM, ring)
    left = min(end for end, _, _ in WAITS) - time.monotonic() if WAITS else 0
    signal.setitimer(signal.ITIMER_REAL, max(left, 0.001) if WAITS else 0, 1)


@contextlib.contextmanager
def within(seconds, text):
    """Does something that has to be over after so many seconds, whatever it waits for."""
    WAITS.append((time.monotonic() + seconds, seconds, text))
    set_alarm()
    try:
        yield
    finally:
        WAITS.pop()
        set_alarm()


def ended(process, seconds=10):
    """The status of a process that was asked to end. It is killed where it doesn't."""
    try:
        return process.wait(seconds)
    except subprocess.TimeoutExpired:
        process.kill()
        return process.wait()


def carried_out(check, text, seconds, step):
    """Does a step within its time. Where it is late or breaks off, that is a check that fails. Whether it ended."""
    try:
        with within(seconds, text):
            step()
            return True
    except (SystemExit, OSError, subprocess.SubprocessError) as why:
        # A program that is asked to end, or all of whose time is over, ends.
        if isinstance(why, SystemExit) and not isinstance(why.code, str) or getattr(why, "wait", None) in WAITS:
            raise
        check(False, text, why)
        return False
