"""For how long the threads of a process waited for a processor, as the system counts it."""

import contextlib
import pathlib
import threading
import time

# How often it is looked at, in seconds.
EACH = 0.005


def waits_of(pid):
    """For how many nanoseconds each thread of a process has waited for a processor (schedstat of proc(5)). None are
    there where the system doesn't count it."""
    found = {}
    with contextlib.suppress(OSError):
        for thread in pathlib.Path(f"/proc/{pid}/task").iterdir():
            with contextlib.suppress(OSError, IndexError, ValueError):
                found[thread.name] = int((thread / "schedstat").read_text().split()[1])
    return found


class Stalls(threading.Thread):
    """Looks at a process until it is left: `longest` is the longest time for which one of its threads stood still, or
    nobody could look, in seconds."""

    def __init__(self, pid):
        super().__init__(daemon=True)
        self.pid, self.longest, self.has_ended = pid, 0, threading.Event()

    def run(self):
        before, last = waits_of(self.pid), time.monotonic()
        while not self.has_ended.wait(EACH):
            now, waits = time.monotonic(), waits_of(self.pid)
            # A thread that is new has waited since it began.
            waited = [more - before.get(thread, 0) for thread, more in waits.items()]
            self.longest = max(self.longest, now - last - EACH, *(one / 1e9 for one in waited))
            before, last = waits, now

    def __enter__(self):
        self.start()
        return self

    def __exit__(self, *_):
        self.has_ended.set()
        self.join()
