"""Has `stats` answered while a bridge's lanes stand still, each as a thread that gets no processor. A signal would stop
the whole program, so the threads are stopped by ptrace(2)."""

import contextlib
import ctypes
import os
import tempfile
import time

from checks.bridges import accepted, check, operator_at, room_lines
from checks.explain.stalls import waits_of
from operators.demo import tone
from operators.packets import rtp
from operators.serving import settings, started, udp_socket

# ptrace(2): a thread is seized without a signal, interrupted, and let go of; and a flag of waitpid(2).
SEIZE, INTERRUPT, DETACH, ALL_THREADS = 0x4206, 0x4207, 17, 0x40000000
# How many packets come before each question, and within how many seconds that is answered.
PACKETS, LONGEST = 100, 1
# How long it may take until an item is dropped for each lane, and until each goes on.
PATIENCE = 120


def traced(request, thread):
    libc = ctypes.CDLL(None, use_errno=True)
    libc.ptrace.argtypes = [ctypes.c_long, ctypes.c_long, ctypes.c_void_p, ctypes.c_void_p]
    libc.ptrace.restype = ctypes.c_long
    if libc.ptrace(request, thread, None, None):
        raise OSError(ctypes.get_errno(), os.strerror(ctypes.get_errno()))


@contextlib.contextmanager
def stopped(threads):
    """Some threads of a child stand still as long as this lasts."""
    held = []
    try:
        for thread in threads:
            traced(SEIZE, thread)
            held.append(thread)
            traced(INTERRUPT, thread)
            os.waitpid(thread, ALL_THREADS)
        yield
    finally:
        for thread in held:
            traced(DETACH, thread)


class Asked:
    """An operator who asks for `stats`; how long the slowest answer took, and for how long threads waited for a
    processor meanwhile, in seconds."""

    def __init__(self, bridge, operator):
        self.bridge, self.operator, self.slowest = bridge, operator, (0, 0)

    def waited(self):
        return sum(sum(waits_of(pid).values()) for pid in (self.bridge.pid, os.getpid())) / 1e9

    def lanes(self):
        """The words of each lane's line."""
        waited, begun = self.waited(), time.monotonic()
        lines = self.operator.shown("stats")
        took, waited = time.monotonic() - begun, self.waited() - waited
        self.slowest = max(self.slowest, (took, waited))
        check(took - waited < LONGEST, f"`stats` has no answer for {took:.1f} s while lanes stand still")
        words = [line.split(" ") for line in lines if line.startswith("lane ")]
        return [dict(zip(one[::2], one[1::2])) for one in words]

    def until(self, holds, text, act=lambda: None):
        """Asks until something holds for each lane."""
        end = time.monotonic() + PATIENCE
        while not all(map(holds, self.lanes())):
            check(time.monotonic() < end, text)
            act()


def threads_of(bridge, lanes):
    """The threads of a bridge whose lanes have begun, without the front's, which is the first one. One tells what
    happens, and those that operators need come with them."""
    end, found = time.monotonic() + PATIENCE, []
    while True:
        before, found = found, [int(thread) for thread in waits_of(bridge.pid) if int(thread) != bridge.pid]
        if len(found) > lanes and found == before:
            return found
        check(time.monotonic() < end, "the lanes of a bridge don't begin")
        time.sleep(0.2)


def handled(lane):
    """How many items a lane has taken."""
    return int(lane["items"]) - int(lane["waiting"])


def check_stopped(program, lanes):
    """While lanes stand still and their rings are full, `stats` is answered within a second. Then they go on."""
    with tempfile.TemporaryDirectory() as folder:
        bridge, udp, tcp = started(program, settings(folder, lanes=lanes))
    threads = threads_of(bridge, lanes)
    members, sent = [udp_socket(), udp_socket()], 0

    def send():
        nonlocal sent
        for sent in range(sent, sent + PACKETS):
            members[0].sendto(rtp(sent, sent * 160, 1000, tone(440, sent), pt=0), ("127.0.0.1", udp))

    operator = operator_at(tcp, PATIENCE)
    accepted(operator, *room_lines(members))
    asked = Asked(bridge, operator)
    with stopped(threads):
        asked.until(lambda lane: lane["dropped"] != "0", "no item is dropped for a lane that stands still", send)
        before = max(map(handled, asked.lanes()))
    asked.until(lambda lane: handled(lane) > before, "a lane that stood still doesn't go on")
    operator.tell("stop")
    check(bridge.wait(PATIENCE) == 0, f"the bridge ended with status {bridge.returncode}")
    took, waited = asked.slowest
    left = ", most of it without a processor, as the machine is busy" if waited > took / 2 else ""
    print(f"while {lanes} lanes stand still `stats` is answered within {1000 * took:.0f} ms{left}", flush=True)
