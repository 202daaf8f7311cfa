"""Captures the packets of some ports on loopback to a file, in a process of its own."""

import multiprocessing
import time

from checks.captures.writing import pcap
from operators.captures.links import RAW, Packets
from operators.captures.live import Live
from operators.captures.notes import Notes

# How long it may take until a capture begins, and until it ends, in seconds.
PATIENCE = 300


class Recorder:
    """Captures between `begin` and `end`."""

    def __init__(self, ports, path):
        self.ports, self.path = {str(port) for port in ports}, path
        context = multiprocessing.get_context("fork")
        self.stop, self.is_there = context.Event(), context.Event()
        self.process = context.Process(target=self.record, daemon=True)

    def begin(self):
        """Starts to capture, and waits until it does."""
        self.process.start()
        if not self.is_there.wait(PATIENCE):
            raise TimeoutError("the capture doesn't begin")

    def end(self):
        """Writes the file. Whether nothing was lost."""
        self.stop.set()
        self.process.join(PATIENCE)
        if self.process.exitcode is None:
            raise TimeoutError("the capture doesn't end")
        return self.process.exitcode == 0

    def is_wanted(self, frame):
        """Whether a frame is of one of the ports. Fragments are."""
        for packet in Packets(Notes()).of([frame]):
            return not self.ports.isdisjoint((packet.source.rpartition(":")[2], packet.target.rpartition(":")[2]))
        return frame.octets[6:8] not in (b"\0\0", b"\x40\0")

    def record(self):
        live, kept, end = Live("lo"), [], None
        self.is_there.set()
        for frame in live.frames():
            # Other programs may never leave the interface silent.
            if self.stop.is_set():
                end = end or time.time_ns()
                if not frame or frame.moment > end:
                    break
            if frame and self.is_wanted(frame):
                kept.append((frame.moment, frame.octets))
        self.path.write_bytes(pcap(kept, RAW, units=10**9))
        raise SystemExit(1 if live.lost() else 0)
