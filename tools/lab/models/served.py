"""A stand-in for a bridge: its desk over TCP by the model, without media.

    served.py serve FILE

FILE has a bridge's settings. It answers lines as docs/FORMATS.md says, with seats. Its answers wait without bound, it
closes no connection for its silence, and it counts nothing for `stats` and `levels`: who makes a Front may say what it
answers to these.
"""

import math
import os
import pathlib
import socket
import socketserver
import sys
import threading
import time
import tomllib

if __name__ == "__main__":
    sys.path.insert(0, str(pathlib.Path(__file__).resolve().parents[2]))

from operators.models.desk import Log, made_line  # noqa: E402
from operators.models.lines import fault_of_line  # noqa: E402

MOST_OCTETS = 4096
# More calls than a desk accepts.
EVERY_CALL = 2**64 - 1


class Front(socketserver.ThreadingTCPServer):
    """The desk, its seats, and the connections of operators."""

    allow_reuse_address = daemon_threads = True
    request_queue_size = 64

    def __init__(self, address, seats, ssrc):
        super().__init__(address, Operator)
        self.log, self.lock, self.seats, self.taken, self.watching = Log(), threading.Lock(), seats, {}, set()
        self.log.desk.bridge = ssrc
        # The line of each accepted call as `calls` tells it.
        self.stamped = []
        # The lease: when it ends, and the name of who gave it.
        self.lease = None
        # The answers to some lines.
        self.answers = {"stats": lambda: ["end"], "levels": lambda: ["end"]}


    def leased(self):
        """What the line `lease` tells."""
        if self.lease is None:
            return "lease off"
        end, name = self.lease
        return f"lease {max(0, math.ceil(1000 * (end - time.monotonic())))} {name}"

    def gets_lease(self, word, name):
        """The answer to a line that gives a lease, or takes it."""
        if word == "off":
            self.lease = None
            return "lease off"
        self.lease = time.monotonic() + int(word) / 1000, name
        return f"lease {word} {name}"

    def is_closed_to(self, name):
        """Whether the lease has ended, and was given by another name than this one."""
        return self.lease is not None and time.monotonic() >= self.lease[0] and not self.lease[1] == name != "-"


class Operator(socketserver.StreamRequestHandler):
    """A connection."""

    # The name of the connection, and whether its watch has names.
    name, form = "-", False

    def handle(self):
        try:
            while line := self.rfile.readline(MOST_OCTETS + 2):
                if not self.is_answered(line):
                    break
        except OSError:
            pass
        finally:
            with self.server.lock:
                self.server.taken.pop(self, None)
                self.server.watching.discard(self)

    def says(self, text):
        self.wfile.write(f"{text}\n".encode())

    def is_answered(self, line):
        """Answers a line. Whether the connection goes on."""
        octets = line.removesuffix(b"\n").removesuffix(b"\r")
        if len(octets) > MOST_OCTETS or not line.endswith(b"\n"):
            self.says("fault 0 1 LineTooLong")
            return False
        fault = fault_of_line(octets)
        if fault:
            self.says(fault)
            return self in self.server.taken and not fault.startswith("fault 0")
        with self.server.lock:
            free = [seat for seat in range(self.server.seats) if seat not in self.server.taken.values()]
            if self not in self.server.taken and not free:
                self.says("busy")
                return False
            seat = self.server.taken.setdefault(self, free[0] if free else 0)
            return self.is_carried_out(octets.decode().split(" "), seat)

    def is_carried_out(self, words, seat):
        log = self.server.log
        if words == ["stop"]:
            print("confbridge: stopped", file=sys.stderr, flush=True)
            os._exit(0)
        if words == ["quit"]:
            return False
        if words == ["show"]:
            lines = log.desk.shown(log.version)
        elif words == ["groups"]:
            lines = log.desk.groups(log.version)
        elif words[0] == "history":
            lines = log.history(int((words[1:] or [EVERY_CALL])[0]))
        elif words[0] == "as":
            self.name, lines = words[1], [" ".join(words)]
        elif words[0] in ("why", "help"):
            lines = ["end"]
        elif words[0] == "calls":
            most = int((words[1:] or [EVERY_CALL])[0])
            lines = [*self.server.stamped[max(0, len(self.server.stamped) - most) :], f"end {log.version}"]
        elif words[0] == "watch":
            self.server.watching.add(self)
            self.form = words[1:] == ["names"]
            lines = [f"end {log.version}"]
        elif words in (["stats"], ["levels"]):
            lines = self.server.answers[words[0]]()
        elif words[0] == "lease":
            lines = [self.server.gets_lease(words[1], self.name) if words[1:] else self.server.leased()]
        elif self.server.is_closed_to(self.name):
            lines = [f"no {log.version} 27 Closed"]
        else:
            lines = [log.call(words, seat)]
        self.says("\n".join(lines))
        if lines[0].startswith("ok "):
            self.tell_of(words, seat)
        return True

    def tell_of(self, words, seat):
        """Tells those who watch of the last accepted call."""
        line = made_line(self.server.log.version, seat, words)
        number, seat, call = line.split(" ", 2)
        stamped = f"call {number} {time.time_ns() // 1_000_000} {seat} {self.name} {call}"
        self.server.stamped.append(stamped)
        for other in self.server.watching:
            try:
                other.says(stamped if other.form else f"call {line}")
            except OSError:
                pass


def address_of(text):
    host, _, port = text.rpartition(":")
    return host, int(port)


def main():
    settings = tomllib.loads(pathlib.Path(sys.argv[2]).read_text())
    with socket.socket(socket.AF_INET, socket.SOCK_DGRAM) as udp:
        udp.bind(address_of(settings["udp"]))
        front = Front(address_of(settings["tcp"]), settings.get("operators", 1), settings.get("bridge_ssrc", 1))
        places = "udp {}:{} and tcp {}:{}".format(*udp.getsockname(), *front.server_address)
        print(f"confbridge: listening on {places}, ticks from {time.time_ns()}", file=sys.stderr, flush=True)
        front.serve_forever()


if __name__ == "__main__":
    main()
