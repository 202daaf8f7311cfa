"""A trace of a bridge: read from a connection, taken apart by speaker, and replayed."""

import re
import socket
import subprocess
import threading

from operators.models.reports import ReportBridge
from operators.packets import number, ssrc_of

# What stands before a line of a lane.
LANE = re.compile("lane ([0-9]+) ")
# The types of control that a bridge asks senders for: NACKs and PLIs (RFC 4585 sections 6.2.1 and 6.3.1).
ASKS = 205, 206
# A lane sends its packets again, too.
SENT = ("tx", "re")


class Reader(threading.Thread):
    """Accepts the connection of a trace, and reads it to its end. A slow one reads nothing until it is told to."""

    def __init__(self, is_slow=False):
        super().__init__(daemon=True)
        self.socket, self.octets, self.go_on = socket.socket(), b"", threading.Event()
        self.socket.bind(("127.0.0.1", 0))
        self.socket.listen()
        self.port = self.socket.getsockname()[1]
        if not is_slow:
            self.go_on.set()
        self.start()

    def run(self):
        connection, _ = self.socket.accept()
        self.go_on.wait()
        parts = []
        while part := connection.recv(2**20):
            parts.append(part)
        self.octets = b"".join(parts)
        connection.close()

    def lines(self):
        """All lines, once the connection has ended."""
        self.join(timeout=60)
        return self.octets.decode().splitlines()


def scripts(lines):
    """The script of each speaker: of the receive side by None, and of each lane by its number."""
    found = {}
    for line in lines:
        said = LANE.match(line)
        found.setdefault(int(said[1]) if said else None, []).append(line[said.end() :] if said else line)
    return found


def played(script, program):
    """The lines that a script is answered by a program, or by the models where there is none."""
    if program:
        text = "".join(f"{line}\n" for line in script)
        run = subprocess.run([program, "replay"], input=text, capture_output=True, text=True, check=False)
        if run.returncode:
            raise ValueError(f"a script of the trace ends with status {run.returncode}: {run.stderr[-200:]}")
        return run.stdout.splitlines()
    bridge = ReportBridge()
    return [said for line in script for said in bridge.answer(line)]


def stream_of(words, items):
    """The stream that a lane's compound is about: that of its sender report, or the one that a PLI came for."""
    octets = bytes.fromhex(words[4])
    if octets[1] == 200:
        return number(octets[4:8])
    return int(items[int(words[2])].split(" ")[3])


def sent_by_lane(script, lane, lanes, program):
    """What a lane sent by its script: pairs of address and octets, in order. One lane plays it alone, which sends for
    the streams of all lanes; this lane's have an SSRC that is its number, modulo the lanes."""
    items = dict(enumerate((line for line in script if line.startswith("item ")), 1))
    sent = []
    for line in played(script, program):
        words = line.split(" ")
        if words[0] in SENT:
            stream, to, octets = (int(words[-3]), words[-4], bytes.fromhex(words[-1]))
        elif words[0] == "ct":
            stream, to, octets = stream_of(words, items), words[3], bytes.fromhex(words[4])
        else:
            continue
        if stream % lanes == lane:
            sent.append((to, octets))
    return sent


def pictures(script, ssrc, name):
    """What the bridge asked of its own accord: pairs of address and octets."""
    chunk = ssrc.to_bytes(4, "big") + bytes([1, len(name)]) + name
    chunk += bytes(4 - len(chunk) % 4)
    described = bytes.fromhex("81ca") + (len(chunk) // 4).to_bytes(2, "big") + chunk
    for line in script:
        if line.startswith("# picture "):
            _, _, to, source = line.split(" ")
            media = ssrc.to_bytes(4, "big") + int(source).to_bytes(4, "big")
            yield to, bytes.fromhex("80c90001") + media[:4] + described + bytes.fromhex("81ce0002") + media


def sent_by_front(script, program):
    """What the receive side sent by its script, in order but for pictures: pairs of address and octets."""
    _, ssrc, name, _ = script[0].split(" ")
    words = [line.split(" ") for line in played(script, program)]
    sent = [(one[1], bytes.fromhex(one[2])) for one in words if one[0] == "up"]
    return sent + list(pictures(script, int(ssrc), name.encode()))


def is_control(octets):
    """Whether a datagram is one that the receive side sends: a receiver report with what it asks for."""
    return octets[1] == 201


def stream_in(octets):
    """The stream of a datagram that a lane sent, or None of one that is about no stream."""
    if 192 <= octets[1] <= 223:
        return number(octets[4:8]) if octets[1] == 200 else None
    return ssrc_of(octets)
