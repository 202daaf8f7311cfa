"""A key frame of 100 packets to 30 receivers over a link of 1 Gbit/s, which `ip` and `tc` make: a pair of devices with
a token bucket.

The bridge is at one end, and its members are in a network namespace at the other. The bridge's packets wait in its
socket's send buffer and in the link's queue, which is longer than that buffer: so nothing is dropped behind the socket.
Where a socket isn't ready, a lane waits.
"""

import ctypes
import os
import pathlib
import shutil
import socket
import subprocess
import tempfile
import time

from checks.bridges import accepted
from operators.packets import payload_of, rtp, ssrc_of
from operators.serving import Operator, come_to, port_of, with_room
from operators.shared import fail

RECEIVERS, FRAME, OCTETS, VIDEO = 30, 100, 1100, 101
HERE, THERE = "10.213.77.1", "10.213.77.2"
# The link's rate, how many octets may pass at once, and its queue, longer than a send buffer of net.core.wmem_default.
SHAPE = "tbf rate 1gbit burst 64kb limit 4mb".split()
NEW_NETWORK = 0x40000000
PATIENCE = 20


def tried(*words):
    return subprocess.run(words, capture_output=True, text=True, check=False)


def made(*words):
    done = tried(*words)
    if done.returncode:
        raise OSError(f"{' '.join(words)}: {done.stderr.strip()}")


class Link:
    """Two ends of a shaped link. The far one is in a network namespace of its own."""

    def __init__(self):
        self.name = f"confbridge-{os.getpid()}"
        self.near, self.far = f"cb{os.getpid()}a", f"cb{os.getpid()}b"

    def make(self):
        made("ip", "netns", "add", self.name)
        made("ip", "link", "add", self.near, "type", "veth", "peer", "name", self.far, "netns", self.name)
        made("ip", "address", "add", f"{HERE}/30", "dev", self.near)
        made("ip", "-n", self.name, "address", "add", f"{THERE}/30", "dev", self.far)
        made("ip", "link", "set", self.near, "up")
        made("ip", "-n", self.name, "link", "set", self.far, "up")
        made("tc", "qdisc", "add", "dev", self.near, "root", *SHAPE)

    def sockets(self, count):
        """UDP sockets at the far end, with room for a whole frame."""
        with open("/proc/self/ns/net") as own, open(f"/run/netns/{self.name}") as other:
            enter = ctypes.CDLL(None, use_errno=True).setns
            if enter(other.fileno(), NEW_NETWORK):
                raise OSError(ctypes.get_errno(), "setns")
            try:
                found = [socket.socket(socket.AF_INET, socket.SOCK_DGRAM) for _ in range(count)]
                for one in found:
                    one.bind((THERE, 0))
            finally:
                enter(own.fileno(), NEW_NETWORK)
        for one in found:
            with_room(one, 4 << 20)
            one.setblocking(False)
        return found

    def dropped(self):
        """How many packets the link's queue dropped."""
        said = tried("tc", "-s", "qdisc", "show", "dev", self.near).stdout
        return int(said.split("dropped ")[1].split(",")[0])

    def end(self):
        tried("ip", "link", "del", self.near)
        tried("ip", "netns", "del", self.name)


class Fan:
    """A bridge at the near end, and a source with its receivers at the far one."""

    def __init__(self, program, link, lanes, folder):
        self.source, *self.receivers = link.sockets(1 + RECEIVERS)
        path = pathlib.Path(folder) / "serve.toml"
        path.write_text(f'udp = "{HERE}:0"\ntcp = "127.0.0.1:0"\nlanes = {lanes}\n')
        self.bridge = subprocess.Popen(
            [program, "serve", path], stdin=subprocess.DEVNULL, stderr=subprocess.PIPE, text=True
        )
        words = self.bridge.stderr.readline().split()
        addresses = (word.strip(",").partition(":") for word in words if ":" in word[:-1])
        self.udp, tcp = ((host, int(port)) for host, _, port in addresses)
        self.operator, self.seq, self.ts = Operator(socket.create_connection(tcp, timeout=PATIENCE)), 0, 0
        accepted(
            self.operator,
            "add-room 1",
            f"add-member 100 1 {THERE}:{port_of(self.source)} pcmu 9000 0 0",
            f"add-source {VIDEO} 100 video",
        )
        for at, one in enumerate(self.receivers):
            number = 101 + at
            accepted(
                self.operator,
                f"add-member {number} 1 {THERE}:{port_of(one)} pcmu {9001 + at} 0 0",
                f"add-slot {501 + at} {number} 0 0 0",
                f"subscribe {501 + at} {VIDEO}",
            )

    def take(self):
        """How many packets of the video have come to each receiver since the last time, with payloads of a frame's
        size."""
        counts = []
        for at, one in enumerate(self.receivers):
            sizes = [len(payload_of(octets)) for octets in come_to(one) if ssrc_of(octets) == 501 + at]
            counts.append(sizes.count(OCTETS))
        return counts

    def frame(self, count, octets):
        """Sends a frame, at the pace of a camera: ten packets a millisecond, so that the bridge's receive buffer holds
        them."""
        self.ts += 3000
        for at in range(count):
            self.source.sendto(rtp(self.seq, self.ts, VIDEO, bytes(octets), at + 1 == count), self.udp)
            self.seq += 1
            time.sleep(0.0001)

    def begin(self):
        """Sends frames of one packet until each receiver has got one."""
        left, end = set(range(RECEIVERS)), time.monotonic() + PATIENCE
        while left and time.monotonic() < end:
            self.frame(1, OCTETS)
            time.sleep(0.05)
            left -= {at for at, count in enumerate(self.take()) if count}
        if left:
            fail(f"no video comes to {len(left)} receivers")
        time.sleep(0.2)
        self.take()

    def key_frame(self):
        """Sends a key frame. How many packets of it came, and in how many seconds."""
        begun, last, came = time.monotonic(), time.monotonic(), [0] * RECEIVERS
        self.frame(FRAME, OCTETS)
        while sum(came) < RECEIVERS * FRAME and time.monotonic() - last < 1:
            new = self.take()
            came = [a + b for a, b in zip(came, new, strict=True)]
            last = time.monotonic() if any(new) else last
        return sum(came), last - begun

    def end(self):
        """Stops the bridge. What it says."""
        self.operator.tell("stop")
        self.bridge.wait(PATIENCE)
        return self.bridge.stderr.read()


def measured(program, link, count, lanes):
    """Sends so many key frames. Whether all came whole."""
    with tempfile.TemporaryDirectory() as folder:
        fan = Fan(program, link, lanes, folder)
        try:
            fan.begin()
            is_whole = True
            for _ in range(count):
                came, seconds = fan.key_frame()
                is_whole = is_whole and came == RECEIVERS * FRAME
                print(
                    f"{came} of {RECEIVERS * FRAME} packets came in {seconds * 1000:.0f} ms; the link's queue dropped "
                    f"{link.dropped()}"
                )
            print(fan.end(), end="")
        finally:
            fan.bridge.kill()
    return is_whole


def run(program, count, lanes):
    if os.geteuid() or not all(map(shutil.which, ("ip", "tc"))):
        print("link: not tried, since that takes root, `ip` and `tc`")
        return 0
    link = Link()
    try:
        link.make()
    except OSError as why:
        link.end()
        print(f"link: not tried, since this machine makes no shaped link: {why}")
        return 0
    try:
        return 0 if measured(program, link, count, lanes) else 1
    finally:
        link.end()
