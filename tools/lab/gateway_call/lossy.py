"""A network that loses packets, between rtpengine and the bridge."""

import contextlib
import random
import re
import select
import socket
import threading
import time

from operators.serving import udp_socket

# What a narrow way holds, in seconds.
MOMENT = 0.2


class Narrow:
    """A way that takes so many bits a second, and holds what comes for a moment at most."""

    def __init__(self, bits):
        self.octets, self.free, self.at = bits / 8, bits / 8 * MOMENT, time.monotonic()

    def takes(self, length):
        now = time.monotonic()
        self.free, self.at = min(self.octets * MOMENT, self.free + self.octets * (now - self.at)), now
        if length > self.free:
            return False
        self.free -= length
        return True


class Lossy:
    """A network between rtpengine and the bridge that loses packets, and a way to the desk that puts members behind it.

    It has a socket for each member. The agent's `add-member` lines are passed on with the address of that socket.
    """

    def __init__(self, udp, tcp, share):
        self.bridge, self.desk, self.share, self.random = (
            ("127.0.0.1", udp),
            ("127.0.0.1", tcp),
            share,
            random.Random(1),
        )
        self.near, self.listener = udp_socket(), socket.create_server(("127.0.0.1", 0))
        self.udp, self.tcp = self.near.getsockname()[1], self.listener.getsockname()[1]
        self.far, self.engines = {}, {}
        self.count = {"up": 0, "up lost": 0, "down": 0, "down lost": 0}
        # The ways on which packets are lost.
        self.ways = ["up", "down"]
        # The narrow ways to members: by the port that the bridge sends to.
        self.narrow = {}
        threading.Thread(target=self.pass_packets, daemon=True).start()
        threading.Thread(target=self.pass_lines, daemon=True).start()

    def behind(self, line):
        """An agent's line, with addresses of this network."""

        def replaced(found):
            engine = found[2], int(found[3])
            self.far[engine] = udp_socket()
            self.engines[self.far[engine]] = engine
            return f"{found[1]}127.0.0.1:{self.far[engine].getsockname()[1]} "

        return re.sub(r"(add-member \d+ \d+ )([\d.]+):(\d+) ", replaced, line)

    def pass_lines(self):
        while True:
            agent, _ = self.listener.accept()
            lines, desk = agent.makefile("r"), socket.create_connection(self.desk)
            threading.Thread(target=self.pass_answers, args=[desk, agent], daemon=True).start()
            for line in lines:
                desk.sendall(self.behind(line).encode())
            # The thread that waits for answers ends, and the seat is free.
            desk.shutdown(socket.SHUT_RDWR)
            desk.close()

    def pass_answers(self, desk, agent):
        with contextlib.suppress(OSError):
            while octets := desk.recv(65536):
                agent.sendall(octets)
        agent.close()

    def is_lost(self, way, data):
        # RTCP isn't lost: the second octet of its packets is 192 to 223.
        if 192 <= data[1] <= 223:
            return False
        lost = self.random.random() < self.share and way in self.ways
        self.count[way] += 1
        self.count[way + " lost"] += lost
        return lost

    def is_over(self, one, data):
        """Whether a packet to a member is more than its narrow way takes."""
        way = self.narrow.get(one.getsockname()[1])
        return way is not None and not 192 <= data[1] <= 223 and not way.takes(len(data))

    def pass_packets(self):
        while True:
            for one in select.select([self.near, *self.engines], [], [], 0.1)[0]:
                data, sender = one.recvfrom(65536)
                if one is not self.near:
                    if not self.is_lost("down", data) and not self.is_over(one, data):
                        self.near.sendto(data, self.engines[one])
                elif sender in self.far and not self.is_lost("up", data):
                    self.far[sender].sendto(data, self.bridge)
