"""Networks beside this machine's own, made of network namespaces: one behind a NAT, and one whose address changes. Who
is started in one reaches this machine by it alone."""

import contextlib
import ctypes
import os
import shutil
import subprocess

# This machine's address towards the NAT, and that of who is behind it.
OUTSIDE, BEHIND = "10.213.7.1", "192.168.213.2"
CLONE_NEWNET = 0x40000000
SETUP = f"""
ip netns add NAT
ip netns add OWN
ip link add LINK type veth peer name out netns NAT
ip address add {OUTSIDE}/30 dev LINK
ip link set LINK up
ip -n NAT address add 10.213.7.2/30 dev out
ip -n NAT link set out up
ip -n NAT link add near type veth peer name eth netns OWN
ip -n NAT address add 192.168.213.1/24 dev near
ip -n NAT link set near up
ip -n OWN address add {BEHIND}/24 dev eth
ip -n OWN link set eth up
ip -n OWN link set lo up
ip -n OWN route add default via 192.168.213.1
ip netns exec NAT tee /proc/sys/net/ipv4/ip_forward
ip netns exec NAT iptables -t nat -A POSTROUTING -o out -p udp -j MASQUERADE --random
ip netns exec NAT iptables -t nat -A POSTROUTING -o out -j MASQUERADE
ip netns exec NAT iptables -A FORWARD -i out -m conntrack ! --ctstate ESTABLISHED,RELATED -j DROP
"""
# The same of a network without a NAT, whose browser has the second address at first.
HERE, THERE = "10.213.8.1", "10.213.8.{}"
PLAIN = f"""
ip netns add OWN
ip link add LINK type veth peer name eth netns OWN
ip address add {HERE}/24 dev LINK
ip link set LINK up
ip -n OWN address add {THERE.format(2)}/24 dev eth
ip -n OWN link set eth up
ip -n OWN link set lo up
"""


def lacks(*programs):
    """What a network lacks on this machine."""
    if os.geteuid():
        return "there is no leave to make one"
    missing = [one for one in programs if not shutil.which(one)]
    return f"there is no {' and no '.join(missing)}" if missing else ""


class Network:
    """A network by its commands."""

    def __init__(self, setup):
        self.names = {"NAT": f"nat{os.getpid()}", "OWN": f"own{os.getpid()}", "LINK": f"gw{os.getpid()}"}
        try:
            self.do(setup)
        except subprocess.CalledProcessError:
            self.close()
            raise

    def do(self, commands):
        for line in commands.strip().splitlines():
            words = [self.names.get(word, word) for word in line.split()]
            subprocess.run(words, input=b"1", stdout=subprocess.DEVNULL, check=True)

    @contextlib.contextmanager
    def within(self):
        """What this thread opens and starts meanwhile is in it."""
        c = ctypes.CDLL(None, use_errno=True)
        with open("/proc/thread-self/ns/net") as here, open(f"/run/netns/{self.names['OWN']}") as there:
            if c.setns(there.fileno(), CLONE_NEWNET):
                raise OSError(ctypes.get_errno(), "setns")
            try:
                yield
            finally:
                c.setns(here.fileno(), CLONE_NEWNET)

    def close(self):
        """Ends it at once. A connection that a browser has left keeps a namespace for minutes, and with it a second way
        to these addresses."""
        ends = ["link", self.names["LINK"]], *(["netns", self.names[name]] for name in ("NAT", "OWN"))
        for kind, name in ends:
            subprocess.run(["ip", kind, "del", name], stderr=subprocess.DEVNULL, check=False)


class Nat(Network):
    """A NAT that gives each flow a port of its own choice, and lets in what answers."""

    def __init__(self):
        super().__init__(SETUP)

    def flows(self):
        """How many flows of UDP it knows."""
        words = ["ip", "netns", "exec", self.names["NAT"], "cat", "/proc/net/nf_conntrack"]
        return subprocess.run(words, capture_output=True, text=True, check=False).stdout.count(" udp ")


class Link(Network):
    """A network without a NAT, whose browser gets another address each time."""

    def __init__(self):
        super().__init__(PLAIN)
        self.number, self.address = 2, THERE.format(2)

    def moves(self):
        """Its address is another one at once."""
        self.do(f"ip -n OWN address flush dev eth\nip -n OWN address add {THERE.format(self.number + 1)}/24 dev eth")
        self.number, self.address = self.number + 1, THERE.format(self.number + 1)

    def breaks(self):
        self.do("ip -n OWN link set eth down")

    def heals(self):
        """It is there again, with another address."""
        self.do("ip -n OWN link set eth up")
        self.moves()
