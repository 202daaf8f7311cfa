"""What a single put of etcd takes: the floor beside which a join is told."""

import subprocess
import sys

from checks.bridges import seconds_of
from lab.fleet_call.parts import FLEET, USER

# How many single puts the floor is taken of, and what makes them.
PUTS = 300
PUTTING = """
import sys
sys.path += sys.argv[1:3]
from etcd import ANY, Etcd
store = Etcd([sys.argv[3]], (sys.argv[4], sys.argv[5]), 300)
for at in range(int(sys.argv[6])):
    store.swap([(f"/confbridge/floor/{at}", "x" * 200, ANY)])
print(*__import__("os").times()[:2])
"""


def floor_of(etcd):
    """The processor time of a single put, of who asks and of etcd."""
    before = seconds_of(etcd.process)
    words = [sys.executable, "-B", "-c", PUTTING, FLEET.parent, FLEET.parents[1] / "gateway", etcd.url, *USER]
    done = subprocess.run([*words, str(PUTS)], capture_output=True, text=True, check=True)
    own = sum(map(float, done.stdout.split()))
    return (own + seconds_of(etcd.process) - before) / PUTS
