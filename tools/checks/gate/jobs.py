"""Prints how many provers fit on this machine, for `rt ci`'s RT_JOBS.

They are as many as this process may use processors, or as the free memory has room for provers, if that is fewer. By
itself `rt ci` reckons with twice the memory that its largest crates take, and leaves processors idle.
"""

import os
import pathlib
import re

NEEDS = "nothing"

# The largest provers of this repository hold 5.7 GB at most, most under 3 (`gate times` prints what each crate takes).
PROVER_MB = 5000


def free_mb():
    """The memory in MB that the system and this process's control group leave."""
    text = pathlib.Path("/proc/meminfo").read_text()
    found = [int(re.search(r"MemAvailable: +(\d+)", text)[1]) / 1000]
    group = pathlib.Path("/sys/fs/cgroup")
    try:
        limit, used = [(group / name).read_text().strip() for name in ("memory.max", "memory.current")]
        found += [(int(limit) - int(used)) / 1e6] if limit.isdigit() else []
    except OSError:
        pass
    return min(found)


def run(_args):
    print(max(1, min(len(os.sched_getaffinity(0)), int(free_mb() / PROVER_MB))))
    return 0
