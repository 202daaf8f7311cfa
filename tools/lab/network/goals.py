"""What calls over a path are measured for: the rows, and the goals that each has to keep."""

import dataclasses
from typing import Callable

from lab.network.call import Measured, Row
from lab.network.path import Path

BURST, OVERTAKEN = 4, 0.02


def rows():
    """All calls."""
    lossy = [Path(loss=loss, burst=burst) for burst in (1, BURST) for loss in (0.001, 0.01, 0.05)]
    far = [Path(trip=0.01), Path(trip=0.3), Path(0.01, trip=0.01), Path(0.01, trip=0.3)]
    shifted = [Path(shift=shift) for shift in (0.08, 0.2, 0.5, 0.9)]
    calls = {
        "own 250/s": [Path(), *far, *lossy, Path(overtaken=OVERTAKEN), *shifted],
        "own 50/s": [Path(0.01), Path(0.05)],
        "own silent": [Path(0.01)],
        "GStreamer": [Path(), Path(0.001), Path(0.01), Path(0.01, BURST), Path(0.05), Path(shift=0.2), Path(shift=0.5)],
        "ffmpeg": [Path(), Path(0.001), Path(0.01), Path(0.01, BURST), Path(0.05), Path(shift=0.5)],
    }
    return [Row(sender, path) for sender, paths in calls.items() for path in paths]


@dataclasses.dataclass(frozen=True)
class Goal:
    """A goal, the rows that it speaks of, and whether what was measured keeps it."""

    text: str
    speaks_of: Callable[[Row], bool]
    is_kept: Callable[[Measured], bool]


def is_usual(row):
    """Whether a row is one of 1 percent loss and a round trip of 100 ms, with a sender that answers NACKs."""
    return row.answers and row.path.loss == 0.01 and row.path.trip == 0.1


GOALS = [
    Goal(
        "1 % lost, 100 ms, a sender that answers NACKs: the picture stands still at most 2 % of the time",
        is_usual,
        lambda it: it.still <= 0.02,
    ),
    Goal(
        "the picture never stands still for over 1.2 s, unless the path itself got longer",
        lambda row: not row.path.shift,
        lambda it: it.longest <= 1.2,
    ),
    Goal("a longer path: sound is back within 1.5 s", lambda row: row.path.shift > 0, lambda it: it.silence <= 1.5),
    Goal(
        "control has at most 1.5 octets for each octet that came, and 256", lambda row: True, lambda it: it.is_bounded
    ),
]

# What may be worse than elsewhere without being told: a share, and a time in seconds.
SHARE, TIME = 0.005, 0.05


def worse_than(bridge, other):
    """What is worse in a call through the bridge than in the same call elsewhere."""
    if bridge is None or other is None:
        return ["nothing is seen or heard"] if other else []
    shares = {"picture": (bridge.still, other.still), "sound": (bridge.missing, other.missing)}
    times = {"picture's longest": (bridge.longest, other.longest), "sound's longest": (bridge.silence, other.silence)}
    said = [
        f"{what} {100 * here:.1f} and {100 * there:.1f} %"
        for what, (here, there) in shares.items() if here > there + SHARE
    ]
    return (
        said + [f"{what} {here:.2f} and {there:.2f} s" for what, (here, there) in times.items() if here > there + TIME]
    )
