"""Whether the bridge is overloaded, by the items that its lanes drop (`stats` of docs/FORMATS.md): a rule that asks
nobody."""

WORDS = "The bridge is overloaded: sound and pictures have gaps."
# For how many seconds after the last items were dropped that is said.
STANDS = 10


class Overload:
    def __init__(self):
        # How many items each lane had dropped when that was last told, and when that number last rose.
        self.dropped, self.rose = None, None

    def look(self, lines, now):
        """Takes an answer to `stats`. Words where items were dropped a short while ago, and else none."""
        words = [line.split() for line in lines if line.startswith("lane ")]
        told = {one[1]: int(one[one.index("dropped") + 1]) for one in words}
        if self.dropped is not None and any(count > self.dropped.get(lane, 0) for lane, count in told.items()):
            self.rose = now
        self.dropped = told
        return WORDS if self.rose is not None and now - self.rose < STANDS else ""
