"""What is wrong with a capture, by name: each fault once, with how often it comes and where first."""


class BadCapture(Exception):
    """Why nothing can be read of a capture."""


# So many faults are told by name. A capture of strangers could have one for each of their addresses.
MOST = 100


class Notes:
    """The faults of a capture, in the order in which they came first."""

    def __init__(self):
        self.found = {}

    def add(self, text, moment=None):
        """Notes a fault, which came at a moment in nanoseconds since 1970."""
        if text not in self.found and len(self.found) >= MOST:
            text = "faults of further kinds"
        count, first = self.found.get(text, (0, moment))
        self.found[text] = count + 1, first

    def __bool__(self):
        return bool(self.found)

    def lines(self, begin=0):
        """A line for each fault. Times are seconds since a moment."""
        for text, (count, first) in self.found.items():
            times = f"{count} times, " if count > 1 else ""
            where = (
                f" ({times}{'first ' if count > 1 else ''}at {max(0, first - begin) / 1e9:.3f} s)"
                if first is not None
                else ""
            )
            yield text + where
