"""What a person finds at the desk of a call with planted faults, by the table in docs/DEBUGGING.md: the lines of
`stats`, `show` and `calls`. What no line there says is left to `explain`."""

# The octets of a packet of sound, which `stats` counts as samples.
SAMPLES = 160
# For so many milliseconds at least a source that sends silence is told to be silent, of those that a call has.
SILENT = 2000


def pairs(line):
    """The words of a line of `stats` behind its first ones, by their names."""
    words = line.split(" ")
    return dict(zip(words[3::2], words[4::2]))


class Desk:
    """The desk at the end of a call, and the member with a fault: its number, its source, its address, and the SSRC of
    its packets where that is another one."""

    def __init__(self, stats, show, calls, others, address):
        self.show, self.calls = show, calls
        self.member, self.ssrc, self.other, self.unknown = (str(others[one]) for one in (11, 202, 777, 77))
        self.address, self.strangers = address, [line.split(" ") for line in stats if line.startswith("stranger ")]
        lines = [line for line in stats if line.startswith(f"source {address} {self.ssrc} ")]
        self.source = {word: int(it) if it.isdigit() else it for word, it in pairs(lines[0]).items()} if lines else {}
        self.stats = stats

    def type_is(self, pt):
        return self.source.get("bad-payload", 0) > 0 and self.source.get("bad-type") == pt

    def half(self):
        """Whether its packets hold half as much sound."""
        packets = self.source.get("packets", 0)
        return packets > 0 and self.source.get("samples") == packets * SAMPLES // 2

    def stranger(self, address, ssrc):
        """Whether somebody unknown has this SSRC, and the address or, with None, another one than the member's."""
        there = [one for one in self.strangers if one[2] == ssrc]
        return any(one[1] == address if address else one[1] != self.address for one in there)

    def said(self, row, call):
        """Whether the desk has a row, and the log the call that made it."""
        is_called = any(line.split(" ", 5)[5] == call for line in self.calls if line.startswith("call "))
        return row in self.show and is_called

    def is_alone(self):
        rows = [row.split(" ") for row in self.show if row.startswith("member ")]
        return [row[2] for row in rows if row[3] == "2"] == [self.member]

    def nothing(self):
        """Whether no line has its SSRC or its address."""
        senders = [line.split(" ")[1:3] for line in self.stats if line.startswith(("source ", "stranger "))]
        return not any(self.address == address or self.ssrc == ssrc for address, ssrc in senders)


# By a fault's name: whether the desk tells it.
TOLD = {
    "PCMA": lambda it: it.type_is(8) and not it.source["packets"],
    "Opus": lambda it: it.type_is(111) and not it.source["packets"],
    "keys": lambda it: it.type_is(101) and it.source["packets"],
    "comfort noise": lambda it: it.type_is(13) and it.source["packets"],
    "another port": lambda it: it.stranger(None, it.ssrc) and not it.source,
    "another address": lambda it: it.stranger(None, it.ssrc) and it.source,
    "another SSRC": lambda it: it.stranger(it.address, it.other),
    "a stranger": lambda it: it.stranger(None, it.unknown),
    "nothing": lambda it: it.nothing(),
    "loss": lambda it: it.source.get("lost", 0) > 5,
    "silence": lambda it: it.source.get("silent", 0) > SILENT and not it.source["energy"],
    "scattered numbers": lambda it: it.source.get("probation", 0) > 10,
    "numbers that jump": lambda it: it.source.get("jump", 0) == 1,
    "half packets": Desk.half,
    "seldom packets": Desk.half,
    "a mute": lambda it: it.said(f"mute {it.ssrc}", f"mute {it.ssrc}"),
    "a gain of 0": lambda it: it.said(f"gain 10 {it.ssrc} 0", f"set-gain 10 {it.ssrc} 0"),
    "another room": Desk.is_alone,
    "no floor": lambda it: not any(row.startswith("floor ") for row in it.show),
}


def lacking(name, desk):
    """What the desk doesn't tell of a fault, though it should, as lines of a text."""
    if name not in TOLD or TOLD[name](desk):
        return []
    return [f"the desk doesn't tell {name} of {desk.ssrc} at {desk.address}", *desk.stats, *desk.show]
