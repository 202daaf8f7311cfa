"""Large desks: the lines that make them, and how an operator gives these by groups."""

from operators.shared import fail

MOST_PARTS = 64


def add_member(m):
    return f"add-member {m} 1 10.0.{m >> 8}.{m & 255}:5000 pcmu {100000 + m} 0 0"


def full_desk(gains, short=0):
    """The lines that make a full desk, with this many gains for each member, and so many members, sources and slots
    short."""
    members = 1024 - short
    yield "add-room 1"
    for m in range(short, 1024):
        yield add_member(m)
    for s in range(2048 - short):
        yield f"add-source {200000 + s} {short + s % members} {'audio' if s < 64 else 'video'}"
    for s in range(4096 - short):
        yield f"add-slot {300000 + s} {short + s % members} {s // members} 0 0"
    for s in range(4096 - short):
        yield f"subscribe {300000 + s} {200064 + s % (1984 - short)}"
    for m in range(short, 1024):
        for s in range(gains):
            yield f"set-gain {m} {200000 + s} 100"
    yield "pin 1 200064"
    yield f"give-floor 1 {short}"


def in_groups(commands, size=MOST_PARTS):
    return ["group " + " / ".join(commands[at : at + size]) for at in range(0, len(commands), size)]


def fill(operator, commands):
    """Has an operator give commands by groups, each of which has to be accepted. How many calls these are."""
    calls = in_groups(list(commands))
    operator.lines.write("".join(f"{call}\n" for call in calls))
    operator.lines.flush()
    for call in calls:
        told = operator.lines.readline().strip()
        if not told.startswith("ok "):
            fail(f"{call[:60]} .. is answered `{told}`")
    return len(calls)
