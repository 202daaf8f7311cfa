"""Which call of another person came first, as docs/FORMATS.md says it of the field `X-Desk-Seen`."""

# What each command is about.
ABOUT = {
    "room": "add-room remove-room",
    "member": "add-member move-member remove-member",
    "source": "add-source remove-source mute unmute",
    "slot": "add-slot remove-slot subscribe unsubscribe",
    "pin": "pin unpin",
    "floor": "give-floor take-floor",
    "gain": "set-gain",
}
KIND = {verb: kind for kind, verbs in ABOUT.items() for verb in verbs.split()}
# What the second word of a command names that brings something there.
BRINGS = {"add-member": "room", "move-member": "room", "add-source": "member", "add-slot": "member"}
TURNS = "undo", "redo", "revert"


def rows_of(call):
    """The rows that a call is about, and those that it touches besides."""
    own, more = set(), set()
    for command in call.removeprefix("group ").split(" / "):
        verb, *words = command.split(" ")
        if verb in KIND:
            own.add((KIND[verb], *words[: 2 if verb == "set-gain" else 1]))
        if verb in BRINGS:
            more.add((BRINGS[verb], *words[1:2]))
    return own, more


def touches(call, line):
    """Whether a call touches a row that a line is about."""
    verb, turn = (one.partition(" ")[0] for one in (line, call))
    if verb in TURNS:
        return False
    own, more = rows_of(call)
    return turn in TURNS or bool(rows_of(line)[0] & (own | more))


def newer_call(log, line, name, seen):
    """The first such call in the lines of a log, or nothing."""
    for logged in log:
        word, number, _, _, other, call = [*logged.split(" ", 5), *[""] * 5][:6]
        if word == "call" and int(number) > seen and other != name and touches(call, line):
            return logged
    return None
