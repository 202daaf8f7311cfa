"""Which calls of a history are in force, and how far back a revert goes. A call is its number, operator and words."""

# The most commands and reverts that a revert goes past.
MOST_PAST = 256
# The commands that take a row, with the row's table and the field of its key.
TAKING = {
    "remove-room": ("rooms", "room"),
    "remove-member": ("members", "member"),
    "remove-source": ("sources", "ssrc"),
    "remove-slot": ("slots", "out"),
    "unsubscribe": ("subs", "out"),
    "unmute": ("mutes", "source"),
    "unpin": ("pins", "room"),
    "take-floor": ("floors", "room"),
}
# The rows that others hang on, with the word that a refusal has for each: who is in the call, and where.
STANDING = {"members": ("member", "member"), "rooms": ("room", "room"), "sources": ("ssrc", "source"),
            "slots": ("out", "slot")}  # fmt: skip


def taken_by(words):
    """The number of the call that a call takes back."""
    return int(words[1]) if words[0] == "revert" else None


def in_force(calls):
    """The calls in force, oldest first: those that no newer call in force took back."""
    struck, kept = set(), []
    for call in reversed(calls):
        if call[0] not in struck:
            kept.append(call)
            struck.add(taken_by(call[2]))
    return kept[::-1]


def base_of(calls, number):
    """How many calls a revert leaves as they are: it goes past the call of this number and all behind it, and past what
    the reverts among these took back."""
    low, place = number, len(calls)
    while place and calls[place - 1][0] >= low:
        place -= 1
        low = min(low, taken_by(calls[place][2]) or low)
    return place


def weight_of(words):
    """How many commands a call carries out; a revert counts as one."""
    return words.count("/") + 1 if words[0] == "group" else 1


def is_far(calls, number):
    """Whether a revert would go past more commands and reverts than it may, those of the call itself apart."""
    past = calls[base_of(calls, number) :]
    return sum(weight_of(words) for made, _, words in past if made != number) > MOST_PAST


def is_idle(desk, words, why):
    """Whether a refused command asks for what is so already."""
    if words[0] in TAKING:
        table, key = TAKING[words[0]]
        return desk.one(table, **{key: int(words[1])}) is None
    return why.startswith("10 ")


def standing(desk):
    """The rooms, members, sources and slots, as a refusal names them."""
    return [f"{word} {row[key]}" for table, (key, word) in STANDING.items() for row in sorted_rows(desk, table, key)]


def sorted_rows(desk, table, key):
    """Members in joining order, all other rows by their keys."""
    rows = getattr(desk, table)
    return rows if table == "members" else sorted(rows, key=lambda row: row[key])
