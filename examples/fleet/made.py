"""What calls make of a room's rows, as docs/FORMATS.md says: the desk of one room.

An agent finds by it which calls of operators make the rows that it sees, and of which rows. Whether a bridge takes them
is for the bridge to say: limits and what other rooms have aren't looked at here.
"""

import contextlib
import re

from kept import MADE, MOST_COMMANDS, MOST_OCTETS, NAMED, NUMBER, WORDS, Unmade, parts_of

# The commands that take what another one has made.
TAKING = {
    "remove-member": "add-member", "remove-source": "add-source", "remove-slot": "add-slot", "unsubscribe": "subscribe",
    "unmute": "mute", "unpin": "pin", "take-floor": "give-floor",
}  # fmt: skip
# The commands whose row takes the place of another one, and the kinds of source that some name.
REPLACING = ("subscribe", "set-gain", "pin", "give-floor")
MEDIA = {"subscribe": "video", "pin": "video", "set-gain": "audio"}
# The making commands in an order in which each names only what is there, and the one that makes each kind of row.
PLACE = {word: place for place, word in enumerate(WORDS)}
MAKER = {kind: word for word, kind in MADE.items()}
# A command within a room: it neither makes nor takes one, and moves nobody.
WITHIN = re.compile(
    "|".join(f"{word} {words}" for word, words in WORDS.items() if word != "add-room")
    + f"|(?:{'|'.join(TAKING)}) {NUMBER}"
)


class Cannot(Exception):
    """A command that a desk would refuse."""


def is_within(call):
    """Whether a call is one command, or a group, of those that stay within a room."""
    parts = parts_of(call)
    return len(call) <= MOST_OCTETS and len(parts) <= MOST_COMMANDS and all(map(WITHIN.fullmatch, parts))


def key_of(command):
    """What a making command has that no other one has."""
    word, *given = command.split(" ")
    return (word, *given[: 2 if word == "set-gain" else 1])


def named_by(command):
    """The rooms, members, sources and slots that a command names, as kinds and numbers; what it adds isn't named."""
    word, *given = command.split(" ")
    if word in TAKING:
        made = TAKING[word]
        return [(MADE.get(made) or NAMED[made][0][0], given[0])]
    return [(kind, given[place - 1]) for kind, place in NAMED[word]]


class Rows:
    """The rows of a room, by the commands that make them. Raises Cannot where they can't be."""

    def __init__(self, commands):
        # The words of each row's command, by what no other one has; and what may be there once alone.
        self.rows, self.used = {}, set()
        for command in commands:
            self.carry_out(command)

    def call(self, call):
        """Carries a call out, as a whole or not at all."""
        parts = parts_of(call)
        before = (dict(self.rows), set(self.used)) if len(parts) > 1 else (self.rows, self.used)
        try:
            for command in parts:
                self.carry_out(command)
        except Cannot:
            self.rows, self.used = before
            raise

    def carry_out(self, command):
        word, *given = command.split(" ")
        if word in TAKING:
            self.take((TAKING[word], given[0]))
        else:
            self.make(word, given)

    def make(self, word, given):
        key = key_of(" ".join([word, *given]))
        before = self.rows.get(key)
        if before is not None and (word not in REPLACING or before == given):
            raise Cannot
        if word != "add-room" and not all((MAKER[kind], given[place - 1]) in self.rows for kind, place in NAMED[word]):
            raise Cannot
        if word in MEDIA and self.rows["add-source", given[1]][2] != MEDIA[word]:
            raise Cannot
        single = singles(word, given)
        if not self.used.isdisjoint(single):
            raise Cannot
        self.used |= single
        self.rows[key] = given

    def take(self, key):
        """Takes a row, and those that name it."""
        if key not in self.rows:
            raise Cannot
        del self.rows[key]
        if key[0] in MADE:
            rows, self.rows, self.used = self.rows, {}, set()
            for (word, *_), given in sorted(rows.items(), key=lambda one: PLACE[one[0][0]]):
                with contextlib.suppress(Cannot):
                    self.make(word, given)

    def commands(self):
        """The commands that make the rows, in the order of a `show`."""
        return [" ".join([key[0], *self.rows[key]]) for key in sorted(self.rows, key=order_of)]


def order_of(key):
    """Where a row stands in a `show`: members by their places, all others by their numbers."""
    return PLACE[key[0]], [] if key[0] == "add-member" else [*map(int, key[1:])]


def singles(word, given):
    """What no two rows of a desk have."""
    if word == "add-member":
        return {("address", given[2]), ("ssrc", given[4])}
    if word == "add-source":
        return {("ssrc", given[0])}
    return {("ssrc", given[0]), ("index", *given[1:3])} if word == "add-slot" else set()


def after(commands, calls):
    """The commands that make a room's rows once calls are carried out on others, and those calls that can be. Raises
    Cannot where there can't be such rows to begin with."""
    rows, good = Rows(commands), []
    for number, call in calls:
        with contextlib.suppress(Cannot):
            rows.call(call)
            good.append((number, call))
    return rows.commands(), good
