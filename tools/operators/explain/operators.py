"""The calls of operators: who asked for what, when, and what the bridge answered."""

import collections
import dataclasses
import re

from operators.models.desk import Log
from operators.models.lines import ALONE, fault_of_line

SEATS = 16
# A capture that is out of order may have an answer so long before its question, in nanoseconds.
EARLY = 10_000_000
# Where lines of an operator are lost, the answers that follow may be theirs. A line that comes so long behind those
# before it, in nanoseconds, has the answer that follows it.
QUIET = 100_000_000
# The longest line of an operator, in octets.
LONGEST = 4096
# So many lines may wait for their answers, and so many rows for their end: a `history` has 4,194,304 octets at most.
MOST_WAITING, MOST_ROWS = 4096, 1 << 19


def is_good(text):
    """Whether an operator's line is one that a bridge takes for a call, or for a word such as `show`."""
    return len(text) <= LONGEST and fault_of_line(text.encode("latin-1")) is None


def is_group(text):
    """Whether an operator's line is a group."""
    return text.startswith("group ") and is_good(text)


def version_in(text, word):
    """The number behind a word, as in `ok 12`, or None."""
    found = re.fullmatch(word + " ([0-9]{1,20})", text)
    return int(found[1]) if found else None


@dataclasses.dataclass
class Call:
    """A line of an operator: when it came, the connection and the seat, its words, the answer and when that left. A
    call that was accepted has its number. `at` is the moment at which it counts. In place of lines that are lost stands
    one that `is_hole`; an accepted call whose line is lost has its number alone. `name` is what the operator said by
    `as`, if anything. `is_sure` where no answer is lost that could make this one another line's."""

    moment: int
    client: str
    text: str
    seat: int = 0
    answer: str = ""
    until: int = 0
    number: int = 0
    at: int = 0
    is_hole: bool = False
    name: str = ""
    is_sure: bool = False

    def who(self):
        """Its operator in words."""
        return f"operator {self.seat} ({self.name})" if self.name else f"operator {self.seat}"

    def is_lost(self):
        """Whether it is a call that was accepted, and nobody knows which one."""
        return self.number > 0 and not self.text

    def is_call(self):
        """Whether it is a call of the desk."""
        return self.is_lost() or self.text.split(" ")[0] not in ALONE and is_good(self.text)

    def is_told_lines(self):
        """Whether its answer is some lines, of which the last is `end VERSION` or `end`."""
        words = ("show", "groups", "history", "calls", "stats", "levels", "watch", "why", "help")
        return self.text.split(" ")[0] in words


@dataclasses.dataclass(frozen=True)
class Shown:
    """A desk as it was told: its rows, its version (None where it isn't known), the moments of the question and of the
    last line; or, by a history, the calls that made it, those in force and those undone, each with its operator. So
    many of the first calls aren't undone by any that follow. Beside the rows, by `calls`, all calls from the first one
    on, each with its operator. `by` is what told it."""

    moment: int
    until: int
    rows: tuple
    version: int
    calls: tuple = ()
    undone: tuple = ()
    floor: int = 0
    by: str = "a `show`"
    log: tuple = ()


# A call as a history tells it: its number, its operator, its words.
TOLD = re.compile(r"([0-9]{1,20}) ([0-9]{1,2}) (.+)", re.ASCII)
# A call as `calls` and `watch names` tell it: its number, its moment, its operator, the name, its words.
NAMED = re.compile(r"([0-9]{1,20}) ([0-9]{3,20}) ([0-9]{1,2}) ([!-~]{1,64}) (.+)", re.ASCII)
# What a bridge answers in place of some lines. A line of `why` that tells a fault has more words, and one number less.
INSTEAD = re.compile(r"busy|fault [0-9]{1,10} [0-9]{1,2} \w+|no [0-9]{1,20} [0-9]{1,2} .*", re.ASCII)
# What it answers to a call.
TO_CALL = re.compile(rf"ok [0-9]{{1,20}}|{INSTEAD.pattern}", re.ASCII)
# The kinds of rows, with the place of the word that names a row of a kind, and the places of those that name rows of
# other kinds.
REFERS = {
    "room": (1, {}), "member": (2, {3: "room"}), "source": (1, {2: "member"}), "slot": (1, {2: "member"}),
    "sub": (1, {1: "slot", 2: "source"}), "mute": (1, {1: "source"}), "gain": (1, {1: "member", 2: "source"}),
    "pin": (1, {1: "room", 2: "source"}), "floor": (1, {1: "room", 2: "member"}),
}  # fmt: skip
# `calls` of more calls or reverts tells no desk. All together, and `groups`, tell it by so many calls and commands: to
# make it again takes long.
MOST_CALLS, MOST_REVERTS, MOST_MADE = 5000, 20, 20_000


def history_of(lines):
    """The calls of a history, those in force and those undone, as pairs of operator and words; None where a line is
    none of a history."""
    parts, at = ([], []), 0
    for line in lines:
        found = TOLD.fullmatch(line)
        if line == "undone":
            at = 1
        elif found and int(found[2]) < SEATS and is_good(found[3]):
            parts[at].append((int(found[2]), found[3]))
        else:
            return None
    return tuple(map(tuple, parts))


def log_of(lines, version):
    """The calls that `calls` tells, up to that of a version, as (number, moment, operator, words): the moment in
    nanoseconds, by the bridge's clock. A line of a `watch` may stand before them."""
    found = []
    for line in lines:
        it = NAMED.fullmatch(line.removeprefix("call "))
        if not it or int(it[3]) >= SEATS or not is_good(it[5]):
            return ()
        if found and int(it[1]) != found[-1][0] + 1:
            found = []
        found.append((int(it[1]), int(it[2]) * 10**6, int(it[3]), it[5]))
    return tuple(found) if found and found[-1][0] == version else ()


def names_of(lines):
    """The names of the operators of the calls that `calls` tells, by the calls' numbers."""
    found = (NAMED.fullmatch(line.removeprefix("call ")) for line in lines)
    return {int(one[1]): one[4] for one in found if one}


def is_whole_desk(rows):
    """Whether some rows are those of a desk, from the first one on: each row names only what is there."""
    there, words = {kind: set() for kind in REFERS}, [row.split(" ") for row in rows]
    for one in words:
        if one[0] not in REFERS or len(one) <= max(REFERS[one[0]][0], *REFERS[one[0]][1], 0):
            return False
        there[one[0]].add(one[REFERS[one[0]][0]])
    return all(one[at] in there[kind] for one in words for at, kind in REFERS[one[0]][1].items())


def is_whole_log(log):
    """Whether calls are all from the first one on, and few enough to be made again."""
    reverts = sum(text.startswith("revert ") for _, _, _, text in log)
    return bool(log) and log[0][0] == 1 and len(log) <= MOST_CALLS and reverts <= MOST_REVERTS


def rows_by(log):
    """The rows of the desk that calls make, or None where one of them is refused."""
    desk = Log()
    # They were accepted, whatever the bridge's own SSRC is.
    desk.desk.bridge = None
    is_made = all(desk.call(text.split(" "), seat).startswith("ok ") for _, _, seat, text in log)
    return tuple(desk.desk.shown(0)[:-1]) if is_made else None


class Told:
    """What answers tell of the desk: the desks of `show`, `history` and `calls`, the calls of a `watch` by their
    numbers, those of `calls` with moments by the bridge's clock, the names of both, which version there was at a
    moment, and when calls were accepted whose lines are lost, by their numbers; and how many calls were made again."""

    def __init__(self):
        self.shown, self.calls, self.listed, self.names, self.versions = [], {}, {}, {}, []
        self.lost, self.made = {}, 0


class Answers:
    """Gives the lines of a bridge to a client to the lines that they answer."""

    def __init__(self, asked, told, is_whole=False):
        # Where the connection's beginning was captured, or an answer found its question, an answer that stands before
        # the next question may be that one's.
        self.waiting, self.told, self.rows, self.has_answered = collections.deque(asked), told, [], is_whole
        # Behind lost lines of the operator: when a line came last.
        self.unsure = None

    def take(self, line):
        """Takes an answer."""
        if not line.is_whole:
            # Whose answer a line is that stands behind a hole, nobody knows.
            self.rows = None
            while self.waiting and self.waiting[0].moment < line.moment:
                passed = self.waiting.popleft()
                self.unsure = passed.moment if passed.is_hole else self.unsure
            return
        while self.waiting and self.waiting[0].text in ("quit", "stop"):
            self.waiting.popleft()
        if line.text.startswith("call ") and not self.is_of_calls(line):
            # A line of a watch answers nothing.
            self.take_told(line)
            return
        self.pass_holes(line.moment)
        early = EARLY if self.has_answered and self.unsure is None else 0
        if not self.waiting or self.waiting[0].moment > line.moment + early:
            number = version_in(line.text, "ok")
            if number and (self.has_answered or self.unsure is not None):
                self.told.lost.setdefault(number, line.moment)
            self.unsure = self.unsure and line.moment
            return
        self.pass_lost(line, line.moment + early)
        if self.waiting[0].is_told_lines() and not INSTEAD.fullmatch(line.text):
            self.take_row(line)
            return
        call = self.waiting.popleft()
        call.answer, call.until, self.has_answered = line.text, max(line.moment, call.moment), True
        call.number = version_in(line.text, "ok") or 0
        refused = re.fullmatch("no ([0-9]{1,20}) .*", line.text, re.ASCII)
        if call.number or refused:
            self.told.versions.append((line.moment, call.number or int(refused[1])))

    def pass_lost(self, line, moment):
        """Passes lines whose answers a capture in mid-call lacks: those that some lines answer where one comes that
        answers a call, and calls where a row comes."""
        is_number = version_in(line.text, "ok") is not None and not self.rows
        waiting = [call for call in self.waiting if call.moment <= moment]
        while len(waiting) > 1 and (
            is_number and waiting[0].is_told_lines()
            or waiting[0].is_call() and not TO_CALL.fullmatch(line.text)
        ):
            waiting.pop(0)
        if self.is_answer(waiting[0], line):
            while self.waiting[0] is not waiting[0]:
                self.waiting.popleft()

    @staticmethod
    def is_answer(call, line):
        """Whether a line may be an answer to another one, or a part of it."""
        return call.is_told_lines() if not TO_CALL.fullmatch(line.text) else call.is_call()

    def pass_holes(self, moment):
        """Passes lost lines, and those behind them whose answers nobody knows, up to a moment."""
        while self.waiting and self.waiting[0].moment <= moment:
            is_sure = self.unsure is None or self.waiting[0].moment - self.unsure >= QUIET
            if is_sure and not self.waiting[0].is_hole:
                self.unsure = None
                return
            self.unsure = self.waiting.popleft().moment

    def is_of_calls(self, line):
        """Whether a line is one that answers `calls`."""
        is_asked = self.waiting and self.waiting[0].text.split(" ")[0] == "calls"
        return is_asked and NAMED.fullmatch(line.text.removeprefix("call ")) is not None

    def take_told(self, line):
        """Takes a call that a watch tells."""
        text = line.text.removeprefix("call ")
        found, plain = NAMED.fullmatch(text), TOLD.fullmatch(text)
        number, seat, words = found.group(1, 3, 5) if found else plain.groups() if plain else (0, SEATS, "")
        if int(seat) < SEATS and is_good(words):
            self.told.calls.setdefault(int(number), (line.moment, int(seat), words))
            self.told.names.update({int(number): found[4]} if found else {})

    def take_row(self, line):
        """Takes a line of an answer of some lines."""
        is_last, version = line.text.split(" ")[0] == "end", version_in(line.text, "end")
        if self.rows is not None and not is_last:
            self.rows.append(line.text)
            self.rows = None if len(self.rows) > MOST_ROWS else self.rows
        elif is_last:
            call = self.waiting.popleft()
            call.answer, call.until, self.has_answered = line.text, max(line.moment, call.moment), True
            if version is not None:
                self.told.versions.append((line.moment, version))
                self.take_desk(call, line.moment, version)
            self.rows = []

    def take_desk(self, call, until, version):
        """Takes a desk that was told in whole."""
        if call.text == "show" and self.rows is not None and is_whole_desk(self.rows):
            self.told.shown.append(Shown(call.moment, until, tuple(self.rows), version))
        if call.text == "history" and self.rows is not None:
            calls = history_of(self.rows)
            if calls:
                self.told.shown.append(Shown(call.moment, until, (), version, *calls, by="a `history`"))
        if call.text == "groups" and self.rows is not None and all(map(is_group, self.rows)):
            self.told.made += sum(1 + row.count(" / ") for row in self.rows)
            rows = rows_by((0, 0, 0, text) for text in self.rows) if self.told.made <= MOST_MADE else None
            if rows is not None:
                self.told.shown.append(Shown(call.moment, until, rows, version, by="`groups`"))
        if call.text.split(" ")[0] == "calls" and self.rows is not None:
            log = log_of(self.rows, version)
            self.told.listed.update({number: (until, *more) for number, *more in log})
            self.told.names.update(names_of(self.rows))
            self.told.made += len(log)
            rows = rows_by(log) if is_whole_log(log) and self.told.made <= MOST_MADE else None
            if rows is not None:
                made = tuple((seat, text) for _, _, seat, text in log)
                self.told.shown.append(Shown(call.moment, until, rows, version, by="`calls`", log=made))


def take_sure(asked, is_whole):
    """Says of which lines of a connection the answers are surely theirs: of all where its beginning was captured, else
    from the first one on that stands well behind the answer of the one before it."""
    before = None
    for call in asked:
        is_behind = is_whole if before is None else before.answer and before.until + EARLY < call.moment
        call.is_sure = not call.is_hole and bool(is_behind or before and before.is_sure)
        before = call


def take_seats(calls, ends, known):
    """Gives each connection the seat that it is known to have, or the lowest one that is free at its first good line
    (docs/FORMATS.md, Operators' lines)."""
    taken = dict(known)
    for call in calls:
        for client in [client for client in taken if ends.get(client, call.moment) < call.moment]:
            del taken[client]
        if call.client not in taken and call.answer != "busy":
            free = [seat for seat in range(SEATS) if seat not in taken.values()]
            taken[call.client] = free[0] if free else SEATS
        call.seat = taken.get(call.client, 0)


def named(word):
    """A name, or none where a bridge tells `-`."""
    return "" if word == "-" else word


def take_names(calls, ends, known):
    """Gives each line the name that its connection is known to have, or has by `as` from then on."""
    names = dict(known)
    for call in calls:
        for client in [client for client in names if ends.get(client, call.moment) < call.moment]:
            del names[client]
        if call.text.startswith("as ") and call.answer == call.text:
            names[call.client] = named(call.text.removeprefix("as "))
        call.name = names.get(call.client, "")


def give_moments(calls):
    """The moment at which each call counts: its answer's, but none counts later than one with a greater number."""
    latest = None
    for call in sorted((call for call in calls if call.number), key=lambda call: -call.number):
        latest = min(call.until, latest or call.until)
        call.at = latest
    for call in calls:
        call.at = call.at or call.until or call.moment


def listed_in(wire, told, known):
    """The calls that `calls` told and that were made while it was captured, as a watch tells them. `known` has when
    others of them were accepted, by the capture: so much is the bridge's clock behind or ahead of it."""
    ahead = sorted(known[number] - moment for number, (_, moment, _, _) in told.listed.items() if number in known)
    if not ahead:
        return {}
    shift = ahead[len(ahead) // 2]
    return {
        number: (moment + shift, seat, text)
        for number, (until, moment, seat, text) in told.listed.items()
        if wire.begin <= moment + shift <= until
    }


def calls_of(wire, more=()):
    """All lines of operators, the calls among them in the order in which the bridge took them, and what answers told of
    the desk. `more` are calls that another source tells, as (number, moment, seat, words)."""
    told, by_client = Told(), collections.defaultdict(list)
    for line in wire.asked:
        text = line.text if line.is_whole else ""
        by_client[line.source].append(Call(line.moment, line.source, text, is_hole=not line.is_whole))
    calls = [call for asked in by_client.values() for call in asked if not call.is_hole]
    answers = {client: Answers(asked, told, client in wire.begun) for client, asked in by_client.items()}
    for line in wire.answered:
        if line.target not in answers:
            # A connection of which the capture has what the bridge says alone.
            answers[line.target] = Answers([], told)
        answers[line.target].take(line)
    for client, asked in by_client.items():
        take_sure(asked, client in wire.begun)
    in_order = sorted(calls, key=lambda call: call.moment)
    take_seats(in_order, wire.ends, wire.seats)
    take_names(in_order, wire.ends, wire.names)
    known = {call.number: call for call in calls if call.number}
    listed = listed_in(wire, told, {number: call.until for number, call in known.items()})
    told.calls = {number: (moment, seat, text) for number, moment, seat, text in more} | listed | told.calls
    for number, (moment, seat, text) in told.calls.items():
        if number in known:
            known[number].seat, known[number].name = seat, named(told.names.get(number, "-")) or known[number].name
        else:
            name = named(told.names.get(number, "-"))
            calls.append(Call(moment, "", text, seat, f"ok {number}", moment, number, name=name))
    known = {call.number for call in calls}
    calls += [
        Call(moment, "", "", 0, f"ok {number}", moment, number)
        for number, moment in told.lost.items() if number not in known
    ]
    give_moments(calls)
    calls.sort(key=lambda call: (call.at, call.number))
    told.shown.sort(key=lambda one: one.until)
    return calls, told
