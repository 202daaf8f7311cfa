"""Compares random desk calls with a model of the desk.

Each call is drawn from few numbers, so that rows meet, cascades are deep and every refusal comes. About one call in
four is an undo or a redo. The whole desk is shown after each call. A program built without proofs prints no more than
some 100 calls take. With --groups one call in three is a group of 1 to 65 commands, mostly 2 to 5: most are accepted,
some are refused at a part, and some undo what they do. With --reverts one call in eight takes an older one back.

A script has 10,000 calls at most. More calls are more scripts, each of a desk and of random numbers of its own, and
--jobs of them are made and compared at once. With --history operators of a running bridge make the calls, some in a row
each, and ask for `show` or `history` after each.

With --cases nothing is compared. The calls are printed with the model's answers, in the form of the scripts of
x_cases_files.
"""

import collections
import concurrent.futures
import functools
import random
import tempfile

from checks.bridges import operator_at
from operators.models.desk import Log, Refused
from operators.models.lines import TURNS
from operators.serving import settings, started
from operators.shared import add_program_or_build, fail, first_difference, release_program, replay

NEEDS = "the program, a minute"

# The most calls of a script, the operators of a bridge, and how many calls one of these makes in a row.
SCRIPT, SEATS, IN_A_ROW = 10_000, 4, 20
# How many seconds an answer may take, and how many octets a line of an operator may have.
PATIENCE, LONGEST = 60, 4096


def options(parser):
    parser.add_argument("--calls", type=int, default=10_000, help="how many calls (%(default)s)")
    parser.add_argument("--seed", type=int, default=1, help="what the random numbers begin with (%(default)s)")
    parser.add_argument("--groups", action="store_true", help="draw groups too")
    parser.add_argument("--reverts", action="store_true", help="draw reverts too")
    parser.add_argument("--history", action="store_true", help="have operators of a running bridge make the calls")
    parser.add_argument("--jobs", type=int, default=1, help="how many scripts are compared at once (%(default)s)")
    parser.add_argument(
        "--cases", type=int, default=0, metavar="SHOWN", help="print cases, with the whole desk after every SHOWN calls"
    )
    add_program_or_build(parser)


# Drawing calls


# What may stand behind a room that is added: its clock rate. Two kinds of rooms are as frequent.
RATES = ["", "", "", " 8000", " 44100", " 44100", " 44100", " 44100", " 16000"]


def additions(r, room, member, video, audio, slot):
    """Commands that add a row or replace one, and one of the sources."""
    any_ssrc = r.choice([1, member + 900, video, audio, slot])
    source = r.choice([video, audio])
    address = f"10.0.0.{r.randrange(1, 14)}:{r.choice([0, 5000, 5000, 5000, 5000, 5000])}"
    codec, out_audio = r.choice(["pcmu", "l16"]), r.choice([member + 900, member + 900, any_ssrc])
    return source, [
        f"add-room {room}{r.choice(RATES)}",
        f"add-member {member} {room} {address} {codec} {out_audio} {r.randrange(65536)} {r.randrange(2**32)}",
        f"add-source {r.choice([video, any_ssrc])} {member} video",
        f"add-source {r.choice([audio, any_ssrc])} {member} audio",
        f"add-slot {r.choice([slot, slot, any_ssrc])} {member} {r.choice([0, 1, 2, 15, 16])} {r.randrange(65536)} 0",
        f"subscribe {slot} {r.choice([video, video, source])}",
        f"subscribe {slot} {video}",
        f"set-gain {member} {r.choice([audio, audio, source])} {r.choice([0, 128, 256, 1024, 1025])}",
        f"set-gain {member} {audio} {r.choice([64, 512])}",
        f"mute {source}",
        f"pin {room} {r.choice([video, video, source])}",
        f"give-floor {room} {member}",
    ]


def removals(room, member, source, slot):
    """Commands that remove a row."""
    names = [("room", room), ("member", member), ("source", source), ("slot", slot)]
    return [f"remove-{name} {number}" for name, number in names] + [
        f"unsubscribe {slot}",
        f"unmute {source}",
        f"unpin {room}",
        f"take-floor {room}",
    ]


def draw(r, version):
    """A call, of few numbers."""
    room, member, video, audio, slot = r.randrange(1, 5), r.randrange(10, 20), r.randrange(100, 112), r.randrange(
        200, 212
    ), r.randrange(300, 316)
    source, adding = additions(r, room, member, video, audio, slot)
    last = r.choice([version] * 9 + [max(0, version - 1)])
    kind = r.random()
    if kind < 0.62:
        return r.choice(adding)
    if kind < 0.72:
        return r.choice(removals(room, member, source, slot))
    if kind < 0.78:
        return f"move-member {member} {room}"
    return f"{'undo' if kind < 0.90 else 'redo'} {last}"


# The command that undoes another one, where that one replaced no row.
OPPOSITES = {
    "add-room": "remove-room", "add-member": "remove-member", "add-source": "remove-source", "add-slot": "remove-slot",
    "subscribe": "unsubscribe", "mute": "unmute", "pin": "unpin", "give-floor": "take-floor",
}  # fmt: skip


def draw_command(r, names=None):
    """A command, of few numbers, with one of the names if any are given."""
    while True:
        line = draw(r, 0)
        name = line.split()[0]
        if name in names if names else name not in TURNS:
            return line


def draw_part(drawn, desk):
    """A command that the desk accepts, if one is soon drawn. The desk carries it out."""
    for _ in range(40):
        line = drawn()
        try:
            desk.carry_out(line.split())
            break
        except Refused:
            pass
    return line


def draw_group(r, desk):
    """A group. Most of its commands are accepted at the desk that those before them leave."""
    desk, kind = desk.copied(), r.random()
    if kind < 0.15:
        parts = [draw_part(lambda: draw_command(r, OPPOSITES), desk) for _ in range(r.choice([1, 1, 1, 2, 2, 3]))]
        back = [part.split() for part in reversed(parts)]
        return "group " + " / ".join(parts + [f"{OPPOSITES[words[0]]} {words[1]}" for words in back])
    count = r.randrange(2, 6) if kind < 0.9 else r.choice([1, r.randrange(6, 65), 64, 65])
    any_at = r.randrange(count) if r.random() < 0.5 else count
    return (
        "group "
        + " / ".join(
            draw_command(r) if at == any_at else draw_part(lambda: draw_command(r), desk) for at in range(count)
        )
    )


def group_with(r, desk, words, drawn):
    """A group of commands that are accepted one after another, at times with the given one behind them. An undo, a
    redo, a revert or a group stays alone."""
    if words.split(" ")[0] in (*TURNS, "group"):
        return words
    later = desk.copied()
    parts = [draw_part(drawn, later) for _ in range(r.randrange(1, 5))]
    return "group " + " / ".join(parts + [words] if r.random() < 0.3 else parts)


# Answers


class Counts:
    """How often each kind of answer came, and how many calls and lines of answers were compared."""

    def __init__(self):
        self.kinds, self.without_change, self.lines, self.calls = collections.Counter(), 0, 0, 0

    def add_all(self, other):
        """Adds the counts of another script."""
        self.kinds += other.kinds
        self.without_change += other.without_change
        self.lines += other.lines
        self.calls += other.calls

    def add(self, words, answer, log):
        """Counts a call that the log has answered."""
        name = words[0]
        if answer.startswith("no"):
            self.kinds[name + " " + " ".join(word for word in answer.split()[2:] if word.isalpha())] += 1
            return
        if name in ("undo", "redo"):
            (_, _, call), _ = (log.undone if name == "undo" else log.done)[-1]
            name += f" of a {call[0]}" if call[0] in ("group", "revert") else ""
        elif name == "group":
            self.without_change += log.done[-1][1].shown(0) == log.desk.shown(0)
        self.kinds[f"{name} ok"] += 1

    def of(self, name):
        return sum(count for kind, count in self.kinds.items() if kind.startswith(name))

    def groups(self):
        return (
            f"groups: {self.of('group ok')} accepted, {self.without_change} of which changed no row, "
            f"{self.of('group PartRefused')} refused at a part, {self.of('group GroupTooLong')} too long, "
            f"{self.of('undo of a group')} undone, {self.of('redo of a group')} redone"
        )

    def reverts(self):
        names = "NotInForce", "TooFar", "Conflict", "Elsewhere"
        return (
            f"reverts: {self.of('revert ok')} accepted, "
            + ", ".join(f"{self.of(f'revert {name}')} {name}" for name in names)
            + f", {self.of('undo of a revert')} undone, {self.of('redo of a revert')} redone"
        )


def draw_revert(r, log):
    """A revert: mostly of one of the last calls that are done, also of one that was taken back or undone."""
    numbers = [made[0] for made, _ in log.done[-12:]]
    return f"revert {r.choice(numbers if numbers and r.random() < 0.9 else range(log.version + 2))}"


def draw_line(r, args, log):
    """The words of a call."""
    if args.reverts and r.random() < 1 / 8:
        return draw_revert(r, log)
    return draw_group(r, log.desk) if args.groups and r.random() < 1 / 3 else draw(r, log.version)


def draw_calls(args, seed, count, log):
    """Random calls, each with its words and the operator who makes it, drawn from where the log stands."""
    r, op = random.Random(seed), 0
    for at in range(count):
        if not args.history:
            op = r.randrange(16)
        elif at % IN_A_ROW == 0:
            op = r.randrange(SEATS)
        line = draw_line(r, args, log)
        while args.history and len(line) > LONGEST:
            line = draw_line(r, args, log)
        yield r, op, line


def draw_script(args, seed, count):
    """Random calls as (line, its answers), each with what is asked behind it, and the counts of answers."""
    log, counts, script = Log(), Counts(), []
    for r, op, line in draw_calls(args, seed, count, log):
        answer = log.call(line.split(), op)
        counts.add(line.split(), answer, log)
        asked, told = "show", None
        if args.history and r.random() < 0.7:
            most = r.choice([0, 1, 2, 5, 20, 2**64 - 1])
            asked, told = f"history {most}", log.history(most)
        script.append((op, line, answer, asked, told or log.desk.shown(log.version)))
    counts.calls = len(script)
    return script, counts


def print_cases(script, shown):
    """Prints the calls with their answers, and the whole desk after every so many."""
    for number, (op, line, answer, _, desk) in enumerate(script, 1):
        print(f"desk {op} {line}", f"> {answer}", sep="\n")
        if number % shown == 0:
            print("show", *(f"> {text}" for text in desk), sep="\n")


def served(script, program):
    """What a bridge answers its operators, each of whom makes some calls in a row."""
    with tempfile.TemporaryDirectory() as folder:
        bridge, _, tcp = started(program, settings(folder, operators=SEATS))
        operators = [operator_at(tcp, PATIENCE) for _ in range(SEATS)]
        for one in operators:
            # Each has the next seat from its first line on.
            one.ask("remove-room 0")
        for at in range(0, len(script), IN_A_ROW):
            part = script[at : at + IN_A_ROW]
            one = operators[part[0][0]]
            one.tell("\n".join(f"{line}\n{asked}" for _, line, _, asked, _ in part))
            for _, _, _, _, told in part:
                yield from (one.lines.readline().rstrip("\n") for _ in range(1 + len(told)))
        operators[0].tell("stop")
        if bridge.wait(PATIENCE):
            fail(f"the bridge ended with status {bridge.returncode}")


def compared(args, at):
    """Compares the script of this number. Its counts, or None where something differs."""
    script, counts = draw_script(args, args.seed + at, min(SCRIPT, args.calls - at * SCRIPT))
    wanted = [(line, [answer, *told]) for _, line, answer, _, told in script]
    if args.history:
        told = list(served(script, release_program(args.binary)))
    else:
        lines = [text for op, line, *_ in script for text in (f"desk {op} {line}", "show")]
        told = replay(lines, args.binary, args.seconds)
    counts.lines = first_difference(wanted, told)
    return counts if counts.lines is not None else None


def run(args):
    """Compares the program's answers and its desks with the model's, or prints cases. The exit status."""
    if args.cases:
        print_cases(draw_script(args, args.seed, args.calls)[0], args.cases)
        return 0
    numbers, total = range(-(-args.calls // SCRIPT)), Counts()
    with concurrent.futures.ProcessPoolExecutor(args.jobs) as pool:
        for counts in pool.map(functools.partial(compared, args), numbers):
            if counts is None:
                return 1
            total.add_all(counts)
    print(f"{total.calls} calls, {total.lines} lines, {len(total.kinds)} kinds of answer, no difference")
    if args.groups:
        print(total.groups())
    if args.reverts:
        print(total.reverts())
    return 0
