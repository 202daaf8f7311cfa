"""Times operators' commands on a full desk.

The desk has one room with 1,024 members, 64 audio and 1,984 video sources, 4,096 slots with a subscription each, all
65,536 gains, a pin and a floor. Where a member, a source or a slot comes and goes, the desk is one short of each of
these.

A command's time is the processor time of a script with many of it, less that of the script that makes the desk, over
their number. The scripts take turns, and the least of N runs counts.

With --groups it counts the instructions of the same commands one by one and in groups of these sizes, and of their
undos, on the desk that isn't short, in one run of one program. For a group it also prints what this is more than its
commands one by one, as a difference and as a ratio: with two commands or more it is above all the copy of the rows.

With --reverts it counts the instructions of reverts beside those of groups, at an empty desk, at one of 64 members with
4,096 gains, and at the full one. For each size it makes a command and others behind it, so many in all, and reverts the
first one. The same commands are made as groups of 64 at most. The ratio is that of the revert to the groups. The status
is 1 where one is over 2.5.
"""

import tempfile

from checks.filling import add_member, full_desk, in_groups
from lab.bench.calls import Replay
from operators.shared import add_measuring, add_program, instructions, processor_time, release_program

NEEDS = "the program, minutes; valgrind to count instructions"


def options(parser):
    add_program(parser)
    add_measuring(parser, 3)
    how = parser.add_mutually_exclusive_group()
    how.add_argument("--instructions", action="store_true", help="count instructions by callgrind, one run each")
    how.add_argument("--reverts", metavar="SIZES", help="count the instructions of reverts, as 1,8,64,256")
    how.add_argument(
        "--groups", metavar="SIZES", help="count the instructions of groups, as 1,2,8,64; 0 for a program that has none"
    )


# Rows: a name, the lines that make the desk, and the lines to be timed


def in_turn(count, first, second):
    """Two commands in turn, so that each finds what it needs."""
    return [make(i) for i in range(count) for make in (first, second)]


def undone(count, version, command):
    """A command and its undo in turn, on a desk of this version."""
    return in_turn(count, command, lambda i: f"undo {version + 2 * i + 1}")


def rows_of_full_desk():
    full = list(full_desk(64))
    calls = len(full)
    one_row = {
        "set-gain over another": [f"set-gain {i % 1024} 200000 {i // 1024 % 2 + 1}" for i in range(20000)],
        "subscribe over another": [
            f"subscribe {300000 + i % 4096} {200064 + (i + 1 + i // 4096) % 1984}" for i in range(20000)
        ],
        "pin over another": [f"pin 1 {200065 + i % 1900}" for i in range(20000)],
        "give-floor over another": [f"give-floor 1 {1 + i % 1000}" for i in range(20000)],
        "mute, unmute": in_turn(10000, lambda i: f"mute {200000 + i % 2048}", lambda i: f"unmute {200000 + i % 2048}"),
        "unsubscribe, subscribe": in_turn(
            10000, lambda i: f"unsubscribe {300000 + i % 4096}", lambda i: f"subscribe {300000 + i % 4096} 200064"
        ),
        "unpin, undo": undone(10000, calls, lambda i: "unpin 1"),
        "add-room, remove-room": in_turn(5000, lambda i: f"add-room {2 + i}", lambda i: f"remove-room {2 + i}"),
        "remove-slot with its sub, undo": undone(2000, calls, lambda i: f"remove-slot {300000 + i}"),
        "remove-source with 1,024 gains, undo": undone(50, calls, lambda i: f"remove-source {200000 + i}"),
        "remove-member with 64 gains, undo": undone(50, calls, lambda i: f"remove-member {500 + i}"),
        "refused: add-source of an SSRC in use": [f"add-source {300000 + i} 0 audio" for i in range(4000)],
    }
    yield "the desk", [], full
    for name, lines in one_row.items():
        yield name, full, lines


def rows_of_short_desk():
    short, joins = [*full_desk(64, 1), "add-room 2"], add_member(0)
    video = lambda i: f"add-source 199999 {1 + i % 1000} video"
    slot = lambda i: f"add-slot 299999 {1 + i % 1000} 15 0 0"
    moves = in_turn(5000, lambda i: "move-member 0 2", lambda i: "move-member 0 1")
    yield "add-member, remove-member", short, in_turn(5000, lambda i: joins, lambda i: "remove-member 0")
    yield "add-source, remove-source of video", short, in_turn(5000, video, lambda i: "remove-source 199999")
    yield "add-slot, remove-slot", short, in_turn(5000, slot, lambda i: "remove-slot 299999")
    yield "move-member without rows, there and back", [*short, joins], moves


def rows_of_a_room(gains):
    """What removes a whole room with so many gains for each member."""
    part = list(full_desk(gains))
    again = in_turn(100, lambda i: f"undo {len(part) + 2 * i + 1}", lambda i: f"redo {len(part) + 2 * i + 2}")
    yield f"undo and redo of remove-room with {gains * 1024} gains", [*part, "remove-room 1"], again
    yield f"remove-room and undo with {gains * 1024} gains", part, undone(100, len(part), lambda i: "remove-room 1")


def rows():
    yield from rows_of_full_desk()
    yield from rows_of_short_desk()
    yield from rows_of_a_room(16)
    yield from rows_of_a_room(64)


# Measuring


def microseconds(command, given, told):
    return processor_time(command, given, told) * 1e6


def least(measure, program, scripts, runs):
    """The least cost of each script, which take turns, and how many calls of the last one were refused."""
    best, refused = [float("inf")] * len(scripts), 0
    for _ in range(runs):
        for at, lines in enumerate(scripts):
            with tempfile.TemporaryFile() as given, tempfile.TemporaryFile() as told:
                given.write("".join(f"desk 0 {line}\n" for line in lines).encode())
                given.seek(0)
                best[at] = min(best[at], measure([program, "replay"], given, told))
                told.seek(0)
                refused = sum(line.startswith(b"no ") for line in told)
    return best, refused


def time_rows(args, program):
    measure, unit, runs = (instructions, "instructions", 1) if args.instructions else (microseconds, "us", args.runs)
    for name, start, lines in rows():
        if args.only in name:
            (base, took), refused = least(measure, program, [start, start + lines], runs)
            print(f"{name}: {(took - base) / len(lines):,.0f} {unit} ({refused} refused)", flush=True)


# Groups


def commands_for_groups():
    """Names with commands, each of which is accepted on the full desk as those before it left it."""
    slots, members = range(300000, 300064), range(500, 532)
    again = lambda s: (f"add-slot {s} {s - 300000} 0 0 0", f"subscribe {s} {s - 99936}")
    yield "set-gain over another", [f"set-gain {m} 200000 7" for m in range(512)]
    yield "subscribe over another", [f"subscribe {300000 + s} {200065 + s}" for s in range(512)]
    yield "mute, unmute", [f"{word} {200000 + s}" for s in range(256) for word in ("mute", "unmute")]
    yield "remove-slot with its sub, add-slot, subscribe", [
        line for s in slots for line in (f"remove-slot {s}", *again(s))
    ]
    yield "remove-member with 64 gains, add-member", [
        line for m in members for line in (f"remove-member {m}", add_member(m))
    ]


def count_groups(program, sizes, only):
    """Prints the instructions of commands one by one, and in groups of each size."""
    first = list(full_desk(64))
    meter, version = Replay(program, True), len(first)
    meter.answers(first)

    def costs(calls):
        """The instructions of a call, and of its undo."""
        nonlocal version
        does, _ = meter.cost(calls, "ok")
        version += len(calls)
        undoes, _ = meter.cost([f"undo {version + at}" for at in range(len(calls))], "ok")
        version += len(calls)
        return does, undoes

    for name, commands in commands_for_groups():
        if only in name:
            alone = costs(commands)
            print(f"{name}: {alone[0]:,.0f} a command, {alone[1]:,.0f} its undo", flush=True)
            for size in sizes:
                took = costs(in_groups(commands, size))
                told = [
                    f"{cost:,.0f} ({cost - size * one:+,.0f}, {cost / (size * one):.3f})"
                    for cost, one in zip(took, alone)
                ]
                print(f"{name}, in groups of {size}: {told[0]} a group, {told[1]} its undo", flush=True)
    meter.end()


# Reverts

# A revert may cost so many times what its commands cost as groups.
MOST_RATIO = 2.5


def middle_desk():
    """A room of 64 members, with a source of sound and of video, a slot and 64 gains each."""
    yield "add-room 1"
    for m in range(64):
        yield add_member(m)
        yield f"add-source {200000 + m} {m} audio"
        yield f"add-source {200064 + m} {m} video"
        yield f"add-slot {300000 + m} {m} 0 0 0"
    yield from (f"subscribe {300000 + m} {200064 + (m + 1) % 64}" for m in range(64))
    yield from (f"set-gain {m} {200000 + s} 100" for m in range(64) for s in range(64))


def calls_behind(is_empty):
    """Names with a command that is to be reverted, and what others make behind it, by their number."""
    rooms = lambda i: f"{'remove' if i % 2 else 'add'}-room {2 + i // 2 % 60}"
    gain, members = "set-gain 0 200000 9", lambda i: i // 2 % 60 + 1
    if is_empty:
        yield "add-room, remove-room", "add-room 1", rooms
        return
    yield "set-gain over another", gain, lambda i: f"set-gain {1 + i % 63} {200000 + i // 63} 7"
    yield "mute, unmute", gain, lambda i: f"{'unmute' if i % 2 else 'mute'} {200000 + i // 2}"
    yield "remove-member with 64 gains, add-member", gain, lambda i: (
        add_member(members(i)) if i % 2 else f"remove-member {members(i)}"
    )


def count_reverts(program, sizes, only):
    """Prints the instructions of reverts and of groups with as many commands. Whether all ratios are good."""
    is_good, desks = True, {"an empty desk": (), "64 members": middle_desk(), "a full desk": full_desk(64)}
    for place, lines in desks.items():
        if only not in place:
            continue
        meter, first = Replay(program, True), list(lines)
        # Where nothing makes the desk a refused command is answered first, so that the program's start isn't counted.
        meter.answers(first or ["remove-room 1"])
        version = len(first)

        def undone(count):
            nonlocal version
            meter.answers([f"undo {version + at}" for at in range(count)])
            version += count

        for name, command, behind in calls_behind(not first):
            for size in sizes:
                others = [behind(i) for i in range(size - 1)]
                groups = in_groups([command, *others])
                took, _ = meter.cost(groups, "ok")
                version += len(groups)
                undone(len(groups))
                calls = [command, *in_groups(others)]
                meter.answers(calls)
                cost, _ = meter.cost([f"revert {version + 1}"], "ok")
                version += len(calls) + 1
                undone(len(calls) + 1)
                ratio = cost / (took * len(groups))
                is_good = is_good and ratio <= MOST_RATIO
                told = f"{cost:,.0f} a revert, {took * len(groups):,.0f} as groups, ratio {ratio:.2f}"
                print(f"{place}, {name}, command {size} from the newest: {told}", flush=True)
        meter.end()
    return is_good


def run(args):
    program = release_program(args.binary)
    if args.reverts:
        return 0 if count_reverts(program, [int(size) for size in args.reverts.split(",")], args.only) else 1
    if args.groups:
        count_groups(program, [int(size) for size in args.groups.split(",") if int(size)], args.only)
    else:
        time_rows(args, program)
    return 0
