"""Replays the trace of a call, and compares it with the wire.

Members send tones and video over sockets, with packets lost, late and twice; they report, and ask for packets again and
for pictures. Operators mute, group, move, undo and revert meanwhile. The bridge writes its trace to this tool. Of each
lane the lines of the trace are a script: it is replayed, by the program or, where there is none, by the models in
tools/operators/models. Each datagram that the members got is compared with what the scripts send: none differs, none is
missing, none is over, and each stream is in order.

Two datagrams have no octets: they have comments in the trace, whose last line is `# end`.

Then nobody listens where the trace goes to, and the bridge says so and ends. A reader reads nothing, so that the trace
ends with `lost`, and the call goes on; or it closes the connection. And the reader of a whole trace is slow when the
bridge is stopped: the loss of its end is told.
"""

import collections
import contextlib
import random
import socket
import tempfile
import time

from checks.bridges import accepted, check
from checks.traced_call import PATIENCE, Bridge, Call, Desk
from checks.traces import Reader, is_control, scripts, sent_by_front, sent_by_lane, stream_in
from operators.serving import free_port
from operators.shared import add_program_or_build, found_program

NEEDS = "a program, half a minute"

# How many lanes bridges have.
LANES = (1, 4, 16)
# How many seconds members talk.
SECONDS = 6


def options(parser):
    parser.add_argument("--lanes", type=int, action="append", help="a number of lanes, in place of 1, 4 and 16")
    parser.add_argument("--seed", type=int, default=1, help="where the drawing begins (%(default)s)")
    add_program_or_build(parser)


def differences(wanted, got):
    """How many of these are missing, and how many are over."""
    wanted, got = collections.Counter(wanted), collections.Counter(got)
    return (wanted - got).total(), (got - wanted).total()


def check_streams(call, sent):
    """Each stream came in the order in which its lane sent it."""
    for member in call.members:
        got, wanted = collections.defaultdict(list), collections.defaultdict(list)
        for octets in member.got:
            got[stream_in(octets)].append(octets)
        for to, octets in sent:
            if to == member.address:
                wanted[stream_in(octets)].append(octets)
        for stream in set(got) | set(wanted):
            if stream is not None:
                check(got[stream] == wanted[stream], f"stream {stream} came in another order than it was sent")


def compare(call, lines, lanes, program):
    """Compares what the members got with what the trace sends. How many datagrams they are."""
    found = scripts(lines)
    check(set(found) == {None, *range(lanes)}, f"the trace has the speakers {sorted(map(str, found))}")
    by_lanes = [one for lane in range(lanes) for one in sent_by_lane(found[lane], lane, lanes, program)]
    by_front = sent_by_front(found[None], program)
    got = [(member.address, octets) for member in call.members for octets in member.got]
    for wanted, came, who in (
        (by_lanes, [one for one in got if not is_control(one[1])], "lanes"),
        (by_front, [one for one in got if is_control(one[1])], "the receive side"),
    ):
        if who == "lanes":
            # What lanes pass on to a sender has the form of what the receive side asks for.
            passed = [one for one in wanted if is_control(one[1])]
            wanted = [one for one in wanted if not is_control(one[1])]
            by_front = by_front + passed
        missing, over = differences(by_front if who != "lanes" else wanted, came)
        check(not missing and not over, f"of what {who} sent, {missing} datagrams are missing and {over} are over")
    check_streams(call, by_lanes)
    return len(got)


def quiet(call):
    """Waits until nothing comes any more."""
    before = -1
    while before != sum(len(member.got) for member in call.members):
        before = sum(len(member.got) for member in call.members)
        time.sleep(0.5)


def check_moments(found):
    """Each lane begins with `item renew`. Frames go on when a datagram came or time passed, and reports when they were
    due: the moments are those of the receive side."""
    moments = collections.defaultdict(set)
    for line in found.pop(None):
        words = line.split(" ")
        moments[words[0]].add(words[1])
    for lane, script in found.items():
        items = [line.split(" ") for line in script if line.startswith("item ")]
        check(items[0] == ["item", "renew"], f"lane {lane} begins with {items[0]}")
        for _, kind, *rest in items:
            if kind == "frame":
                check(rest[0] in moments["rx"] | moments["wait"], f"lane {lane} has a frame of no datagram and no wait")
            if kind == "report":
                check(rest[0] in moments["report"], f"lane {lane} has a report of its own")


def check_streams_told(call, told):
    """What `stats` counts of each stream came."""
    came = collections.Counter(
        stream_in(octets) for member in call.members for octets in member.got if not 192 <= octets[1] <= 223
    )
    counted = {}
    for line in told:
        words = line.split(" ")
        if words[0] == "stream":
            counted[int(words[1])] = int(words[words.index("packets") + 1])
    check(counted == came, f"`stats` counts {counted}, and {dict(came)} came")


@contextlib.contextmanager
def held(args, lanes, port):
    """A bridge whose trace goes to this port, an operator, and a call whose desk is made."""
    with tempfile.TemporaryDirectory() as folder:
        bridge = Bridge(args, folder, lanes, port)
        try:
            operator, call = bridge.operator(), Call(random.Random(args.seed), bridge)
            accepted(operator, *call.setup())
            yield bridge, operator, call
        finally:
            bridge.process.kill()


def check_call(args, lanes):
    """Holds a call on so many lanes, and replays its trace."""
    reader = Reader()
    with held(args, lanes, reader.port) as (bridge, operator, call):
        desk = Desk(random.Random(args.seed + 1), bridge.operator())
        desk.start()
        call.send_nothing()
        call.talk(SECONDS)
        desk.goes_on = False
        desk.join()
        # Without rows nobody is sent anything, so that the trace ends behind the last datagram.
        accepted(operator, "remove-room 1")
        quiet(call)
        check_streams_told(call, operator.shown("stats"))
        bridge.stop(operator)
        lines = reader.lines()
    check(lines[-1] == "# end" and "lost" not in lines, "the trace isn't whole")
    check(sum(line.startswith("# rx ") for line in lines) == 2, "datagrams without octets have no comments")
    check_moments(scripts(lines))
    count = compare(call, lines, lanes, found_program(args.binary))
    check(count > SECONDS * 300, f"the members got {count} datagrams alone")
    items, word = sum(" item " in line for line in lines), "lane" if lanes == 1 else "lanes"
    print(
        f"{lanes} {word}: {count:,} datagrams by {items:,} items and {desk.calls} calls in mid-call are as the replayed"
        " trace sends them"
    )


def check_nobody(args):
    """Where nobody listens the bridge doesn't start, and says why."""
    port = free_port(socket.SOCK_STREAM)
    with tempfile.TemporaryDirectory() as folder:
        bridge = Bridge(args, folder, 1, port)
        status = bridge.process.wait(timeout=PATIENCE)
        said = bridge.said.read_text()
    wanted = f"confbridge: trace 127.0.0.1:{port}: connection refused\n"
    check(status and wanted in said, f"the bridge ended with status {status} and said {said!r}")
    print("nobody listens: the bridge says so, and ends")


def lose(bridge, call):
    """Talks until the bridge says that the trace is lost."""
    call.talk(60, bridge.has_lost)
    check(bridge.has_lost(), "the trace isn't lost")


def check_going_on(call):
    before = len(call.members[0].got)
    call.talk(1)
    check(len(call.members[0].got) > before, "the call doesn't go on once the trace is lost")


def check_slow(args):
    """Where the reader reads nothing, the trace is lost, and the call goes on."""
    reader = Reader(is_slow=True)
    with held(args, 16, reader.port) as (bridge, operator, call):
        lose(bridge, call)
        # The bridge waits two seconds for the reader.
        reader.go_on.set()
        check_going_on(call)
        bridge.stop(operator)
        lines = reader.lines()
    check(lines[-1] == "lost" and lines.count("lost") == 1, "the trace doesn't end with `lost`")
    print("a reader that reads nothing: the trace ends with `lost`, and the call goes on")


def check_closed(args):
    """Where the reader closes the connection, the bridge says so, the call goes on, and the seat is free again."""
    reader = socket.create_server(("127.0.0.1", 0))
    with held(args, 2, reader.getsockname()[1]) as (bridge, operator, call):
        check(operator.shown("stats")[-2] == "seats 2 of 3", "a trace has no seat")
        reader.accept()[0].close()
        lose(bridge, call)
        check_going_on(call)
        check(operator.shown("stats")[-2] == "seats 1 of 3", "a trace that is lost keeps its seat")
        bridge.stop(operator)
    print("a reader that closes: the loss is told, the call goes on, and the seat is free again")


def check_stop(args):
    """Where the reader reads nothing from a stop on, the bridge says so after two seconds, and ends."""
    reader = Reader(is_slow=True)
    with held(args, 16, reader.port) as (bridge, operator, call):
        # Some 12 MB: more than the system's buffers take, and less than the bridge keeps.
        call.talk(1)
        check(not bridge.has_lost(), "the trace is lost before the stop")
        bridge.stop(operator)
        check(bridge.has_lost(), "the loss of the end isn't told")
        reader.go_on.set()
        lines = reader.lines()
    check(lines[-1] != "# end", "a trace without its end has the last line of a whole one")
    print("a reader that reads nothing of the end: the loss is told")


def run(args):
    for lanes in args.lanes or LANES:
        check_call(args, lanes)
    check_nobody(args)
    check_slow(args)
    check_closed(args)
    check_stop(args)
    return 0
