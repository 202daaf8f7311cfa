"""What a bridge loses that doesn't get to read for a while: the system drops what its socket has no room for. `stats`
tells how many datagrams that were, as `drops` of the socket and as `lost` of the sources."""

import contextlib
import os
import pathlib
import signal
import tempfile
import time

from checks.bridges import SOUND, accepted, check, held, room_lines, until
from operators.packets import rtp
from operators.serving import settings, udp_socket

# Where the system tells of its UDP sockets (proc_net(5)).
TABLE = pathlib.Path("/proc/net/udp")
MEMBERS, EVERY = 8, 0.02
# The packets of each source before the bridge stands still, meanwhile, and after it.
BEFORE, MEANWHILE, AFTER = 10, 40, 10
# The octets that may wait at the bridge's socket. What comes meanwhile takes more.
BUFFER = 65_536
SILENCE = b"\xff" * 160


def is_told():
    """Whether the system tells of its sockets."""
    try:
        return "drops" in TABLE.read_text().splitlines()[0]
    except (OSError, IndexError):
        return False


def socket_at(port):
    """How many octets wait at a socket, and how many datagrams the system dropped there."""
    rows = [row.split() for row in TABLE.read_text().splitlines()[1:]]
    row = next(row for row in rows if int(row[1].rpartition(":")[2], 16) == port)
    return int(row[4].rpartition(":")[2], 16), int(row[-1])


def told_by(operator):
    """The drops of the socket, and the packets, those expected and those lost of each source, as `stats` tells them."""
    rows = [row.split() for row in operator.shown("stats")]
    named = {int(row[2]): dict(zip(row[3::2], row[4::2], strict=True)) for row in rows if row[0] == "source"}
    counts = {ssrc: [int(one[name]) for name in ("packets", "expected", "lost")] for ssrc, one in named.items()}
    line = next(row for row in rows if row[0] == "socket")
    return dict(zip(line[1::2], line[2::2], strict=True))["drops"], counts


def sends(sockets, port, seqs, waits=True):
    """So many packets of each source. Each round waits until all before it were read, or for 20 ms."""
    for seq in seqs:
        for number, one in enumerate(sockets):
            one.sendto(rtp(seq, 160 * seq, SOUND + number, SILENCE, pt=0), ("127.0.0.1", port))
        if waits:
            until(lambda: socket_at(port)[0] == 0, "the bridge doesn't read its socket")
        else:
            time.sleep(EVERY)


def overflows(bridge, port, operator, sockets):
    """Fills the socket's receive buffer of a bridge that stands still, and looks at what that counts."""
    sends(sockets, port, range(BEFORE))
    until(lambda: len(told_by(operator)[1]) == MEMBERS, "the bridge doesn't count all sources")
    drops, _ = told_by(operator)
    check(drops == "0", f"before the buffer is full `stats` tells `drops {drops}`")
    os.kill(bridge.pid, signal.SIGSTOP)
    sends(sockets, port, range(BEFORE, BEFORE + MEANWHILE), waits=False)
    os.kill(bridge.pid, signal.SIGCONT)
    sent = BEFORE + MEANWHILE + AFTER
    sends(sockets, port, range(BEFORE + MEANWHILE, sent))
    # The first packet of a source is on probation.
    due = dict.fromkeys(range(SOUND, SOUND + MEMBERS), sent - 1)
    until(lambda: {ssrc: one[1] for ssrc, one in told_by(operator)[1].items()} == due,
          f"the bridge doesn't expect the {sent} packets of each source")  # fmt: skip
    (drops, counts), (_, dropped) = told_by(operator), socket_at(port)
    check(dropped > 0, "what came meanwhile has room in the socket's buffer")
    check(drops == str(dropped), f"the system dropped {dropped} datagrams, and `stats` tells `drops {drops}`")
    lost = sum(one[2] for one in counts.values())
    check(lost == dropped, f"the system dropped {dropped} datagrams, and the sources have lost {lost}")
    check(all(a + c == b for a, b, c in counts.values()), f"packets and losses don't add up: {counts}")
    print(f"of {MEMBERS * sent} packets the system dropped {dropped} at a full socket, as `stats` tells")


def check_drops(program):
    """What the system drops at the socket of a bridge that stands still, `stats` tells."""
    if not is_told():
        print(f"skipped: drops at a full socket. {TABLE} doesn't tell them")
        return
    if not program:
        print("skipped: drops at a full socket. A program that `rt try` runs can't be stopped")
        return
    with contextlib.ExitStack() as kept:
        path = settings(kept.enter_context(tempfile.TemporaryDirectory()))
        path.write_text(f"{path.read_text()}receive_buffer = {BUFFER}\n")
        sockets = [kept.enter_context(udp_socket()) for _ in range(MEMBERS)]
        bridge, port, operator = kept.enter_context(held(program, path, seconds=60))
        accepted(operator, *room_lines(sockets))
        overflows(bridge, port, operator, sockets)
