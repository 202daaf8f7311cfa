"""Real loss at the page of a bridge that runs: a member of whose packets each tenth is never sent, beside one who sends
all of them."""

import contextlib
import json
import threading
import time

from operators.packets import rtp
from operators.serving import udp_socket
from operators.shared import fail

ROOM, MEMBER, SOUND, MIX = 60, 600, 260_000, 960_000
EVERY, SILENCE = 0.02, b"\xff" * 160
# Of how many packets one is left out, for each member; 0 is of none.
LEFT_OUT = [0, 10]
# So many packets are expected before the counts are looked at, and the bounds of the share that is lost then.
ENOUGH, SHARES = 150, [(0, 0.02), (0.08, 0.12)]
LONGEST = 60
SAYS = "document.querySelector('#board [data-member=\"{}\"] .who')?.ariaLabel"


def check(holds, text):
    if not holds:
        fail(text)


def lines(sockets):
    """What makes a room of these members, in which each has sound."""
    yield f"add-room {ROOM}"
    for at, one in enumerate(sockets):
        yield f"add-member {MEMBER + at} {ROOM} 127.0.0.1:{one.getsockname()[1]} pcmu {MIX + at} 0 0"
        yield f"add-source {SOUND + at} {MEMBER + at} audio"


@contextlib.contextmanager
def sending(ask, port):
    """Makes the room, and sends to the bridge's port until the end. How many calls that took stands in a list, with
    the one that removes the room."""
    with contextlib.ExitStack() as kept:
        sockets = [kept.enter_context(udp_socket()) for _ in LEFT_OUT]
        calls = [*lines(sockets)]
        for line in calls:
            check(ask(line).startswith("ok "), f"`{line}` is refused")
        stop = threading.Event()

        def sends():
            for seq in range(60_000):
                for at, (one, every) in enumerate(zip(sockets, LEFT_OUT, strict=True)):
                    if not every or seq % every:
                        one.sendto(rtp(seq, 160 * seq, SOUND + at, SILENCE, pt=0), ("127.0.0.1", port))
                if stop.wait(EVERY):
                    return

        thread = threading.Thread(target=sends, daemon=True)
        thread.start()
        try:
            yield [*calls, f"remove-room {ROOM}"]
        finally:
            stop.set()
            thread.join()
        check(ask(f"remove-room {ROOM}").startswith("ok "), "the room can't be removed")


def counts_of(page):
    """The packets, those expected and those lost of each of the sources, as the page's JSON tells them."""
    told = json.loads(page.ask("GET", "/stats")[2])
    found = {one["ssrc"]: one for one in told["sources"]}
    named = [found.get(SOUND + at) for at in range(len(LEFT_OUT))]
    return [tuple(one[name] for name in ("packets", "expected", "lost")) if one else (0, 0, 0) for one in named]


def tells_loss(page, ask, port):
    """The JSON of the page tells of each source the share that was never sent, and no more. How many calls it took."""
    with sending(ask, port) as calls:
        end, counts = time.monotonic() + LONGEST, counts_of(page)
        while min(one[1] for one in counts) < ENOUGH:
            check(time.monotonic() < end, f"of sources that send the page tells {counts}")
            time.sleep(0.5)
            counts = counts_of(page)
    for (packets, expected, lost), (least, most) in zip(counts, SHARES, strict=True):
        check(packets + lost == expected, f"packets and losses don't add up: {counts}")
        check(least <= lost / expected <= most, f"of {expected} packets {lost} are lost, not {least} to {most} of them")
    told = ", ".join(f"{lost} of {expected}" for _, expected, lost in counts)
    print(f"of the packets of two members the page tells {told} as lost")
    return len(calls)


def shows_loss(browser, ask, port):
    """The row of the one who loses says so, and that of the other one says nothing."""
    with sending(ask, port):
        browser.wait(f"{SAYS.format(MEMBER + 1)}?.endsWith('losing over 2 percent of its packets')", LONGEST)
        said = browser.run(SAYS.format(MEMBER))
        check(said == f"Open member {MEMBER}", f"the row of a member who loses nothing says {said}")
