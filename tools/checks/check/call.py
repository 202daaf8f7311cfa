"""Holds a call over sockets, with members and an operator of its own.

While nobody is there the bridge sleeps. Then two members send PCMU tones, and one of them video, which is lost in part.
An operator mutes a source, unsubscribes a slot and undoes both. The checks: each stream's numbers have no gap; each
member hears the other's tone and not its own; a NACK is answered; lost packets are asked for; a PLI is passed on;
reports come. `stats` counts of each stream what its member got, and has what it reported, of a slot and of a mix, with
the jitter and the round trip. It has the samples and the energy of each tone, and `levels` has them too. The bridge's
socket of the operator waits for no acknowledgement before it sends an answer's end. Where another bridge stands still
for 0.8 s, the system drops datagrams at its socket, and `stats` tells as many, as `drops` and as `lost`.
"""

import contextlib
import ctypes
import os
import pathlib
import socket
import stat
import subprocess
import tempfile
import time

from checks.bridges import check, seconds_of
from checks.overflowing import check_drops
from operators.packets import has_no_gap, is_rtp_of, nack, pli, rtp, seq_of
from operators.serving import Operator, come_to, free_port, port_of, settings, udp_socket
from operators.shared import CRATES, add_program_or_build, fail, found_program, try_command

NEEDS = "a program, twelve seconds"

# How many seconds the bridge may take for what has to come. It takes none; a busy machine may.
PATIENCE = 60

# The share of a processor that a bridge without members takes at most. It takes under a hundredth; a lane that doesn't
# sleep takes all.
IDLE = 0.4

# The number of the system call that copies a descriptor of another process (pidfd_getfd(2)).
GETFD = 438

# The seconds from 1900, where NTP begins, to 1970.
FROM_1900_TO_1970 = 2208988800

# The round trip that a member's report gives, and how many milliseconds the bridge's clock may be off.
TRIP_MS, CLOCK_MS = 1750, 100

# Tones of one sample each, mu-law (ITU-T G.711): 988 and -988.
TONES = {201: 0xCE, 202: 0x4E}
# What is counted of one of their packets: its samples, and the sum of their squares in units of 1,024, rounded down.
SAMPLES, ENERGY = 160, 160 * 988**2 // 1024
SETUP = [
    "add-room 1",
    "add-member 10 1 127.0.0.1:{p} pcmu 9001 0 0",
    "add-member 11 1 127.0.0.1:{q} pcmu 9002 65530 0",
    "add-source 201 10 audio",
    "add-source 202 11 audio",
    "add-source 101 10 video",
    "add-slot 501 11 0 65535 1000",
    "subscribe 501 101",
]


def options(parser):
    add_program_or_build(parser)


def start(args, folder):
    """The bridge, and the ports of its sockets. A program built without proofs may not say them, so they are chosen
    here."""
    udp, tcp = free_port(socket.SOCK_DGRAM), free_port(socket.SOCK_STREAM)
    words, program = ["serve", settings(folder, udp, tcp)], found_program(args.binary)
    command = [program, *words] if program else try_command(words, args.seconds)
    with said_in(folder).open("w") as said:
        null = subprocess.DEVNULL
        bridge = subprocess.Popen(command, cwd=CRATES / "confbridge", stdin=null, stdout=null, stderr=said)
    return bridge, udp, tcp


def said_in(folder):
    """The file that has the bridge's standard error."""
    return pathlib.Path(folder) / "stderr"


def connected(bridge, port, folder):
    """An operator's connection, once the bridge listens."""
    while bridge.poll() is None:
        try:
            return socket.create_connection(("127.0.0.1", port), timeout=PATIENCE)
        except ConnectionRefusedError:
            time.sleep(0.1)
    return fail(
        f"the bridge ended with status {bridge.returncode} before it listened\n{said_in(folder).read_text()[-2000:]}"
    )


def member():
    one = udp_socket()
    one.setblocking(False)
    return one


class Call:
    """The members, the operator, and what has come."""

    def __init__(self, connection, udp):
        self.udp = ("127.0.0.1", udp)
        self.desk = Operator(connection)
        self.members = {201: member(), 202: member()}
        self.got = {201: [], 202: []}
        self.begun, self.seq = None, 0

    def ask(self, line, answer):
        told = self.desk.ask(line)
        check(told == answer, f"`{line}` is answered `{told}`, not `{answer}`")

    def send(self, ssrc, octets):
        self.members[ssrc].sendto(octets, self.udp)

    def turn(self):
        """Each member sends a packet for each 20 ms that have passed, and the first one a frame of one packet too, but
        for each tenth."""
        self.begun = self.begun or time.monotonic()
        # By the clock, or the bridge drops what comes as late.
        while time.monotonic() - self.begun >= self.seq * 0.02:
            for ssrc in self.members:
                self.send(ssrc, rtp(self.seq, self.seq * 160, ssrc, bytes([TONES[ssrc]]) * 160, pt=0))
            if self.seq % 10 != 9:
                self.send(201, rtp(self.seq, self.seq * 3000, 101, b"picture", marker=1))
            self.seq += 1
        for ssrc, one in self.members.items():
            self.got[ssrc] += come_to(one)
        time.sleep(0.005)

    def talk(self, seconds):
        end = time.monotonic() + seconds
        while time.monotonic() < end:
            self.turn()

    def talk_until(self, holds, text):
        """Talks until something holds."""
        end = time.monotonic() + PATIENCE
        while not holds():
            check(time.monotonic() < end, text)
            self.turn()

    def asks(self, octets, holds, text):
        """The second member asks until something holds: once, but where a lane is behind, since it drops what it is
        asked then."""
        end = time.monotonic() + PATIENCE
        while not holds():
            check(time.monotonic() < end, text)
            self.send(202, octets)
            later = time.monotonic() + 1
            while not holds() and time.monotonic() < later:
                self.turn()

    def stream(self, member, ssrc):
        """What came to a member of a stream."""
        return [packet for packet in self.got[member] if is_rtp_of(packet, ssrc)]

    def control(self, member, kind):
        """The compounds that came to a member and begin with this packet type."""
        return [packet for packet in self.got[member] if packet[1] == kind]


def has_more(call, member, ssrc, text):
    """Talks until more of a stream has come to a member."""
    before = len(call.stream(member, ssrc))
    call.talk_until(lambda: len(call.stream(member, ssrc)) > before + 1, text)


def share_of(bridge, seconds):
    """The share of a processor that a bridge takes for so many seconds."""
    begun, before = time.monotonic(), seconds_of(bridge)
    time.sleep(seconds)
    return (seconds_of(bridge) - before) / (time.monotonic() - begun)


def check_idle(bridge):
    """A bridge without members sleeps, its lanes as well, once its start is over."""
    shares = []
    while not shares or shares[-1] > IDLE:
        check(len(shares) < 5, f"a bridge without members takes these shares of a processor: {shares}")
        shares.append(share_of(bridge, 1.5))


def sockets_of(bridge):
    """Copies of a process's sockets, as far as the system hands them out."""
    libc, pid = ctypes.CDLL(None), os.pidfd_open(bridge.pid)
    copies = [libc.syscall(GETFD, pid, int(number), 0) for number in os.listdir(f"/proc/{bridge.pid}/fd")]
    os.close(pid)
    return [socket.socket(fileno=copy) for copy in copies if copy >= 0 and stat.S_ISSOCK(os.fstat(copy).st_mode)]


def is_from(one, peer):
    """Whether a socket is connected to this address."""
    try:
        return one.getpeername() == peer
    except OSError:
        return False


def check_delay(bridge, connection):
    """The bridge's socket of an operator sends what it is given at once (TCP_NODELAY, tcp(7))."""
    sockets = [one for one in sockets_of(bridge) if is_from(one, connection.getsockname())]
    for one in sockets:
        at_once = one.getsockopt(socket.IPPROTO_TCP, socket.TCP_NODELAY)
        check(at_once, "an answer's end may wait until an operator has acknowledged what went before")
    if not sockets:
        print("TCP_NODELAY: not tried, since the system hands out no copy of the bridge's socket")


def use_desk(call):
    """Sets the desk, mutes a source and unsubscribes a slot in mid-call, and undoes both."""
    ports = {"p": port_of(call.members[201]), "q": port_of(call.members[202])}
    for version, line in enumerate(SETUP, 1):
        call.ask(line.format(**ports), f"ok {version}")
    call.talk(1)
    has_more(call, 202, 9002, "a member hears nothing")
    has_more(call, 202, 501, "a member sees nothing")
    call.ask("mute 201", "ok 9")
    call.talk(1)
    before = len(call.stream(202, 9002))
    call.talk(1)
    check(len(call.stream(202, 9002)) <= before + 2, "a muted source is heard")
    call.ask("undo 9", "ok 10")
    has_more(call, 202, 9002, "behind an undo a source stays muted")
    call.ask("unsubscribe 501", "ok 11")
    call.talk(0.5)
    call.ask("undo 11", "ok 12")
    has_more(call, 202, 501, "behind an undo a slot stays unsubscribed")


def check_mixes(call):
    for ssrc, out, other in ((201, 9001, 202), (202, 9002, 201)):
        mixes = call.stream(ssrc, out)
        check(has_no_gap(mixes), f"stream {out} has a gap: {[seq_of(mix) for mix in mixes[:20]]}")
        heard = {mix[-1] for mix in mixes}
        check(heard == {TONES[other]}, f"stream {out} holds other tones than {TONES[other]}: {heard}")


def check_video(call):
    """Checks the video and what is asked for. The number of its packets."""
    shown = call.stream(202, 501)
    check(has_no_gap(shown), f"the video has a gap: {[seq_of(packet) for packet in shown[:20]]}")
    last = shown[-1]

    def again():
        return [packet for packet in call.stream(202, 501) if seq_of(packet) == seq_of(last)]

    def passed():
        return [packet for packet in call.control(201, 201) if packet[-12:-8] == bytes.fromhex("81ce0002")]

    call.asks(nack(501, seq_of(last)), lambda: len(again()) > 1, "a NACK isn't answered")
    check(all(packet == last for packet in again()), "a NACK isn't answered with the same octets")
    before = len(passed())
    call.asks(pli(501), lambda: len(passed()) > before, "a PLI isn't passed on")
    call.talk_until(
        lambda: any(b"\x81\xcd" in packet for packet in call.control(201, 201)), "lost packets aren't asked for"
    )
    return len(shown)


def words_of(line):
    """The words of a line of `stats` by those before them, as in `packets 3`."""
    words = line.split()
    return dict(zip(words[2:], words[3:]))


def counted(call, kind):
    """The lines of `stats` of a kind, by their second words."""
    lines = [line for line in call.desk.shown("stats") if line.split()[0] == kind]
    return {line.split()[1]: words_of(line) for line in lines}


def middle_of(seconds):
    """The middle 32 bits of the NTP timestamp of a moment in seconds since 1970."""
    return int((seconds + FROM_1900_TO_1970) * 65536) % 2**32


def other_counts(call, streams, longest):
    """What `stats` says otherwise than it is: of a stream what came to its member, or of one the report. None if all is
    so. The round trip is up to so many milliseconds longer than by the report."""
    for member, ssrc in (202, 501), (201, 9001), (202, 9002):
        got, has = call.stream(member, ssrc), streams.get(str(ssrc), {})
        again = len(got) - len({seq_of(packet) for packet in got})
        came = {"packets": len(got), "octets": sum(map(len, got)), "resent": again}
        said = {word: int(has.get(word, 0)) for word in came}
        if said != came:
            return f"of stream {ssrc} came {came}, and `stats` has {said}"
    reported = {word: streams["501"][word] for word in ("fraction", "lost", "jitter")}
    if reported != {"fraction": "64", "lost": "2", "jitter": "20"}:
        return f"`stats` has the report {reported} on stream 501"
    of_mix = {word: streams["9002"][word] for word in ("fraction", "lost", "highest", "jitter", "round-trip")}
    if of_mix != {"fraction": "32", "lost": "3", "highest": "-", "jitter": "20", "round-trip": "-"}:
        return f"`stats` has the report {of_mix} on the mix 9002"
    trip = streams["501"]["round-trip"]
    is_near = trip != "-" and TRIP_MS - CLOCK_MS <= int(trip) <= TRIP_MS + longest + CLOCK_MS
    return None if is_near else f"`stats` has the round trip {trip} on stream 501"


def check_counts(call):
    """Once the members send nothing any more, `stats` counts what each got of its streams."""
    # The block: a quarter was lost, two packets in all, and the last packet has the highest number. The jitter is 20
    # ms. The last sender report came from the bridge 3 s ago, and the member had it for 1.25 s.
    highest, sent = seq_of(call.stream(202, 501)[-1]).to_bytes(4, "big"), time.time()
    times = b"".join(number.to_bytes(4, "big") for number in (1800, middle_of(sent - 3), 81920))
    call.send(202, bytes.fromhex("81c9000700000009000001f540000002") + highest + times)
    # Of its mix it lost an eighth, three packets in all. The jitter is 20 ms at 8000 Hz. No sender report is named.
    call.send(202, bytes.fromhex("81c90007000000090000232a20000003") + highest + bytes.fromhex("000000a0") + bytes(8))
    end, other = time.monotonic() + PATIENCE, "nothing came"
    # What waits in the bridge is on its way for up to half a second.
    while other:
        check(time.monotonic() < end, other)
        time.sleep(0.2)
        for ssrc, one in call.members.items():
            call.got[ssrc] += come_to(one)
        streams = counted(call, "stream")
        other = other_counts(call, streams, (time.time() - sent) * 1000)
    check(set(streams) == {"501", "9001", "9002"}, f"`stats` has the streams {sorted(streams)}")
    lane = counted(call, "lane")["0"]
    check(lane["waiting"] == "0", f"items wait for a lane that is at rest: {lane}")
    went = sum(int(has["packets"]) for has in streams.values())
    check(went < int(lane["packets"]), f"lane 0 sent {lane['packets']} packets and reports, and its streams {went}")


def check_sound(call):
    """`levels` has the sources that send sound, and `stats` has the samples and the energy of what they sent."""
    call.talk_until(lambda: levels(call).keys() == TONES.keys(), "`levels` lacks a source that sends")
    for ssrc, (samples, energy) in levels(call).items():
        check(samples > 0 and energy * SAMPLES == samples * ENERGY, f"{ssrc} has {samples} samples of {energy}")
    for line in call.desk.shown("stats"):
        if line.split()[0] == "source":
            ssrc, has = int(line.split()[2]), words_of(line)
            packets = int(has["packets"])
            sound = (str(packets * SAMPLES), str(packets * ENERGY)) if ssrc in TONES else ("-", "-")
            check((has["samples"], has["energy"]) == sound, f"`stats` has other sound than {sound}: {line}")


def levels(call):
    """The samples and the energy of each source that `levels` has."""
    lines = call.desk.shown("levels")
    check(lines[-1] == "end", "the answer to `levels` has no end")
    return {int(line.split()[2]): tuple(map(int, line.split()[3:])) for line in lines[:-1]}


def hold(call):
    use_desk(call)
    check_mixes(call)
    shown = check_video(call)
    call.talk_until(lambda: call.control(202, 200), "no sender report comes")
    # One without a block stands before what is asked for.
    call.talk_until(lambda: any(packet[0] > 0x80 for packet in call.control(201, 201)), "no receiver report comes")
    check_sound(call)
    check_counts(call)
    mixes = len(call.stream(201, 9001)) + len(call.stream(202, 9002))
    print(f"a call of {call.seq * 0.02:.1f} s: {mixes} mixes, {shown} video packets, no fault")


@contextlib.contextmanager
def connected_bridge(args):
    """A bridge, the port of its datagrams, and an operator's connection. It is stopped at the end."""
    with tempfile.TemporaryDirectory() as folder:
        bridge, udp, tcp = start(args, folder)
        try:
            connection = connected(bridge, tcp, folder)
            yield bridge, udp, connection
            connection.sendall(b"stop\n")
            status = bridge.wait(timeout=PATIENCE)
            check(status == 0, f"the bridge ended with status {status}")
        finally:
            bridge.kill()


def run(args):
    with connected_bridge(args) as (bridge, udp, connection):
        check_idle(bridge)
        hold(Call(connection, udp))
        check_delay(bridge, connection)
    check_drops(found_program(args.binary))
    return 0
