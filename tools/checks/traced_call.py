"""A call over a bridge that writes a trace: the bridge, its members, and an operator who changes the desk."""

import pathlib
import socket
import subprocess
import threading
import time

from checks.bridges import check, operator_at
from checks.traces import stream_in
from operators.packets import nack, pli, rtp, seq_of
from operators.serving import free_port, udp_socket
from operators.shared import CRATES, fail, found_program, try_command

# How many members there are.
MEMBERS = 4
# How many seconds a bridge has to begin, and to end. A program built without proofs takes minutes.
PATIENCE = 600
# Payload of a packet of video.
PICTURE = 700


class Bridge:
    """A bridge whose trace goes to a port."""

    def __init__(self, args, folder, lanes, trace):
        self.udp, self.tcp = free_port(socket.SOCK_DGRAM), free_port(socket.SOCK_STREAM)
        self.said, self.trace = pathlib.Path(folder) / "stderr", trace
        path = pathlib.Path(folder) / "serve.toml"
        path.write_text(
            f'udp = "127.0.0.1:{self.udp}"\ntcp = "127.0.0.1:{self.tcp}"\noperators = 3\nlanes = {lanes}\n'
            f'report_ms = 1000\nbridge_ssrc = 7\ncname = "conf"\ntrace = "127.0.0.1:{trace}"\n'
        )
        program = found_program(args.binary)
        command = [program, "serve", path] if program else try_command(["serve", path], args.seconds)
        null = subprocess.DEVNULL
        with self.said.open("w") as said:
            self.process = subprocess.Popen(
                command, cwd=CRATES / "confbridge", stdin=null, stdout=null, stderr=said
            )

    def operator(self):
        """An operator's connection, once the bridge listens."""
        end = time.monotonic() + PATIENCE
        while self.process.poll() is None and time.monotonic() < end:
            try:
                return operator_at(self.tcp, 60)
            except ConnectionRefusedError:
                time.sleep(0.1)
        return fail(f"the bridge doesn't listen: {self.said.read_text()[-2000:]}")

    def has_lost(self):
        """Whether it has said that its trace is lost."""
        return f"confbridge: trace 127.0.0.1:{self.trace} lost\n" in self.said.read_text()

    def stop(self, operator):
        operator.tell("stop")
        status = self.process.wait(timeout=PATIENCE)
        check(status == 0, f"the bridge ended with status {status}: {self.said.read_text()[-2000:]}")


class Member(threading.Thread):
    """A member's socket, which takes all that comes."""

    def __init__(self):
        super().__init__(daemon=True)
        self.socket, self.got = udp_socket(), []
        self.socket.setsockopt(socket.SOL_SOCKET, socket.SO_RCVBUF, 2**24)
        self.address = f"127.0.0.1:{self.socket.getsockname()[1]}"
        self.start()

    def run(self):
        while True:
            self.got.append(self.socket.recv(65536))


class Call:
    """Members who send, and what they got."""

    def __init__(self, draw, bridge):
        self.draw, self.to, self.seq, self.late = draw, ("127.0.0.1", bridge.udp), 0, []
        self.members = [Member() for _ in range(MEMBERS)]

    def setup(self):
        """The calls that make the desk: each member hears all, and sees the next two."""
        yield "add-room 1"
        for at, member in enumerate(self.members):
            codec = "l16" if at == 1 else "pcmu"
            yield f"add-member {10 + at} 1 {member.address} {codec} {9000 + at} {65500 + at} {at}"
            yield f"add-source {200 + at} {10 + at} audio"
            yield f"add-source {100 + at} {10 + at} video"
        for at in range(MEMBERS):
            for place in range(2):
                out = 500 + 10 * at + place
                yield f"add-slot {out} {10 + at} {place} 65530 0"
                yield f"subscribe {out} {100 + (at + place + 1) % MEMBERS}"

    def send(self, member, octets):
        member.socket.sendto(octets, self.to)

    def send_nothing(self):
        """A member and a stranger send datagrams without octets."""
        self.send(self.members[0], b"")
        self.send(Member(), b"")

    def pass_on(self, member, octets):
        """Sends a packet of video: one in thirty is lost, late or sent twice."""
        fate = self.draw.random()
        if fate < 0.01:
            return
        if fate < 0.02:
            self.late.append((member, octets))
            return
        self.send(member, octets)
        if fate < 0.03:
            self.send(member, octets)

    def turn(self):
        """Each member sends 20 ms of sound, and a frame of one to three packets."""
        for at, member in enumerate(self.members):
            octets = bytes([0xCE, 0x4E, 0x40, 0xC0][at : at + 1]) * 160
            self.send(member, rtp(self.seq, self.seq * 160, 200 + at, octets, pt=0))
            count = 1 + self.seq % 3
            for part in range(count):
                is_last = part == count - 1
                self.pass_on(member, rtp(self.numbers[at] + part, self.seq * 1800, 100 + at, self.payload(), is_last))
            self.numbers[at] += count
        self.seq += 1
        late, self.late = self.late, []
        for member, octets in late:
            self.send(member, octets)

    def payload(self):
        return self.draw.randbytes(PICTURE)

    def ask(self):
        """A member asks for packets of a stream again, or for a picture, or reports of it."""
        at = self.draw.randrange(MEMBERS)
        out, member = 500 + 10 * at + self.draw.randrange(2), self.members[at]
        came = [octets for octets in member.got[-200:] if stream_in(octets) == out and octets[1] != 200]
        last = seq_of(came[-1]) if came else 0
        fate = self.draw.random()
        if fate < 0.4:
            self.send(member, nack(out, (last - self.draw.randrange(20)) % 65536, self.draw.choice([0, 5])))
        elif fate < 0.5:
            self.send(member, pli(out))
        else:
            block = out.to_bytes(4, "big") + bytes([10, 0, 0, 1]) + last.to_bytes(4, "big") + bytes(12)
            self.send(member, bytes.fromhex("81c9000700000009") + block)

    def talk(self, seconds, until=lambda: False):
        """Talks for so long, or until this is so."""
        begun, self.seq = time.monotonic(), 0
        self.numbers = [1000 * at for at in range(MEMBERS)]
        while time.monotonic() - begun < seconds and not until():
            while time.monotonic() - begun >= self.seq * 0.02:
                self.turn()
                if self.draw.random() < 0.5:
                    self.ask()
            time.sleep(0.002)


class Desk(threading.Thread):
    """An operator who changes the desk and takes much of it back."""

    def __init__(self, draw, operator):
        super().__init__(daemon=True)
        self.draw, self.operator, self.calls, self.goes_on = draw, operator, 0, True
        self.version = int(operator.shown()[-1].split(" ")[1])

    def call(self, line):
        """Gives a call. Whether it was accepted."""
        answer = self.operator.ask(line)
        if answer.startswith("ok "):
            self.version, self.calls = int(answer.split(" ")[1]), self.calls + 1
        elif answer.startswith("no "):
            self.version = int(answer.split(" ")[1])
        return answer.startswith("ok ")

    def drawn(self):
        at, other = self.draw.randrange(MEMBERS), self.draw.randrange(MEMBERS)
        out = 500 + 10 * at + self.draw.randrange(2)
        return self.draw.choice(
            [
                f"mute {200 + at}",
                f"unmute {200 + at}",
                f"set-gain {10 + at} {200 + other} {self.draw.choice([0, 128, 256, 512])}",
                f"subscribe {out} {100 + other}",
                f"unsubscribe {out}",
                f"give-floor 1 {10 + at}",
                f"pin 1 {100 + at}",
                f"remove-slot {out}",
                f"add-slot {out} {10 + at} {out % 10} 100 200",
                f"group remove-source {200 + at} / add-source {200 + at} {10 + at} audio",
                f"undo {self.version}",
                f"redo {self.version}",
                f"revert {self.version - self.draw.randrange(8)}",
            ]
        )

    def run(self):
        while self.goes_on:
            self.call(self.drawn())
            time.sleep(0.02)
