"""Holds a call between GStreamer and ffmpeg, and another in a room for music.

Both send to relays, one for each member: a relay has the member's one address, passes on to the bridge what its
programs send, and passes on to the receiving program what the bridge sends. In the room for music both send and hear
L16 at 44100 Hz, of which the tones are measured: their frequency and their level. Each check prints a line, `ok` or
`FAILED`.

It installs nothing. On Debian the packages are gstreamer1.0-tools, gstreamer1.0-plugins-base, -good and -bad, ffmpeg,
tshark.
"""

import math
import pathlib
import selectors
import shutil
import signal
import socket
import struct
import subprocess
import tempfile
import threading
import time

from checks.bridges import operator_at
from checks.sound import amplitude, strength
from operators.models.mix import samples_of
from operators.packets import has_no_gap, is_rtcp, is_rtp_of, nack, number, payload_of, rtp, seq_of, ssrc_of
from operators.serving import port_of, settings, started, udp_socket
from operators.shared import add_program, fail, release_program

NEEDS = "the program, GStreamer, ffmpeg, tshark, leave to capture on `lo`"

NEEDED = ("gst-launch-1.0", "ffmpeg", "tshark")
RATE = 8000
WIDTH, HEIGHT = 320, 240
TONES = (440, 1000, 2000)
# In the room for music: its clock rate, the tones of GStreamer and ffmpeg, and the level of each. A room of 8000 Hz
# can't carry the second.
MUSIC, TICK = 44100, 882
LEVELS = {440: 0.3 * 32767, 6000: 32767 / 8}


def options(parser):
    add_program(parser)


class Checks:
    """Counts the checks that fail."""

    def __init__(self):
        self.failed = 0

    def __call__(self, holds, text, seen=""):
        self.failed += not holds
        print(f"{'ok' if holds else 'FAILED'}: {text}{'' if holds else f' ({seen})'}", flush=True)


class Relay(threading.Thread):
    """A member: a socket towards the bridge, and one that its programs send to. Keeps what comes from the bridge."""

    def __init__(self, bridge):
        super().__init__(daemon=True)
        self.bridge, self.out, self.inner = bridge, udp_socket(), udp_socket()
        self.port, self.inner_port = port_of(self.out), port_of(self.inner)
        self.got, self.sent, self.to = [], [], {}
        self.start()

    def run(self):
        picked = selectors.DefaultSelector()
        for one in (self.out, self.inner):
            picked.register(one, selectors.EVENT_READ)
        while True:
            for key, _ in picked.select():
                self.pass_on(key.fileobj, key.fileobj.recv(65536))

    def pass_on(self, one, octets):
        if one is self.inner:
            self.sent.append(octets)
            self.out.sendto(octets, self.bridge)
            return
        self.got.append(octets)
        if not is_rtcp(octets) and ssrc_of(octets) in self.to:
            self.out.sendto(octets, ("127.0.0.1", self.to[ssrc_of(octets)]))

    def media(self, stream):
        return [octets for octets in list(self.got) if is_rtp_of(octets, stream)]


# What is heard and seen


def samples(packets):
    """The samples of some packets of PCMU or L16."""
    return [sample for packet in packets for sample in samples_of(packet[1] & 127, payload_of(packet))]


def power(sound, hertz):
    """The share of a sound's power at a frequency: 0.5 for a pure tone."""
    whole = sum(v * v for v in sound) * len(sound)
    return strength(sound, hertz, RATE) / whole if whole else 0.0


def are_music(sound, wanted):
    """Whether half a second of music has the wanted tones at their levels, the others not, and each at its frequency.
    What it has."""
    half = sound[-MUSIC // 2 :]
    levels = {hertz: round(amplitude(half, hertz, MUSIC)) for hertz in LEVELS}
    loudest = lambda hertz: max(range(hertz - 6, hertz + 7, 2), key=lambda near: amplitude(half, near, MUSIC))
    peaks = {hertz: loudest(hertz) for hertz in wanted}
    near = all(abs(levels[hertz] - LEVELS[hertz]) < LEVELS[hertz] / 10 for hertz in wanted)
    quiet = all(levels[hertz] < 50 for hertz in LEVELS if hertz not in wanted)
    return len(half) == MUSIC // 2 and near and quiet and all(
        abs(peak - hertz) <= 2 for hertz, peak in peaks.items()
    ), levels, peaks


def are_tones(sound, own):
    """Whether the other tones are heard and the own one isn't, and how strong each is."""
    tones = {hertz: round(power(sound, hertz), 4) for hertz in TONES}
    return tones[own] < 0.001 and all(tones[hertz] > 0.01 for hertz in TONES if hertz != own), tones


def turns_of(pictures):
    """How many videos follow one another: the first lines of their pictures differ in brightness."""
    lines = [sum(pictures[at : at + WIDTH]) / WIDTH for at in range(0, len(pictures), WIDTH * HEIGHT)]
    if not lines:
        return 0
    middle = (min(lines) + max(lines)) / 2 if max(lines) - min(lines) > 5 else 0
    bright = [line > middle for line in lines]
    return 1 + sum(a != b for a, b in zip(bright, bright[1:]))


def are_ticks_of_music(packets):
    """Whether the packets have type 11 and 882 samples each, by which their timestamps go on."""
    times = [number(packet[4:8]) for packet in packets]
    are_whole = all(packet[1] & 127 == 11 and len(payload_of(packet)) == 2 * TICK for packet in packets)
    return are_whole and all((b - a) % 2**32 == TICK for a, b in zip(times, times[1:]))


def contributors(packets):
    return {struct.unpack(">I", packet[12:16])[0] for packet in packets if packet[0] & 15}


# Programs that send and receive


def gst(*words):
    return ["gst-launch-1.0", "-q", *" ".join(words).split()]


def gst_tone(hertz, relay, stream, codec):
    pay = {
        "pcmu": f"mulawenc ! rtppcmupay ssrc={stream} pt=0",
        "l16": f"audioconvert ! audio/x-raw,format=S16BE ! rtpL16pay ssrc={stream} pt=97",
    }[codec]
    return gst(
        f"audiotestsrc is-live=true samplesperbuffer=160 freq={hertz} volume=0.3 ! audio/x-raw,rate=8000,channels=1 ! "
        f"{pay}",
        f"min-ptime=20000000 max-ptime=20000000 ! udpsink host=127.0.0.1 port={relay.inner_port}",
    )


def gst_music(hertz, relay, stream):
    return gst(
        f"audiotestsrc is-live=true samplesperbuffer=441 freq={hertz} volume=0.3 ! audio/x-raw,rate={MUSIC},channels=1 "
        "! audioconvert !",
        f"audio/x-raw,format=S16BE ! rtpL16pay ssrc={stream} pt=11 ! udpsink host=127.0.0.1 port={relay.inner_port}",
    )


def gst_video(relay, stream):
    return gst(
        f"videotestsrc is-live=true ! video/x-raw,width={WIDTH},height={HEIGHT},framerate=25/1 ! vp8enc deadline=1 "
        "keyframe-max-dist=25 !",
        f"rtpvp8pay pt=100 ssrc={stream} mtu=1100 ! udpsink host=127.0.0.1 port={relay.inner_port}",
    )


def ffmpeg_sends(relay, stream, source, coding, kind, size):
    where = f"rtp://127.0.0.1:{relay.inner_port}?rtcpport={relay.inner_port}&pkt_size={size}"
    sending = ["-payload_type", str(kind), "-ssrc", str(stream), "-f", "rtp", where]
    return ["ffmpeg", "-v", "error", "-re", "-f", "lavfi", "-i", source, *coding.split(), *sending]


def ffmpeg_tone(hertz, relay, stream):
    return ffmpeg_sends(relay, stream, f"sine=frequency={hertz}:sample_rate=8000", "-ac 1 -c:a pcm_mulaw", 0, 172)


def ffmpeg_music(hertz, relay, stream):
    return ffmpeg_sends(relay, stream, f"sine=frequency={hertz}:sample_rate={MUSIC}", "-ac 1 -c:a pcm_s16be", 11, 1400)


def ffmpeg_video(relay, stream):
    return ffmpeg_sends(
        relay, stream, f"testsrc=size={WIDTH}x{HEIGHT}:rate=25", "-c:v libvpx -deadline realtime -g 25", 100, 1100
    )


def gst_hears(port, path, rate=RATE, kind=97):
    caps = f"application/x-rtp,media=audio,encoding-name=L16,clock-rate={rate},channels=1,payload={kind}"
    return gst(
        f"-e udpsrc port={port} caps={caps} ! rtpjitterbuffer ! rtpL16depay ! audioconvert ! wavenc ! filesink "
        f"location={path}"
    )


def gst_sees(port, path):
    caps = "application/x-rtp,media=video,encoding-name=VP8,clock-rate=90000,payload=100"
    return gst(
        f"-e udpsrc port={port} caps={caps} ! rtpjitterbuffer ! rtpvp8depay ! vp8dec ! videoconvert !",
        f"video/x-raw,format=GRAY8,width={WIDTH},height={HEIGHT} ! filesink location={path}",
    )


def ffmpeg_hears(port, path, kind=0):
    sdp = path.with_suffix(".sdp")
    sdp.write_text(f"v=0\no=- 0 0 IN IP4 127.0.0.1\ns=mix\nc=IN IP4 127.0.0.1\nt=0 0\nm=audio {port} RTP/AVP {kind}\n")
    return [
        "ffmpeg",
        "-v",
        "error",
        "-protocol_whitelist",
        "file,udp,rtp",
        "-i",
        str(sdp),
        "-c:a",
        "pcm_s16le",
        "-f",
        "s16le",
        str(path),
    ]


def even_port():
    """An even port that no socket has. The next one is free too: a program wants to hear reports there."""
    while True:
        with udp_socket() as one, socket.socket(socket.AF_INET, socket.SOCK_DGRAM) as next_one:
            port = port_of(one)
            try:
                next_one.bind(("127.0.0.1", port + 1))
            except OSError:
                continue
            if port % 2 == 0:
                return port


def stopped(program):
    program.send_signal(signal.SIGINT)
    program.wait(timeout=10)


# What tshark says


def capturing(port, capture):
    shark = subprocess.Popen(
        ["tshark", "-q", "-i", "lo", "-f", f"udp port {port}", "-w", capture], stderr=subprocess.DEVNULL
    )
    time.sleep(2)
    return shark


def is_warning(severities):
    """Whether one is a warning or an error. tshark notes each VP8 payload that it understands in part; a note is
    none."""
    return any(int(severity) >= 0x600000 for severity in severities.split(",") if severity)


def dissected(capture, port):
    """How many datagrams of the bridge tshark has seen, and those that it complains of."""
    fields = ["frame.protocols", "_ws.malformed", "_ws.expert.severity", "_ws.expert.message"]
    command = [
        "tshark",
        "-r",
        capture,
        "-d",
        f"udp.port=={port},rtp",
        "-d",
        "rtp.pt==100,vp8",
        "-Y",
        f"udp.srcport=={port}",
        "-T",
        "fields",
    ]
    command += [word for field in fields for word in ("-e", field)] + ["-E", "separator=|"]
    told = subprocess.run(command, capture_output=True, text=True, check=False).stdout.splitlines()
    cells = [line.split("|") for line in told]
    return len(told), [
        line
        for line, cell in zip(told, cells) if cell[1] or is_warning(cell[2]) or not ("rtp" in line or "rtcp" in line)
    ]


# The checks of the checks


def check_checks(check, folder):
    """Makes sure that the checks refuse a gap, a number twice, the own tone, a tone that is missing, soft or too high,
    and a report cut off."""
    packets = [rtp(n, 160 * n, 9001, b"\xff" * 160, pt=0) for n in range(65530, 65540)]
    wave = {hertz: [8000 * math.sin(2 * math.pi * hertz * n / RATE) for n in range(RATE)] for hertz in TONES}
    mixed = [a + b for a, b in zip(wave[1000], wave[2000])]
    numbers = (
        has_no_gap(packets) and not has_no_gap(packets[:4] + packets[5:]) and not has_no_gap(packets[:4] + packets[3:])
    )
    tones = are_tones(mixed, 440)[0] and not are_tones(mixed, 1000)[0] and not are_tones(wave[1000], 440)[0]
    music = {
        hertz: [most * math.sin(2 * math.pi * hertz * n / MUSIC) for n in range(MUSIC // 2)]
        for hertz, most in LEVELS.items()
    }
    both, soft, low = [a + b for a, b in zip(*music.values())], [v / 2 for v in music[440]], music[6000][::2] * 2
    levels = are_music(both, [440, 6000])[0] and are_music(music[440], [440])[0] and not are_music(both, [440])[0]
    levels = levels and not are_music(soft, [440])[0] and not are_music(low, [6000])[0]
    capture = str(folder / "wrong.pcap")
    with udp_socket() as one:
        port = port_of(one)
        shark = capturing(port, capture)
        one.sendto(packets[0], ("127.0.0.1", port))
        one.sendto(bytes.fromhex("80c900080000000981ca"), ("127.0.0.1", port))
        time.sleep(1)
        stopped(shark)
    count, wrong = dissected(capture, port)
    seen = numbers, tones, levels, count, wrong
    check(numbers and tones and levels and count == 2 and len(wrong) == 1, "the checks refuse what is wrong", seen)


# The call


class Call:
    """Three members, what they hear and see, and the operator."""

    def __init__(self, check, folder, udp, tcp):
        self.check, self.folder, self.udp, self.running = check, folder, udp, []
        self.desk = operator_at(tcp, 10)
        self.p, self.q, self.r, *self.players = (Relay(("127.0.0.1", udp)) for _ in range(6))
        self.heard, self.heard_by_ffmpeg, self.seen = folder / "heard.wav", folder / "heard.raw", folder / "seen.raw"

    def start(self, command, **where):
        program = subprocess.Popen(command, **where)
        self.running.append(program)
        return program

    def set_desk(self):
        p, q, r = (relay.port for relay in (self.p, self.q, self.r))
        lines = [
            "add-room 1", f"add-member 10 1 127.0.0.1:{p} pcmu 9001 65500 0",
            f"add-member 11 1 127.0.0.1:{q} pcmu 9002 0 0",
            f"add-member 12 1 127.0.0.1:{r} l16 9003 0 0", "add-source 201 10 audio", "add-source 202 11 audio",
            "add-source 203 12 audio",
            "add-source 101 10 video", "add-source 102 11 video", "add-slot 501 12 0 65535 1000", "pin 1 101",
        ]  # fmt: skip
        told = [self.desk.ask(line) for line in lines]
        self.check(all(answer.startswith("ok") for answer in told), "the desk is set", told)

    def start_programs(self):
        """Starts the programs that receive, and then those that send. The former."""
        p, q, r = self.p, self.q, self.r
        r.to[9003], r.to[501], q.to[9002] = even_port(), even_port(), even_port()
        hearing = (
            gst_hears(r.to[9003], self.heard),
            gst_sees(r.to[501], self.seen),
            ffmpeg_hears(q.to[9002], self.heard_by_ffmpeg),
        )
        receivers = [self.start(command, stdin=subprocess.DEVNULL) for command in hearing]
        tones = gst_tone(440, p, 201, "pcmu"), ffmpeg_tone(1000, q, 202), gst_tone(2000, r, 203, "l16")
        for command in (*tones, gst_video(p, 101), ffmpeg_video(q, 102)):
            self.start(command, stdout=subprocess.DEVNULL)
        return receivers

    def check_switching(self):
        """Pins the other video and undoes that."""
        time.sleep(6)
        video = lambda: self.r.media(501)
        shown = contributors(video())
        self.check(shown == {101}, "GStreamer's video is shown", shown)
        pinned = self.desk.ask("pin 1 102")
        time.sleep(3)
        shown = contributors(video()[-20:])
        self.check(pinned.startswith("ok") and shown == {102}, "`pin` shows ffmpeg's video", f"{pinned}, {shown}")
        told = self.desk.ask(f"undo {pinned.split()[-1]}")
        time.sleep(3)
        shown = contributors(video()[-20:])
        self.check(told.startswith("ok") and shown == {101}, "`undo` shows GStreamer's again", f"{told}, {shown}")

    def check_packets(self):
        """Checks what came to the relays."""
        # What came is listed first, for what is sent meanwhile comes later.
        video = self.r.media(501)
        known = {payload_of(d) for relay in (self.p, self.q) for d in relay.sent if not is_rtcp(d)}
        self.check(video and all(payload_of(d) in known for d in video), "each payload is one that a camera sent")
        self.check(has_no_gap(video), "the video's numbers have no gap")
        self.check(self.answers_nack(), "a NACK is answered with the same octets")
        for relay, out, own, name in (
            (self.p, 9001, 440, "PCMU to GStreamer's member"), (self.q, 9002, 1000, "PCMU to ffmpeg's member"),
            (self.r, 9003, 2000, "L16"),
        ):  # fmt: skip
            mixes = relay.media(out)
            self.check(has_no_gap(mixes), f"{name}: numbers have no gap", [seq_of(mix) for mix in mixes[:5]])
            self.check_tones(samples(mixes[-100:]), own, f"{name}: the others' tones and not its own")
        reports = any(is_rtcp(d) and d[1] == 200 for d in self.r.got) and any(is_rtcp(d) for d in self.p.got)
        self.check(reports, "reports come")

    def answers_nack(self):
        shown = self.r.media(501)[-5]
        before = sum(d == shown for d in self.r.got)
        self.r.out.sendto(nack(501, seq_of(shown)), self.r.bridge)
        time.sleep(0.5)
        return before == 1 and sum(d == shown for d in self.r.got) == 2

    def check_tones(self, sound, own, text):
        good, tones = are_tones(sound, own)
        self.check(good, text, (len(sound), tones))

    def check_files(self):
        """Checks what the receiving programs wrote."""
        octets = lambda path: path.read_bytes() if path.exists() else b""
        end = lambda octets: [sample for sample, in struct.iter_unpack("<h", octets[-32000:])]
        self.check_tones(end(octets(self.heard)[44:]), 2000, "GStreamer hears the L16 mix")
        self.check_tones(end(octets(self.heard_by_ffmpeg)), 1000, "ffmpeg hears the PCMU mix")
        seen = octets(self.seen)
        good = len(seen) > 150 * WIDTH * HEIGHT and turns_of(seen) == 3
        self.check(good, "GStreamer sees the one video, the other, and the one again", (len(seen), turns_of(seen)))

    def set_music(self):
        """Sets the room for music: GStreamer's and ffmpeg's members send, and a third one hears them."""
        members = zip((20, 21, 22), self.players)
        lines = [
            f"add-room 2 {MUSIC}",
            *(f"add-member {n} 2 127.0.0.1:{relay.port} l16 {9000 + n} 0 0" for n, relay in members),
        ]
        told = [self.desk.ask(line) for line in [*lines, "add-source 220 20 audio", "add-source 221 21 audio"]]
        self.check(all(answer.startswith("ok") for answer in told), "the room for music is set", told)
        refused = self.desk.ask("add-member 23 2 127.0.0.1:1 pcmu 9023 0 0"), self.desk.ask("move-member 10 2")
        self.check(
            all(answer.endswith(" 21 RateMismatch") for answer in refused),
            "PCMU and another room's member have no place in it",
            refused,
        )

    def check_music(self):
        """Holds the call in the room for music and checks it."""
        s, t, u = self.players
        by_gst, by_ffmpeg = self.folder / "music.wav", self.folder / "music.raw"
        self.set_music()
        u.to[9022], t.to[9021] = even_port(), even_port()
        hearing = gst_hears(u.to[9022], by_gst, MUSIC, 11), ffmpeg_hears(t.to[9021], by_ffmpeg, 11)
        receivers = [self.start(command, stdin=subprocess.DEVNULL) for command in hearing]
        for command in (gst_music(440, s, 220), ffmpeg_music(6000, t, 221)):
            self.start(command, stdout=subprocess.DEVNULL)
        time.sleep(6)
        for relay, out, wanted in (s, 9020, [6000]), (t, 9021, [440]), (u, 9022, [440, 6000]):
            mixes = relay.media(out)[-100:]
            self.check(
                has_no_gap(mixes) and are_ticks_of_music(mixes),
                f"member {out - 9000} gets 882 samples a packet, of type 11",
            )
            good, *seen = are_music(samples(mixes), wanted)
            self.check(good, f"member {out - 9000} hears {wanted} Hz at their levels, and nothing of its own", seen)
        for program in receivers:
            stopped(program)
        for path, wanted, name in (by_gst, [440, 6000], "GStreamer"), (by_ffmpeg, [440], "ffmpeg"):
            octets = path.read_bytes()[44:] if path.exists() else b""
            good, *seen = are_music(
                [sample for sample, in struct.iter_unpack("<h", octets[len(octets) % 2 :][-2 * MUSIC :])], wanted
            )
            self.check(good, f"{name} hears the music: {wanted} Hz", seen)

    def hold(self):
        """Holds the call and checks it."""
        capture = str(self.folder / "call.pcap")
        shark = capturing(self.udp, capture)
        self.running.append(shark)
        self.set_desk()
        receivers = self.start_programs()
        self.check_switching()
        self.check_packets()
        for program in receivers:
            stopped(program)
        self.check_files()
        self.check_music()
        stopped(shark)
        count, wrong = dissected(capture, self.udp)
        self.check(
            count > 100 and not wrong, f"tshark dissects {count} datagrams of the bridge without a complaint", wrong[:3]
        )
        self.desk.ask("quit")


def run(args):
    missing = [name for name in NEEDED if not shutil.which(name)]
    if missing:
        fail(f"these programs are missing: {' '.join(missing)}")
    check, running = Checks(), []
    with tempfile.TemporaryDirectory() as folder:
        bridge, udp, tcp = started(release_program(args.binary), settings(folder))
        try:
            check_checks(check, pathlib.Path(folder))
            call = Call(check, pathlib.Path(folder), udp, tcp)
            running = call.running
            call.hold()
            check(bridge.poll() is None, "the bridge still runs")
        finally:
            for one in [*running, bridge]:
                one.kill()
    return 1 if check.failed else 0
