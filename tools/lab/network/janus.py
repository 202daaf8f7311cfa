"""Janus, a WebRTC server, in the bridge's place: its AudioBridge mixes the sound, and its VideoRoom forwards the
picture as RTP.

The sender takes part in the AudioBridge by plain RTP, and in the VideoRoom as a browser does: by ICE, and without
encryption, which Janus can leave out. So Janus asks it for what is lost. What the VideoRoom forwards goes to the
receiver as it comes.
"""

import itertools
import json
import pathlib
import re
import shutil
import socket
import subprocess
import time

from checks.camera import AUDIO_PT, SAMPLES, VIDEO_PT
from lab.network.ending import under
from lab.network.streams import AUDIO, PATIENCE, SLOT, VIDEO
from lab.network.stun import answer, binding_request, is_request
from operators.packets import is_rtcp, rtp
from operators.serving import port_of
from operators.shared import fail

PLUGINS = [
    "duktape", "echotest", "lua", "nosip", "recordplay", "sip", "streaming", "textroom", "videocall", "voicemail"
]
TRANSPORTS = ["http", "mqtt", "nanomsg", "rabbitmq", "websockets"]
HOME = pathlib.Path("/usr/lib/x86_64-linux-gnu/janus")
USER, PASSWORD = "own1", "own1own1own1own1own1own1"
# How many times Janus is started until it stays, and how many seconds are between checks.
STARTS, BETWEEN_CHECKS = 20, 2

OFFER = """\
v=0
o=- 1 1 IN IP4 127.0.0.1
s=-
t=0 0
a=group:BUNDLE 0
m=video 9 UDP/TLS/RTP/SAVPF {pt}
c=IN IP4 127.0.0.1
a=mid:0
a=sendonly
a=rtcp-mux
a=rtpmap:{pt} VP8/90000
a=rtcp-fb:{pt} nack
a=rtcp-fb:{pt} nack pli
a=ssrc:{ssrc} cname:own
a=ice-ufrag:{user}
a=ice-pwd:{password}
a=fingerprint:sha-256 {fingerprint}
a=setup:actpass
a=candidate:1 1 udp 2113937151 127.0.0.1 {port} typ host
a=end-of-candidates
"""


def is_there():
    return shutil.which("janus") is not None


def listed(kind, names):
    return f'{kind}: {{ disable = "{",".join(f"libjanus_{name}.so" for name in names)}" }}\n'


def write_settings(folder):
    """Writes the settings of a Janus that is asked over a Unix socket alone."""
    general = "general: { debug_level = 3, session_timeout = 0 }\n"
    files = {
        "janus": general + listed("plugins", PLUGINS) + listed("transports", TRANSPORTS),
        "janus.transport.pfunix": f'general: {{ enabled = true, json = "plain", path = "{folder}/api" }}\n',
        "janus.plugin.audiobridge": 'general: { local_ip = "127.0.0.1" }\n',
        "janus.plugin.videoroom": "general: { }\n",
    }
    for name, text in files.items():
        (pathlib.Path(folder) / f"{name}.jcfg").write_text(text)


class Janus:
    """A Janus that runs, and a session of its interface."""

    # It is reached at an address of the machine that isn't a loopback one.
    HOST = "0.0.0.0"

    def __init__(self, folder):
        write_settings(folder)
        self.numbers, self.session, self.process, self.api = itertools.count(), {}, None, None
        self.sound = self.picture = None
        if not any(self.starts(folder) for _ in range(STARTS)):
            fail(f"janus doesn't start: {pathlib.Path(folder, 'log').read_text()[-500:]}")

    def starts(self, folder):
        """Starts Janus and begins a session. False where it ends: its thread for the socket may end before it has
        begun."""
        words = [
            "janus",
            "-F",
            folder,
            "-C",
            f"{folder}/janus.jcfg",
            "-P",
            HOME / "plugins",
            "--no-webrtc-encryption",
            "--ice-lite",
        ]
        words = [*under(), *words]
        with open(f"{folder}/log", "w", encoding="utf-8") as log:
            self.process = subprocess.Popen(words, stdin=subprocess.DEVNULL, stdout=log, stderr=log)
        while self.process.poll() is None:
            self.api = socket.socket(socket.AF_UNIX, socket.SOCK_SEQPACKET)
            try:
                self.api.connect(f"{folder}/api")
                self.session = {"session_id": self.ask("create")["data"]["id"]}
                return True
            except OSError:
                self.api.close()
                time.sleep(0.05)
        return False

    def ask(self, kind, **parts):
        """The answer to a request."""
        name = str(next(self.numbers))
        self.api.send(json.dumps({"janus": kind, "transaction": name, **self.session, **parts}).encode())
        return self.wait(lambda told: told.get("transaction") == name and told["janus"] != "ack")

    def wait(self, is_wanted):
        """The next message that is wanted."""
        self.api.settimeout(PATIENCE)
        while True:
            octets = self.api.recv(1 << 16)
            if not octets:
                raise ConnectionResetError
            told = json.loads(octets)
            if told["janus"] == "error" or "error" in told.get("plugindata", {}).get("data", {}):
                fail(f"janus answers {told}")
            if is_wanted(told):
                return told

    def attached(self, plugin):
        """A function that asks a plugin."""
        handle = self.ask("attach", plugin=f"janus.plugin.{plugin}")["data"]["id"]
        return lambda request, **parts: self.ask(
            "message", handle_id=handle, body={"request": request, "room": 1, **parts.pop("body", {})}, **parts
        )

    def close(self):
        self.process.kill()
        self.process.wait()
        self.api.close()

    # In the middle of a call

    def goal_of(self, octets):
        """Where a sender's datagram goes."""
        is_sound = octets[0] >> 6 == 2 and not is_rtcp(octets) and octets[1] & 127 == AUDIO_PT
        return self.sound if is_sound else self.picture

    def joins(self, loop, relay, receiver):
        """Puts the sender behind a relay and a receiver into a room of each plugin."""
        self.joins_sound(port_of(relay.out), receiver)
        receiver.asks_at = self.forwards(loop, relay, port_of(relay.out), {SLOT: port_of(receiver.socket)})

    def forwards(self, loop, sender, port, receivers):
        """Forwards the picture of a sender at a port to receivers, by SSRC and port. The first asks for key frames."""
        ask, user, password = self.joins_picture(port)

        def hear(octets):
            return sender.takes_up(answer(octets, self.picture, PASSWORD)) if is_request(octets) else None

        sender.hears_others = hear
        checks(loop, sender, user, password)
        self.waits_until_up(loop)
        way = {"mid": "0", "host": "127.0.0.1", "pt": VIDEO_PT}
        to = [way | {"port": at, "ssrc": ssrc, "rtcp_port": at} for ssrc, at in receivers.items()]
        told = ask("rtp_forward", body={"publisher_id": 1, "host": "127.0.0.1", "host_family": "ipv4", "streams": to})
        return "127.0.0.1", told["plugindata"]["data"]["forwarders"][0]["local_rtcp_port"]

    def joins_sound(self, sender, receiver):
        """Puts both into the AudioBridge. A participant is given sound once it has sent some, so the receiver sends
        silence once."""
        speaker, listener = self.attached("audiobridge"), self.attached("audiobridge")
        speaker("create", body={"sampling_rate": 8000, "allow_rtp_participants": True})
        told = [
            ask(
                "join",
                body={"id": at, "codec": "pcmu", "rtp": {"ip": "127.0.0.1", "port": port, "payload_type": AUDIO_PT}},
            )
            for at, (ask, port) in enumerate([(speaker, sender), (listener, port_of(receiver.socket))], 1)
        ]
        self.sound, to_listener = (("127.0.0.1", one["plugindata"]["data"]["rtp"]["port"]) for one in told)
        receiver.socket.sendto(rtp(0, 0, AUDIO + 1, b"\xff" * SAMPLES, pt=AUDIO_PT), to_listener)

    def joins_picture(self, sender):
        """Puts the sender into the VideoRoom. The plugin, and whom and how a check has to name."""
        ask = self.attached("videoroom")
        ask("create", body={"publishers": 2, "videocodec": "vp8", "bitrate": 0})
        ask("join", body={"ptype": "publisher", "id": 1})
        offer = OFFER.format(
            pt=VIDEO_PT, ssrc=VIDEO, user=USER, password=PASSWORD, port=sender, fingerprint=":".join(["00"] * 32)
        )
        answered = ask("publish", jsep={"type": "offer", "sdp": offer.replace("\n", "\r\n")})["jsep"]["sdp"]
        user, password = (re.search(rf"a=ice-{name}:(\S+)", answered)[1] for name in ("ufrag", "pwd"))
        ip, port = re.search(r"a=candidate:\S+ 1 udp \d+ (\S+) (\d+) typ host", answered, re.I).groups()
        self.picture = ip, int(port)
        return ask, f"{user}:{USER}", password

    def waits_until_up(self, loop):
        """Goes on until Janus takes what the sender sends."""
        told = []
        loop.reads(self.api, lambda octets: told.append(json.loads(octets)["janus"]))
        loop.run(time.monotonic() + PATIENCE, lambda: "webrtcup" in told)
        loop.readers.pop(self.api)
        if "webrtcup" not in told:
            fail("janus doesn't take what the sender sends")


def checks(loop, sender, user, password):
    """Asks Janus to take what comes from a sender, now and again."""
    sender.takes_up(binding_request(user, password))
    loop.at(time.monotonic() + BETWEEN_CHECKS, checks, loop, sender, user, password)


