"""Callers of a gateway: browsers and phones that each send a tone of their own, and hear which tones come."""

import contextlib
import glob
import json
import os
import pathlib
import re
import socket
import struct
import subprocess
import time

from checks.browser import Browser
from checks.sound import LEVEL, amplitude, write_tone
from lab.firefox import Firefox
from lab.waits import ended, within
from operators.shared import fail

PROBE = pathlib.Path(__file__).with_name("probe.js").read_text()
# The tone of each caller in Hz. A browser's picture has a colour of its own besides.
TONES = {"A": 440, "B": 1000, "C": 1500, "D": 700, "E": 2200, "F": 2750, "L": 3300}
COLOURS = {"A": "red", "B": "blue", "C": "green", "F": "yellow"}
WIDTH, HEIGHT, RATE = 320, 240, 15
# How many frames a picture has until it begins anew. Below each stands its number, as boxes that are white for a 1 from
# the least digit on, and a last box which makes the count of white ones odd.
FRAMES, DIGITS = 60, 7
# The most that a browser may take, in seconds: to start, to load the page, to join, and to say what it sees or hears.
STARTING, LOADING, JOINING, SAYING = 90, 60, 60, 30


def numbered():
    """What ffmpeg paints below each frame: its number."""
    width, height = WIDTH // (DIGITS + 1), HEIGHT // 8
    digits = [f"mod(floor(n/{2**at}),2)" for at in range(DIGITS)]
    digits.append(f"mod(1+{'+'.join(digits)},2)")
    box = lambda x, w, colour: f"drawbox={x}:{HEIGHT - height}:{w}:{height}:{colour}:fill"
    boxes = [f"{box(at * width, width, 'white')}:enable='eq({digit},1)'" for at, digit in enumerate(digits)]
    return ",".join([box(0, WIDTH, "black"), *boxes])


class Caller:
    """Who hears."""

    def says(self):
        """What it shows of its call."""
        return ""

    def heard(self):
        """The names of the callers whose tones are heard at half to double their level, and all levels."""
        levels = self.levels()
        return "".join(name for name, one in levels.items() if LEVEL / 2 < one < LEVEL * 2), levels

    def hears(self, names, seconds=15):
        """Whether these callers' tones and no others are heard before long, and the last levels."""
        end = time.monotonic() + seconds
        with within(seconds + SAYING, f"what {self.name} hears"):
            while True:
                heard, levels = self.heard()
                quiet = all(one < LEVEL / 20 for name, one in levels.items() if name not in names)
                if (heard == names and quiet) or time.monotonic() > end:
                    return heard == names and quiet, levels


class AtPage(Caller):
    """A browser at the gateway's page."""

    def at_page(self, page, room=1):
        with within(LOADING, f"{self.name}'s page to load"):
            self.open(f"{page}/?room={room}&plain&name={self.name}")
            self.wait("document.readyState === 'complete' && !!document.getElementById('join')", LOADING)
            self.run(PROBE)

    def join(self):
        """Presses Join once no call is left, and waits until the page is a member or says why it isn't."""
        with within(JOINING, f"{self.name} to join"):
            self.wait("!document.getElementById('join').disabled", JOINING)
            self.run("document.getElementById('join').click()")
            wrong = "document.getElementById('state').classList.contains('wrong')"
            self.wait(f"!!(call && call.told) || {wrong}", JOINING)
            self.joined = self.run("call && call.told")
        if not self.joined:
            fail(f"{self.name} can't join: {self.says()}")
        self.run("shown = {}; watchFrames()")
        return self

    def leave(self):
        self.press("leave")

    def press(self, button):
        self.run(f"document.getElementById('{button}').click()")

    def names(self):
        """The names that the page shows."""
        return self.run("document.getElementById('heard').textContent + document.getElementById('pictures').innerText")

    def says(self):
        return self.run("document.getElementById('state').textContent")

    def people(self):
        """Whom the page lists, and what it says of them."""
        return self.run("document.getElementById('people').innerText")

    def levels(self):
        told = self.run(f"levels({list(TONES.values())})")
        return {name: round(one, 4) for name, one in zip(TONES, told)}

    def shows_now(self):
        """The callers whose pictures the slots show: names, a `-` for none."""
        names = {colour: name for name, colour in COLOURS.items()}
        shown = self.run("colours()")
        return "".join(names[shown[str(slot)]] if str(slot) in shown else "-" for slot in range(4))

    def sees(self, stage, others, seconds=15):
        """Whether slot 0 shows the first and the others show these before long, in any order, and what they show."""
        end, wanted = time.monotonic() + seconds, sorted(others.ljust(3, "-"))
        with within(seconds + SAYING, f"what {self.name} sees"):
            while True:
                told = self.shows_now()
                good = told[0] == stage and sorted(told[1:]) == wanted
                if good or time.monotonic() > end:
                    return good, told

    def shown_since(self, slot, name, moment):
        """How many ms after a moment (of time.time) a slot had its first decoded frame of a picture, or None."""
        changes = self.run(f"shown[{slot}].changes")
        return next(
            (round(at - moment * 1000) for at, colour in changes if colour == COLOURS[name] and at > moment * 1000),
            None,
        )

    def flow(self, slot, begun, end):
        """What came in a slot between two moments: how many frames, the longest time without one in ms, of how many the
        number can be read, how many numbers are missing, and how often one came that isn't a later one."""
        return self.run(f"flow({slot}, {begun * 1000}, {end * 1000})")

    def counts(self, kind, mid):
        return self.run(f"counts('{kind}', '{mid}')")


class BrowserCaller(AtPage, Browser):
    """Chromium, whose camera and microphone are files."""

    def __init__(self, name, command, folder, flags=()):
        self.name, self.joined = name, None
        voice, camera = folder / f"{name}.wav", folder / f"{name}.mjpeg"
        write_tone(voice, TONES[name], 48000, 2)
        source = f"testsrc2=size={WIDTH}x{HEIGHT}:rate={RATE}:duration={FRAMES / RATE}"
        paint = f"drawbox=0:0:iw:{HEIGHT // 2}:{COLOURS[name]}:fill,{numbered()}"
        made = ["-f", "lavfi", "-i", source, "-vf", paint, "-c:v", "mjpeg", "-q:v", "5", "-pix_fmt", "yuvj420p", camera]
        with within(STARTING, f"ffmpeg to make {name}'s picture"):
            subprocess.run(["ffmpeg", "-v", "error", "-y", *made], check=True)
        faked = ["--use-fake-ui-for-media-stream", "--use-fake-device-for-media-stream"]
        faked += [f"--use-file-for-fake-audio-capture={voice}", f"--use-file-for-fake-video-capture={camera}"]
        # A machine may have no address but loopback.
        own = ["--autoplay-policy=no-user-gesture-required", "--allow-loopback-in-peer-connection"]
        with within(STARTING, f"browser {name} to start"):
            super().__init__(command, folder, [*faked, *own, *flags])


class FirefoxCaller(AtPage, Firefox):
    """Firefox, whose camera and microphone the page makes."""

    def __init__(self, name, command, folder):
        self.name, self.joined = name, None
        with within(STARTING, f"Firefox {name} to start"):
            super().__init__(command, folder)

    def at_page(self, page, room=1):
        super().at_page(page, room)
        self.run(f"makeDevices({TONES[self.name]}, {LEVEL}, '{COLOURS[self.name]}')")


class Phone(Caller):
    """A phone that plays a file with a tone, and writes what it hears to another."""

    RATE = 8000

    def __init__(self, name, folder):
        # A phone that comes again begins with nothing of the last one.
        self.name, self.folder = name, folder / f"{name}{time.monotonic_ns()}"
        self.folder.mkdir(parents=True)
        write_tone(self.folder / "tone.wav", TONES[name], self.RATE, 900)

    def begin(self, words, **more):
        self.log = (self.folder / "log").open("w")
        self.process = subprocess.Popen(words, stdout=self.log, stderr=subprocess.STDOUT, **more)

    def levels(self):
        """Of the last half second that it wrote."""
        time.sleep(0.6)
        files = sorted(self.folder.glob(self.HEARD))
        octets = files[-1].read_bytes() if files else bytes(44)
        # Linphone writes the rate to the file's head at the end of a call alone.
        rate, octets = int.from_bytes(octets[24:28], "little") or self.RATE, octets[44:]
        sound = [sample for sample, in struct.iter_unpack("<h", octets[: len(octets) // 2 * 2][-rate:])]
        return {name: round(amplitude(sound, hertz, rate) / 32767, 4) for name, hertz in TONES.items()}

    def close(self):
        """Hangs up."""
        self.process.terminate()
        ended(self.process)
        self.log.close()


class PhoneCaller(Phone):
    """baresip."""

    HEARD = "dump*dec.wav"

    def __init__(self, name, folder, port, sip, ip="127.0.0.1", password=""):
        super().__init__(name, folder)
        roots = "/usr/lib", "/usr/lib/*", "/usr/local/lib"
        found = [path for root in roots for path in glob.glob(f"{root}/baresip/modules")]
        config = [f"module_path {found[0]}" if found else ""]
        config += [f"module {one}.so" for one in ("g711", "aufile", "aubridge", "sndfile")]
        config += [f"module_app {one}.so" for one in ("account", "menu", "ctrl_tcp")]
        config += [f"sip_listen {ip}:{port}", f"ctrl_tcp_listen 127.0.0.1:{port + 5}"]
        self.control = port + 5
        config += [f"audio_source aufile,{self.folder}/tone.wav", "audio_player aubridge,one"]
        config += ["audio_alert aubridge,two", f"snd_path {self.folder}", f"rtp_ports {port + 10}-{port + 30}"]
        (self.folder / "config").write_text("".join(f"{line}\n" for line in config))
        (self.folder / "accounts").write_text(f'<sip:{name}@127.0.0.1>;auth_pass="{password}";regint=0\n')
        (self.folder / "contacts").write_text("")
        self.begin(["baresip", "-f", self.folder, "-e", f"/dial sip:1@{sip}"], stdin=subprocess.DEVNULL)


    def told(self, command):
        """What it says to a command of its menu."""
        words = json.dumps({"command": command})
        with socket.create_connection(("127.0.0.1", self.control), 10) as one:
            one.sendall(f"{len(words)}:{words},".encode())
            said = one.recv(65536).decode()
        if '"ok":true' not in said:
            fail(f"baresip {self.name} doesn't do {command}: {said}")
        return said

    def gets(self):
        """Whether sound comes. After a hold it writes none of it."""
        count = lambda: int(re.search(r"rcvd=(\d+)", self.told("audio_debug"))[1])
        before = count()
        time.sleep(1)
        return count() - before > 5

    def hold(self):
        self.told("hold")

    def resume(self):
        self.told("resume")

    def offer_again(self):
        self.told("reinvite")


class LinphoneCaller(Phone):
    """Linphone's console."""

    HEARD = "heard.wav"

    def __init__(self, name, folder, port, sip, password=""):
        super().__init__(name, folder)
        (self.folder / ".local/share/linphone").mkdir(parents=True)
        settings = f"[sip]\nsip_port={port}\nsip_tcp_port=0\ncontact=sip:{name}@127.0.0.1\n"
        settings += f"[rtp]\naudio_rtp_port={port + 10}\n"
        settings += f"[auth_info_0]\nusername={name}\npasswd={password}\nrealm=confbridge\n"
        (self.folder / "settings").write_text(settings)
        own = os.environ | {"HOME": str(self.folder)}
        self.begin(["linphonec", "-c", self.folder / "settings"], stdin=subprocess.PIPE, text=True, env=own)
        self.say("soundcard use files", f"play {self.folder}/tone.wav", f"record {self.folder}/heard.wav")
        self.say(f"call sip:1@{sip}")

    def say(self, *lines):
        self.process.stdin.write("".join(f"{line}\n" for line in lines))
        self.process.stdin.flush()

    def gets(self):
        """Whether sound comes: what it writes grows."""
        size = lambda: (self.folder / self.HEARD).stat().st_size
        before = size()
        time.sleep(1)
        return size() > before

    def hold(self):
        self.say("pause")

    def resume(self):
        self.say("resume")

    def close(self):
        with contextlib.suppress(OSError):
            self.say("terminate", "quit")
        ended(self.process, 5)
        super().close()
