"""The recipes of examples/gateway: a room is recorded, and music plays to who is alone in it."""

import json
import signal
import struct
import subprocess
import sys
import time
import wave

from checks.sound import LEVEL, amplitude, write_tone
from lab.gateway_call.parts import until
from lab.gateway_call.sounds import RATE
from lab.gateway_call.trial import Trial
from lab.waits import ended
from operators.shared import ROOT

from room_member import FIRST  # noqa: E402

MUSIC = 1900
# What rtpbin.py sends: its tone in Hz, its picture and how many frames a second; and for how many seconds a picture is
# recorded.
TONE, SIZE, RATE_OF_FRAMES, RECORDED = 700, (320, 240), 15, 10


class Recipe:
    """A program of examples/gateway that runs until it is closed."""

    def __init__(self, trial, name, *words):
        path = trial.folder / f"{name}.log"
        self.log, self.path = path.open("w"), path
        words = [sys.executable, "-B", ROOT / "examples/gateway" / name, *words, trial.parts.path]
        self.process = subprocess.Popen(words, stdin=subprocess.DEVNULL, stdout=self.log, stderr=self.log)

    def said(self):
        return self.path.read_text()

    def close(self, by=signal.SIGTERM):
        if self.process.poll() is None:
            self.process.send_signal(by)
        return ended(self.process, 15)


def samples_of(file):
    """The samples of a file, and how many there are a second."""
    with wave.open(str(file)) as read:
        rate, octets = read.getframerate(), read.readframes(read.getnframes())
    return [sample for sample, in struct.iter_unpack("<h", octets)], rate


def levels_in(samples, rate):
    """The levels of two tones that sound, and of one that doesn't, in the first three seconds."""
    return [round(amplitude(samples[: 3 * rate], hertz, rate) / 32767, 3) for hertz in (1000, 700, 1500)]


class Recipes(Trial):
    def try_recording(self):
        """What two phones say is in the file, and a pause is as long as it was."""
        one, two = self.sound(4200), self.sound(4201, hertz=700)
        users = (one, "test"), (two, "other")
        phones = [self.ringing(self.sipp(each, user=user).waits(60), each) for each, user in users]
        self.is_in(4200)
        self.is_in(4201)
        file = self.folder / "room.wav"
        recorder = Recipe(self, "record.py", "1", file)
        self.others.append(recorder)
        self.comes(lambda: self.members() == 3, "who records is a member", self.rows, 30)
        begun = time.monotonic()
        time.sleep(4)
        one.sends = two.sends = False
        time.sleep(3)
        one.sends = two.sends = True
        time.sleep(4)
        took = time.monotonic() - begun
        status = recorder.close(signal.SIGINT)
        self.check(status == 0 and self.members() == 2, "it ends, and is no member", (status, recorder.said()))
        samples, rate = samples_of(file)
        levels = levels_in(samples, rate)
        good = min(levels[:2]) > LEVEL / 3 and levels[2] < LEVEL / 20
        self.check(good, f"the file has both phones: {levels}", levels)
        text = f"the file has {len(samples) / rate:.1f} s of {took:.1f} s"
        self.check(abs(len(samples) / rate - took) < 2.5, text, recorder.said())
        for each in (one, two, *phones):
            each.close()
        self.comes(lambda: not self.rows(), "all are gone", self.rows, 30)

    def try_picture(self):
        """GStreamer's rtpbin shows a picture and speaks, and both are recorded."""
        phone, file = self.sound(4230), self.folder / "room.webm"
        one = self.ringing(self.sipp(phone).waits(90), phone)
        self.is_in(4230)
        player = Recipe(self, "rtpbin.py", "1")
        self.others.append(player)
        self.comes(lambda: self.members() == 2, "rtpbin.py is a member", lambda: (self.rows(), player.said()), 20)
        self.check(phone.hears(TONE), "a phone hears its tone", (phone.level(TONE), player.said()))
        mix = next(row.split()[6] for row in self.rows() if row.startswith("member ") and int(row.split()[2]) >= FIRST)
        reports = lambda: [row for row in self.operator.shown("stats") if row.startswith(f"stream {mix} fraction ")]
        told = lambda: [row.split()[3] for row in reports()] not in ([], ["-"])
        self.comes(told, "it reports what it hears (RTCP)", reports, 20)
        recorder = Recipe(self, "record.py", "1", file)
        self.others.append(recorder)
        self.comes(lambda: "sound and a picture" in recorder.said(), "a picture is recorded", recorder.said, 30)
        time.sleep(RECORDED)
        status = recorder.close(signal.SIGINT)
        self.check(status == 0 and self.members() == 2, "it ends, and is no member", (status, recorder.said()))
        self.is_whole(file, recorder)
        for each in (player, phone, one):
            each.close()
        self.comes(lambda: not self.rows(), "all are gone", self.rows, 30)

    def is_whole(self, file, recorder):
        """Whether a file has the picture of rtpbin.py, and what both say. A key frame comes each 16 s by itself."""
        shows = "stream=codec_name,width,height,nb_read_frames"
        words = ["ffprobe", "-v", "error", "-count_frames", "-show_entries", shows, "-of", "json", file]
        said = subprocess.run(words, capture_output=True, text=True, check=False)
        found = {one["codec_name"]: one for one in json.loads(said.stdout or "{}").get("streams", [])}
        seen = found.get("vp8", {})
        frames, size = int(seen.get("nb_read_frames", 0)), (seen.get("width"), seen.get("height"))
        text = f"the file has {frames} frames of {RECORDED} s with {RATE_OF_FRAMES} a second"
        good = size == SIZE and frames > RECORDED * RATE_OF_FRAMES / 2
        self.check(good and "opus" in found, f"{text}, by a key frame that was asked for", (found, recorder.said()))
        sound = file.with_suffix(".wav")
        words = ["ffmpeg", "-v", "error", "-y", "-i", file, "-vn", "-ar", "8000", "-c:a", "pcm_s16le", sound]
        subprocess.run(words, check=False)
        levels = levels_in(*samples_of(sound)) if sound.exists() else [0, 0, 1]
        good = min(levels[:2]) > LEVEL / 4 and levels[2] < LEVEL / 20
        self.check(good, f"and the phone and the tone: {levels}", levels)

    def try_music_alone(self):
        """Who is alone in a room hears music, until a second one joins."""
        file = self.folder / "music.wav"
        write_tone(file, MUSIC, RATE, 3)
        one, two = self.sound(4210), self.sound(4211, hertz=700)
        recipe = Recipe(self, "music.py", "1", file)
        self.others.append(recipe)
        first = self.ringing(self.sipp(one).waits(80), one)
        self.is_in(4210)
        self.check(one.hears(MUSIC), "who is alone hears music", (one.level(MUSIC), self.rows(), recipe.said()))
        second = self.ringing(self.sipp(two, user="other").waits(60), two)
        self.is_in(4211)
        self.comes(lambda: self.members() == 2, "a second one joins: the music leaves", self.rows)
        good = one.hears(700) and one.is_quiet(MUSIC)
        self.check(good, "and both hear each other alone", (one.level(700), one.level(MUSIC)))
        second.close()
        two.close()
        back = until(lambda: one.level(MUSIC) > LEVEL / 4, 40) is not None
        self.check(back, "it goes: music comes again", (self.rows(), recipe.said()))
        recipe.close()
        self.comes(lambda: self.members() == 1, "music that is ended is no member", self.rows)
        one.close()
        first.close()
        self.comes(lambda: not self.rows(), "all are gone", self.rows, 30)
