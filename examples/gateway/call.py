"""A call of a browser or a phone, and what rtpengine remembers of it for an agent that is started anew."""

import contextlib
import json
import secrets
import time

# What rtpengine remembers of a call beside its own: a text of JSON, which it tells to who asks (`label`).
TOLD = "side", "name", "source", "key", "tag", "is_held", "is_transcoded", "offer"


def log(text):
    print(f"gateway: {text}", flush=True)


def numbers():
    """The first numbers of a stream. SRTP may take a sequence number above 2^15 for one of the round before."""
    return f"{secrets.randbits(15)} {secrets.randbits(32)}"


class Call:
    """A call. `side` is the name that rtpengine has for who calls: browser or phone.

    `source` is who asked for it: an account, or an address. A page knows its call by `id`, a secret, and a phone its by
    the Call-ID and its own tag, together with the gateway's (RFC 3261 section 12).
    """

    def __init__(self, side, room, name, source, slots):
        self.side, self.room, self.name, self.source, self.id = side, room, name[:40], source, secrets.token_hex(16)
        # The streams that the member gets. Slot 0 is the stage: it shows what operators pin, or who has the floor.
        self.mix, self.slots = secrets.randbits(32), [secrets.randbits(32) for _ in range(slots)]
        self.member = self.voice = self.camera = self.screen = self.refused = None
        # Whether it shows its screen, under the SSRC that is always there for one.
        self.shares = False
        # Of a page with an invitation: whether that is a host's or a guest's. And the name that ICE has for a page's way.
        self.role = self.ufrag = None
        # The member that it is to be again, and the mix of that one: a page comes again by itself.
        self.again = None
        # Whether rtpengine has the call, and why it has ended. By what its table has it, and where the bridge sends.
        self.is_open, self.why, self.key, self.address = False, None, self.id, None
        # A phone's: the gateway's tag, whether it is held, and how many packets had come when it was told where to
        # send: until more come, it gets none.
        self.tag, self.is_held, self.waits_at = None, False, None
        # What Kamailio keeps of it, for one that is started anew (dialogs.py).
        self.dialog = None
        # Its last offer; the IP address that it sends from; what had come of its sound when that was last heard, and
        # when that was; since when it is no member any more, by an operator; and when its port was last learnt anew.
        self.offer = self.ip = self.media = self.gone = None
        self.learning, self.reset = time.monotonic(), 0.0
        # Whether rtpengine makes PCMU of what it sends, and so draws the SSRC at the bridge; under which one it sends
        # itself when that was learnt; and how many packets of those of no source have come to the bridge. `asked`: how
        # often that was asked; `strange`: how many packets had come to rtpengine from elsewhere.
        self.is_transcoded, self.sends, self.strangers, self.asked, self.strange = False, None, None, 0, 0
        # The keys that it has pressed last, and when; and how many PINs were wrong.
        self.keys, self.pressed, self.wrong = "", 0.0, 0
        # The desk's call by which it has muted itself last, and when its page has last asked for that; and whether it
        # was muted when the desk was last looked at, and by itself.
        self.muted, self.muting, self.was_muted, self.is_own_mute = None, 0.0, False, False
        # How many packets had come when they were last counted, and when a sign of life came last.
        self.packets, self.alive = 0, time.monotonic()

    def label(self, gateway, **more):
        """What rtpengine is to remember, with the gateway's own number: others may have calls there."""
        return json.dumps({"gateway": gateway} | {word: getattr(self, word) for word in TOLD} | more)

    def sections(self):
        """How many sections a browser's descriptions have: of its voice, its camera, each further slot, its screen."""
        return 2 + len(self.slots)

    def pictures(self):
        """The SSRCs of the pictures that it shows, its screen first."""
        shown = (self.screen if self.shares else None), self.camera
        return [ssrc for ssrc in shown if ssrc is not None]

    def commands(self, member, address):
        """The commands that make its member, sources and slots."""
        group = [f"add-member {member} {self.room} {address} pcmu {self.mix} {numbers()}"]
        sources = (self.voice, "audio"), (self.camera, "video")
        group += [f"add-source {ssrc} {member} {kind}" for ssrc, kind in sources if ssrc is not None]
        return group + [f"add-slot {slot} {member} {index} {numbers()}" for index, slot in enumerate(self.slots)]


def labels(tags):
    """What rtpengine remembers of a call with these tags."""
    for one in tags.values():
        with contextlib.suppress(ValueError):
            told = json.loads(one.get("label", ""))
            if isinstance(told, dict):
                yield told


def labelled(tags, gateway):
    """The call of these tags of rtpengine, if it is this gateway's. Its member isn't known by that."""
    for told in labels(tags):
        if told.get("gateway") == gateway and told.keys() >= set(TOLD):
            call = Call(told["side"], None, told["name"], told["source"], 0)
            call.key = tuple(told["key"]) if isinstance(told["key"], list) else told["key"]
            call.tag, call.is_held, call.is_open = told["tag"], told["is_held"], True
            call.is_transcoded, call.offer = told["is_transcoded"], told["offer"]
            # A browser's answer has named it.
            call.screen = next((one["screen"] for one in labels(tags) if "screen" in one), None)
            return call
    return None
