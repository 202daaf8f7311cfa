"""The steps of `tools/bridge check gateway`: one list, in the order in which they run, and what each needs."""

import typing

from lab.gateway_call import natted
from lab.gateway_call.trial import BROWSERS, lacking
from lab.sip import kamailio_lacks

# What a step may need, and what of that isn't there, in words: nothing where all is.
NEEDS = {
    "media": lambda args: "a model has no media" if args.model else "",
    "browser": lambda args: lacking(args.browser, "ffmpeg"),
    "kamailio": lambda args: kamailio_lacks() and f"there is no {kamailio_lacks()}",
    "sipp": lambda args: lacking("sipp"),
    "baresip": lambda args: lacking("baresip"),
    "linphone": lambda args: lacking("linphonec"),
    "firefox": lambda args: lacking("firefox-esr", "pulseaudio"),
    "coturn": lambda args: lacking("turnserver", "openssl"),
    "openssl": lambda args: lacking("openssl"),
    "ffmpeg": lambda args: lacking("ffmpeg", "ffprobe"),
    "gstreamer": lambda args: lacking("gst-launch-1.0"),
    "git": lambda args: lacking("git"),
    "node": lambda args: lacking("node"),
    "namespaces": lambda args: natted.lacks("ip"),
    "nat": lambda args: natted.lacks("ip", "iptables"),
}


# The most that a step may take, in seconds; and one by README's commands, for which a person has ten minutes.
MOST, BY_README = 180, 700


class Step(typing.NamedTuple):
    """A step of a part: its name there, the method of the call that carries it out, what it needs, the callers that are
    in room 1 before it, the step of its part that has to be done by then, and the most seconds that it may take."""

    part: str
    name: str
    method: str
    needs: tuple
    callers: str = ""
    after: str = ""
    seconds: int = MOST

    def __str__(self):
        return f"{self.part}.{self.name}"

    def lacks(self, args):
        """What it lacks on this machine, in words."""
        return next((text for one in self.needs if (text := NEEDS[one](args))), "")

    def gathers(self, args):
        """Its callers, as far as this machine can have them."""
        phones = not (lacking("baresip") or kamailio_lacks())
        return [one for one in self.callers if one in BROWSERS or phones]

    def has_phones(self):
        """Whether it is better with Kamailio, or needs it."""
        return "kamailio" in self.needs or bool({*self.callers} & {*"DE"})


def steps(part, needs, *names, callers="", after="", seconds=MOST):
    """Steps of a part that need the same. A name may have the needs of its own step behind a colon."""
    prefix, needs = "step" if callers or part in IN_CALL else "try", tuple(needs.split())
    for line in names:
        name, _, more = line.partition(": ")
        method = f"{prefix}_{name.replace('-', '_')}"
        yield Step(part, name, method, (*needs, *more.split()), callers, after, seconds)


# Parts whose steps bring callers of their own, and end those that there are.
IN_CALL = ["pages", "turn", "network"]
PHONES = "media kamailio"
STEPS = [
    *steps("refusals", "", "bodies", "bad-answers", "two-with-one-ssrc", "phones-with-one-ssrc", "full-and-busy"),
    *steps("strangers", "kamailio", "networks", "passwords", "without-accounts", "requests"),
    *steps("strangers", "kamailio", "dialogs: media", "targets: media"),
    *steps("strangers", "kamailio", "rooms", "names", "http"),
    *steps("music", "", "music"),
    *steps("again", "", "page-script: node", "sites", "agent-again", "restarts", "given-up"),
    *steps("again", "", "rtpengine-again", "bridge-again", "nobody-comes"),
    *steps("names", "", "own-calls", "members-named"),
    *steps("links", "", "invitations", "spoiled-invitations"),
    *steps("stage", "", "rule", "eight", "by-hand", "sixteen", "older"),
    *steps("sip", "kamailio sipp", "goodbyes", "kamailio-again", "gone-for-good", "acks", "requires", "transfers"),
    *steps("sip", "kamailio sipp", "trunk", "ways: openssl", "room-names", "taken", "fleet-proxy"),
    *steps("sound", f"{PHONES} sipp", "music-on-hold", "rebinding", "codecs: ffmpeg", "keys"),
    *steps("recipes", f"{PHONES} sipp ffmpeg", "recording", "picture: gstreamer", "music-alone"),
    *steps("phones", "kamailio", "bad-phones", "holds: media"),
    *steps("gone", "", "without-rtpengine", "without-bridge"),
    *steps("readme", f"{PHONES} browser baresip", "package: git", "clone", seconds=BY_README),
    *steps("pages", "browser", "pages"),
    *steps("turn", "browser coturn", "turn", "wrong-secret"),
    *steps("network", "browser namespaces", "network-joins"),
    *steps("network", "browser namespaces", "network", after="network-joins"),
    *steps("screen", "media browser", "screen", "devices", callers="AB"),
    *steps("phones", f"{PHONES} browser baresip", "phones", callers="ABCDE"),
    *steps("browsers", "media browser", "mutes", "pins", "floor", "removals", "history", "losses", callers="ABC"),
    *steps("speakers", "media browser", "speakers", "weak", callers="ABC"),
    *steps("four", "media browser", "turns", "numbers", "narrow", callers="ABCF"),
    *steps("firefox", "media browser firefox", "firefox", callers="AD"),
    *steps("linphone", f"{PHONES} browser linphone", "linphone", callers="AD"),
    *steps("gone", "media browser", "deaths", callers="ABD"),
    *steps("nat", "media browser nat", "nat", callers="A"),
]
PARTS = list(dict.fromkeys(one.part for one in STEPS))


def chosen(names):
    """The steps with these names, or of the parts with these; all where no name is given. None where a name is none."""
    known = {*PARTS, *map(str, STEPS)}
    wrong = [name for name in names or () if name not in known]
    if wrong:
        return None
    wanted = [one for one in STEPS if not names or one.part in names or str(one) in names]
    before = {(one.part, one.after) for one in wanted}
    return [one for one in STEPS if one in wanted or (one.part, one.name) in before]
