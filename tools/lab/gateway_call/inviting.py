"""Invitations: signed links by which pages join."""

import subprocess
import sys
import time
import urllib.parse

from lab.gateway_call.again import Page
from lab.gateway_call.parts import NAME, NAMED, Parts
from lab.gateway_call.trial import Trial
from operators.shared import ROOT

from invitations import GUEST, HOST, signature

INVITE = ROOT / "examples/gateway/invite.py"
KEY, OTHER_KEY = "a key of a test, and no other one", "a key that nobody has here"
# The room of this, and the SSRC of its first page.
ROOM, FIRST = 21, 7600
# For how many seconds a link is good that is over soon.
SOON = 5


def invitation(role, room=ROOM, name="", seconds=600, key=KEY):
    """What a page shows of its link."""
    one = {"room": str(room), "name": name, "role": role, "until": int(time.time() + seconds)}
    return one | {"sign": signature(key, one)}


class Inviting(Trial):
    """The steps of invitations."""

    def at_gateway(self, first_member, key=KEY):
        parts = Parts(self.folder, self.udp, self.tcp, self.parts.control, first_member, key=key)
        self.others.append(parts)
        parts.start("agent")
        return parts

    def try_invitations(self):
        """A host opens a room, a guest joins it then, and who has no link doesn't."""
        parts = self.invited = self.at_gateway(880_000)
        offers = lambda **words: parts.ask("offer", **{"room": str(ROOM), "name": "me"} | words)
        said = offers()
        self.check(said[0] == 403 and "by an invitation" in said[1], "without a link nobody joins", said)
        guest, host = invitation(GUEST), invitation(HOST, name="Hester", seconds=SOON)
        one = Page(parts, "me", FIRST, ROOM, invitation=guest)
        self.check(one.said[0] == 404 and "isn't open yet" in one.said[1], "a guest doesn't open a room", one.said)
        one = Page(parts, "me", FIRST, ROOM, invitation=host)
        self.check(one.said[0] == 200 and f"room {ROOM}" in self.rows(), "a host does", one.said)
        two = Page(parts, "me", FIRST + 1, ROOM, invitation=guest)
        self.check(two.said[0] == 200 and self.members() == 2, "the guest joins then", two.said)
        names = lambda: [each["name"] for each in two.state()[1]["people"]]
        self.comes(lambda: names() == ["Hester", "me"], "each by the name of the link, or else the own", names)
        time.sleep(SOON)
        said = offers(invitation=host)
        self.check(said[0] == 403 and "was good until" in said[1], "a link that is over is refused", said)
        said = one.comes_again(FIRST + 10)
        self.check(said[0] == 200 and said[1]["member"] == one.told["member"], "a call outlives its link", said)
        for page in one, two:
            page.goes_on = False
            parts.ask("leave", id=page.id)
        self.comes(lambda: not self.rows(), "both leave", self.rows)
        self.by_tool(parts)

    def by_tool(self, parts):
        """invite.py makes a link that a page joins by."""
        words = [sys.executable, "-B", INVITE, NAME, "--name", "Zo\u00eb & co", "--host", "--settings", parts.path]
        made = subprocess.run(words, capture_output=True, text=True, timeout=60, check=False)
        page, _, query = made.stdout.strip().partition("/?")
        fields = dict(urllib.parse.parse_qsl(query))
        shown = fields | {"until": int(fields.get("until", 0))}
        one = Page(parts, "x", FIRST + 2, NAME, invitation=shown)
        good = page == parts.page and one.said[0] == 200 and f"room {NAMED}" in self.rows()
        self.check(good, "invite.py makes a link, by which a host opens a room with a name", (made.stdout, one.said))
        one.goes_on = False
        parts.ask("leave", id=one.id)
        self.comes(lambda: not self.rows(), "he leaves", self.rows)

    def try_spoiled_invitations(self):
        """Links that are refused, and requests that have none. Nothing stays behind."""
        parts, good = self.invited, invitation(HOST, name="Hester")
        for text, wanted, shown in (
            ("is over", "was good until", invitation(HOST, seconds=-1)),
            ("is for another room", f"is for room {ROOM + 1}", invitation(HOST, ROOM + 1)),
            ("has another room than was signed", "isn't as it was made", good | {"room": str(ROOM + 1)}),
            ("has another name", "isn't as it was made", good | {"name": "Mallory"}),
            ("has another role", "isn't as it was made", invitation(GUEST) | {"role": HOST}),
            ("has a role that there isn't", "isn't as it was made", invitation("chair")),
            ("has a later end", "isn't as it was made", good | {"until": good["until"] + 1}),
            ("has no signature", "isn't as it was made", good | {"sign": ""}),
            ("is signed by another key", "isn't as it was made", invitation(HOST, key=OTHER_KEY)),
        ):
            status, said = parts.ask("offer", room=str(ROOM), name="me", invitation=shown)
            self.check(status == 403 and wanted in said, f"a link that {text} is refused", (status, said))
        for shown in None, [], "x", {}, good | {"until": "1"}, good | {"until": True}, good | {"room": ROOM}:
            status, said = parts.ask("offer", room=str(ROOM), name="me", invitation=shown)
            self.check(status == 400 and "`invitation`" in said, f"{shown} is no link", (status, said))
        said = parts.ask("offer", room=str(ROOM), name="me", again={"member": 880_000, "mix": 1, "key": "0" * 64})
        self.check(said[0] == 410, "nor does one join by a key of a member that isn't there", said)
        self.check(not self.rows() and self.parts.calls() == 0, "nothing stays behind", self.rows())
        parts.stop("agent")
        self.short_key()

    def short_key(self):
        words = [sys.executable, "-B", ROOT / "examples/gateway/gateway.py", "agent"]
        path = Parts(self.folder, 1, 1, first_member=2, key="short").path
        said = subprocess.run([*words, path], capture_output=True, text=True, timeout=60, check=False)
        good = said.returncode and "`key` of [invitations] has to have 16 characters or more" in said.stderr
        self.check(good, "a short key is a fault of the settings", said.stderr)
