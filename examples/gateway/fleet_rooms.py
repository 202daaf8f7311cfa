"""Where rooms are, if the bridge is one of a fleet (examples/fleet): the fleet's agent knows."""

import json
import time
import urllib.error
import urllib.request

from fleet_secret import secret_in, signed
from invitations import CLOSED
from refused import Refused

# The least number of a gateway's member in a fleet. Members that signalling joins have less.
LEAST = 1_000_000_000
# After how many seconds a gateway sees anew where the fleet's pages are.
PAGES = 3
CUT = "This bridge is cut off from its fleet: your room may be on another one by now."


class Fleet:
    def __init__(self, settings, bridge):
        """`settings`: the agent's URL, and the file of the fleet's secret. `bridge`: the `udp` of the gateway's own."""
        self.agent, self.udp = settings["agent"], "{}:{}".format(*bridge)
        self.secret = secret_in(settings.get("secret", "fleet.secret"))
        # Where browsers join at the fleet's bridges, when that was asked, and what is said where nobody knows.
        self.pages, self.asked, self.cut = [], -PAGES, ""

    def ask(self, path, body=None):
        try:
            with urllib.request.urlopen(signed(self.secret, f"{self.agent}/{path}", body), timeout=10) as said:
                return json.load(said)
        except urllib.error.HTTPError as why:
            raise Refused(why.read().decode(), why.code) from None
        except (OSError, ValueError):
            raise Refused("The fleet doesn't answer. Try again in a minute.") from None

    def demand(self, room, may_open=True):
        """Refuses a room of another bridge, or one without a bridge for which another one has to be taken, or that may
        not be opened."""
        told = self.ask(f"where?room={room}&at={self.udp}")
        self.is_here(room, told)
        if not may_open and not told["placed"]:
            raise Refused(CLOSED.format(room), 404)

    def is_here(self, room, told):
        if told["udp"] != self.udp:
            raise Refused(elsewhere(room, told), 421, True, told["page"])

    def place(self, room, source=""):
        """Gives a room a bridge, which it keeps for some seconds until it has a member. `source`: who opens it."""
        words = {"room": room, "at": self.udp} | ({"source": source} if source else {})
        self.is_here(room, self.ask("join", json.dumps(words).encode()))

    def moved(self, room):
        """Words for who was in a room that has gone to another bridge, and its page. None where it hasn't."""
        try:
            told = self.ask(f"where?room={room}&at={self.udp}")
        except Refused as why:
            # It is on its way, or has ended where no bridge has a place for it.
            if why.status == 409 or "12 Full" in str(why):
                return None
            raise
        return (elsewhere(room, told), told["page"]) if told["placed"] and told["udp"] != self.udp else None

    def see(self):
        """Sees now and then where the pages of the fleet are, and whether its agent knows. Words where it doesn't."""
        if time.monotonic() - self.asked > PAGES:
            self.asked = time.monotonic()
            try:
                self.pages, self.cut = self.ask("pages")["pages"], ""
            except Refused:
                self.cut = CUT
        return self.cut


def elsewhere(room, told):
    where = f"{told['page']}/?room={room}" if told["page"] else "its own page"
    return f"Room {room} is on bridge {told['bridge']} of the fleet now. Join it at {where}"
