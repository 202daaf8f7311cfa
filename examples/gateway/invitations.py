"""Invitations: signed links by which pages join.

A link says for which room it is, what its guest is called there, whether he may open the room, and until when the link
is good. It is signed (HMAC-SHA256, RFC 2104) with the key of the settings. invite.py makes one.
"""

import hmac
import json
import time
import urllib.parse

from body import is_text
from refused import Refused

# Who may open the room, and who joins one that is there.
HOST, GUEST = "host", "guest"
# A key has at least so many characters.
LEAST = 16
# What a page shows of its link.
INVITATION = "the room, name, role, until and sign of a link", lambda one: (
    isinstance(one, dict)
    and all(is_text(one.get(key)) for key in ("room", "name", "role", "sign"))
    and type(one.get("until")) is int
)
NONE = "One joins here by an invitation: open the link that you were sent."
CHANGED = "Your link isn't as it was made, or its key isn't used any more. Ask for a new one."
CLOSED = "Room {} isn't open yet. Join again once its host is there."


def signature(key, one):
    """What only who has the key can say of an invitation."""
    words = json.dumps([one["room"], one["name"], one["role"], one["until"]])
    return hmac.new(key.encode(), words.encode(), "sha256").hexdigest()


def link(page, key, **one):
    """The link of an invitation, by the address of a page."""
    return f"{page}/?{urllib.parse.urlencode(one | {'sign': signature(key, one)})}"


def demand(key, one, room):
    """Refuses a page whose invitation isn't good for a room."""
    if one is None:
        raise Refused(NONE, 403)
    if one["role"] not in (HOST, GUEST) or not hmac.compare_digest(signature(key, one).encode(), one["sign"].encode()):
        raise Refused(CHANGED, 403)
    if time.time() > one["until"]:
        until = time.strftime("%Y-%m-%d %H:%M UTC", time.gmtime(one["until"]))
        raise Refused(f"Your link was good until {until}. Ask for a new one.", 403)
    if str(room).lower() != one["room"].lower():
        raise Refused(f"Your link is for room {one['room']}.", 403)
