"""TURN servers for pages (RFC 8656): by one of these a page joins whose network lets nothing out but TLS.

Who may use a server is told by a time-limited name and its password, which is made of a secret that the agent and the
server share (coturn: `use-auth-secret`).
"""

import base64
import hmac
import time

# For how many seconds a name is good. A page that restarts ICE has a new one.
SECONDS = 12 * 3600


def servers(settings, user):
    """What a page is to give its connection (`iceServers`). Nothing where the settings have no server."""
    if not settings["urls"]:
        return []
    name = f"{int(time.time()) + SECONDS}:{user}"
    password = base64.b64encode(hmac.new(settings["secret"].encode(), name.encode(), "sha1").digest()).decode()
    return [{"urls": settings["urls"], "username": name, "credential": password}]
