#!/usr/bin/env python3
"""Many bridges, and rooms on them: an agent on each machine, and etcd between the agents.

    fleet.py FILE

FILE is fleet.toml beside this program if it isn't given.
"""

import os
import pathlib
import signal
import sys
import threading
import tomllib

FOLDER = pathlib.Path(__file__).resolve().parent
# The desk in words, and requests over HTTP, are those of the gateway's agent.
sys.path.append(str(FOLDER.parent / "gateway"))

from agent import Agent, log  # noqa: E402
from asked import Asked, ForFleet  # noqa: E402
from bridge import Bridge  # noqa: E402
from fleet_secret import secret_in  # noqa: E402
from followers import Followers  # noqa: E402
from known import BRIDGE  # noqa: E402
from seat import ANSWERS  # noqa: E402
from server import Signatures, served  # noqa: E402

# What a bridge's settings may leave out: its gateway's SIP address and page, how many rooms and members it takes, and how
# many seconds it has for an answer.
LEFT_OUT = {"sip": "", "page": "", "rooms": 64, "members": 1024, "answers": ANSWERS}
# What the agent's may leave out: how many rooms one source may have opened, and further names of the agent.
LEFT_OUT_OF_AGENT = {"rooms_of_source": 8, "hosts": []}


def bridges_of(settings):
    strange = next((name for name in settings if not BRIDGE.fullmatch(name)), None)
    if strange is not None:
        raise ValueError(f"bridge {strange!r}: a name has letters, digits, `_`, `.` and `-` alone")
    return [Bridge(name, LEFT_OUT | one) for name, one in settings.items()]


def user_of(etcd, folder):
    """The name and password by which etcd knows the agent, None where etcd has no users."""
    if not etcd.get("user"):
        return None
    path = os.environ.get("ETCD_PASSWORD", folder / etcd["password"])
    return etcd["user"], pathlib.Path(path).read_text().strip()


def hosts_of(own):
    """How a request may name the agent: as the settings do. A browser names it as the page that it shows does."""
    address, _, port = own["listen"].rpartition(":")
    names = {own["url"].partition("://")[2], own["listen"], *own["hosts"]}
    return names | {f"{one}:{port}" for one in ("127.0.0.1", "localhost") if address in ("127.0.0.1", "0.0.0.0")}


def main():
    if len(sys.argv) > 2:
        sys.exit(__doc__)
    path = pathlib.Path(sys.argv[1] if sys.argv[1:] else FOLDER / "fleet.toml")
    try:
        settings = tomllib.loads(path.read_text())
        own, etcd = LEFT_OUT_OF_AGENT | settings["agent"], settings["etcd"]
        secret = secret_in(path.parent / own["secret"])
        agent = Agent(settings, bridges_of(settings["bridges"]), user_of(etcd, path.parent))
        asked, signatures = Asked(agent, secret, own["rooms_of_source"]), Signatures(secret)
        followers = Followers(agent.copy, asked.place_of)
        host, _, port = own["listen"].rpartition(":")
        parts = {"asked": asked, "signatures": signatures, "followers": followers, "hosts": hosts_of(own)}
        server = served(ForFleet, (host, int(port)), **parts)
    except (OSError, KeyError, ValueError) as why:
        sys.exit(f"fleet: {path}: {why!r}")
    stopped = threading.Event()
    for number in signal.SIGINT, signal.SIGTERM:
        signal.signal(number, lambda *_: stopped.set())
    agent.run()
    agent.starts(followers.run)
    log(f"the agent of {', '.join(agent.bridges)} is at {agent.url}/")
    stopped.wait()
    agent.close()
    server.server_close()


if __name__ == "__main__":
    main()
