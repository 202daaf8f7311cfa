#!/usr/bin/env python3
"""Drains a bridge, and waits until it has ended. A scheduler calls it before it stops a bridge or its agent.

    drained.py SECRET AGENT BRIDGE TCP

such as `drained.py fleet.secret 127.0.0.1:8095 a 127.0.0.1:7000`. SECRET is the file of the fleet's secret.
"""

import json
import pathlib
import socket
import sys
import time
import urllib.error
import urllib.request

sys.path.append(str(pathlib.Path(__file__).resolve().parent.parent / "gateway"))

from fleet_secret import secret_in, signed  # noqa: E402
from printable import printable  # noqa: E402

# After so many seconds the agent is asked again: one that was started anew has forgotten it.
AGAIN = 5


def is_there(tcp):
    host, _, port = tcp.rpartition(":")
    try:
        socket.create_connection((host, int(port)), 2).close()
    except OSError:
        return False
    return True


def ask(secret, agent, bridge):
    body = json.dumps({"bridge": bridge, "move": True}).encode()
    try:
        urllib.request.urlopen(signed(secret, f"http://{agent}/drain", body), timeout=10).close()
    except urllib.error.HTTPError as why:
        print(f"drained: {printable(why.read(1000).decode('ascii', 'backslashreplace'))}", file=sys.stderr)
    except OSError as why:
        print(f"drained: {agent}: {printable(str(why))}", file=sys.stderr)


def main():
    if len(sys.argv) != 5:
        sys.exit(__doc__)
    path, agent, bridge, tcp = sys.argv[1:]
    secret, asked = secret_in(path), None
    while is_there(tcp):
        if asked is None or time.monotonic() - asked > AGAIN:
            asked = time.monotonic()
            ask(secret, agent, bridge)
        time.sleep(0.5)


if __name__ == "__main__":
    main()
