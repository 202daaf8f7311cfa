#!/usr/bin/env python3
"""Prints an invitation: a link by which somebody joins a room at the gateway's page. It needs the key of [invitations].

    invite.py ROOM [--name NAME] [--host] [--hours HOURS] [--settings GATEWAY.TOML]
"""

import argparse
import pathlib
import sys
import time
import tomllib

from invitations import GUEST, HOST, link
from places import SETTINGS


def main():
    parser = argparse.ArgumentParser(description=__doc__.partition("\n")[0])
    parser.add_argument("room", help="its number, or a name of [names]")
    parser.add_argument("--name", default="", help="what the others see. If not given, the guest says it")
    parser.add_argument("--host", action="store_true", help="who joins by it may open the room")
    parser.add_argument("--hours", type=float, default=24, help="for how long it is good (%(default)s)")
    parser.add_argument("--settings", type=pathlib.Path, default=SETTINGS, help="(%(default)s)")
    args = parser.parse_args()
    settings = tomllib.loads(args.settings.read_text())
    key = settings.get("invitations", {}).get("key", "")
    if not key:
        sys.exit(f"invite.py: {args.settings} has no `key` of [invitations]")
    role, until = HOST if args.host else GUEST, int(time.time() + 3600 * args.hours)
    print(link(settings["page"]["sites"][0], key, room=args.room, name=args.name, role=role, until=until))


if __name__ == "__main__":
    main()
