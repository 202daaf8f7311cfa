#!/usr/bin/env python3
"""Browsers and phones in calls of a confbridge, by rtpengine and Kamailio.

    gateway.py agent [FILE]       serves the page, and signals between browsers, phones, rtpengine and the bridge
    gateway.py rtpengine [FILE]   becomes rtpengine, with the settings of FILE
    gateway.py kamailio [FILE]    becomes Kamailio, with the settings of FILE

FILE is gateway.toml beside this program if it isn't given, or /etc/confbridge-gateway.toml where a package has this. The
agent sees no media. The way of one join:

    browser         agent                                  rtpengine         desk of the bridge
      /offer   ->     offer of one plain stream      ->      ICE, DTLS, a port
               <-     an m-section for each stream, in one BUNDLE
      /answer  ->     answer, with ICE and DTLS      ->      a plain port
               <-     group add-member / add-source / add-slot / subscribe ..  ->   ok NO
"""

import os
import pathlib
import signal
import sys
import threading
import tomllib

from call import log
from calls import Calls
from invitations import LEAST
from keys import Keys
from names import Names
from places import FOLDER, SETTINGS
from watch import Watch
from web import ForBrowsers, ForKamailio, served

ADDRESSES = [("bridge", "udp"), ("bridge", "tcp"), ("rtpengine", "control"), ("page", "listen"), ("phones", "agent")]
ADDRESSES += [("rtpengine", "keys")]
# The desk gives a member 16 slots, of which one is its stage.
MOST_PICTURES = 15
# The settings that a file may leave out.
DEFAULTS = {
    "bridge": {"page": ""},
    "rtpengine": {"threads": 0},
    "page": {"proxies": []},
    "phones": {"accounts": {}, "targets": [], "proxies": [], "tcp": "", "tls": "", "certificate": "", "key": ""},
    "calls": {"away": 30, "hold": 600, "removed": 5, "unanswered": 8, "rooms": 8},
    "invitations": {"key": ""},
    "turn": {"urls": [], "secret": ""},
    "names": {},
    "pins": {},
}


def read(path):
    """The settings of a file, with these addresses as pairs."""
    settings = tomllib.loads(path.read_text())
    for table, values in DEFAULTS.items():
        settings[table] = values | settings.get(table, {})
    if "keys" not in settings["rtpengine"]:
        # The port after that by which rtpengine is controlled.
        ip, _, port = settings["rtpengine"]["control"].rpartition(":")
        settings["rtpengine"]["keys"] = f"{ip}:{int(port) + 1}"
    for table, key in ADDRESSES:
        ip, _, port = settings[table][key].rpartition(":")
        settings[table][key] = ip, int(port)
    if settings["calls"]["pictures"] not in range(MOST_PICTURES + 1):
        raise ValueError(f"`pictures` of [calls] has to be from 0 to {MOST_PICTURES}")
    if 0 < len(settings["invitations"]["key"]) < LEAST:
        raise ValueError(f"`key` of [invitations] has to have {LEAST} characters or more")
    return settings


def agent(settings, _):
    """Runs until it is asked to end. By SIGHUP it leaves its calls to the next one."""
    ends = signal.SIGINT, signal.SIGTERM, signal.SIGHUP
    signal.pthread_sigmask(signal.SIG_BLOCK, ends)
    calls = Calls(settings)
    watch, page = Watch(calls), settings["page"]
    Keys(settings["rtpengine"]["keys"], calls).start()
    calls.pictures.start()
    if settings["bridge"]["page"]:
        Names(calls, settings["bridge"]["page"]).start()
    servers = [
        served(ForBrowsers, page["listen"], calls=calls, watch=watch, sites=page["sites"], proxies=page["proxies"]),
        served(ForKamailio, settings["phones"]["agent"], calls=calls),
    ]
    log(f"the page is {page['sites'][0]}/?room=1")
    threading.Thread(target=watch.run, daemon=True).start()
    by = signal.sigwait(ends)
    if by != signal.SIGHUP:
        calls.end_all("The gateway has been stopped.")
    for server in servers:
        server.server_close()


def rtpengine(settings, _):
    """Its command."""
    own = settings["rtpengine"]
    # Debian's own file, which names ports of its own, isn't read. Messages go to standard error, warnings and above.
    command = ["rtpengine", "--config-file=none", "--foreground", "--log-stderr", "--log-level=4"]
    command += [f"--interface=bridge/{own['bridge']}", f"--interface=outside/{own['outside']}"]
    command += ["--listen-ng={}:{}".format(*own["control"]), *map("--port-{}={}".format, ("min", "max"), own["ports"])]
    # Each key that a phone presses is told to the agent.
    command.append("--dtmf-log-dest={}:{}".format(*own["keys"]))
    if own["threads"]:
        command.append(f"--num-threads={own['threads']}")
    # In userspace. With the package rtpengine-kernel-dkms, --table=0 forwards in the kernel.
    command.append("--table=-1")
    # A call that the agent forgot goes after a minute without a packet. Media are marked as networks know them from
    # phones: expedited forwarding (RFC 3246).
    return [*command, "--timeout=60", "--tos=184"]


def kamailio(settings, path):
    """Its command. Where no phone has a password, only those of this machine may call."""
    # phones.py reads there where the agent is, and the accounts.
    os.environ |= {"GATEWAY_SETTINGS": str(path), "PYTHONDONTWRITEBYTECODE": "1"}
    phones = settings["phones"]
    ways = {"udp": phones["listen"], "tcp": phones["tcp"], "tls": phones["tls"]}
    ways = {way: listen for way, listen in ways.items() if listen}
    if not phones["accounts"]:
        for way, listen in ways.items():
            if not listen.startswith("127."):
                ways[way] = f"127.0.0.1:{listen.partition('/')[0].rpartition(':')[2]}"
        words = "gateway: there are no accounts ([phones.accounts]): Kamailio listens on"
        print(words, " and ".join(ways.values()), "alone", file=sys.stderr)
    command = ["kamailio", "-DD", "-E", "-f", str(FOLDER / "kamailio.cfg"), "-A", f'SCRIPT="{FOLDER / "phones.py"}"']
    if "tls" in ways:
        command += ["-A", f'CERTIFICATE="{phones["certificate"]}"', "-A", f'KEY="{phones["key"]}"']
    return [*command, *(word for way, listen in ways.items() for word in ("-l", f"{way}:{listen}"))]


def main():
    part, *given = sys.argv[1:] or [""]
    parts = {"agent": agent, "rtpengine": rtpengine, "kamailio": kamailio}
    if part not in parts or len(given) > 1:
        sys.exit(__doc__)
    path = pathlib.Path(given[0] if given else SETTINGS).resolve()
    try:
        command = parts[part](read(path), path)
        if command:
            print(*command, file=sys.stderr, flush=True)
            os.execvp(command[0], command)
    except (OSError, KeyError, ValueError) as why:
        sys.exit(f"gateway: {part}: {path}: {why!r}")


if __name__ == "__main__":
    main()
