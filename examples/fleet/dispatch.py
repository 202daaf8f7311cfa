#!/usr/bin/env python3
"""Where a phone's call goes: to the gateway of its room's bridge, which an agent of the fleet names. And back: a gateway
ends and refreshes calls by requests to their phones.

Kamailio runs this. As a program it prints the list of all gateways for Kamailio's dispatcher. FLEET_AGENT is the agent,
and FLEET_SECRET the file of the fleet's secret.
"""

import hmac
import json
import os
import pathlib
import re
import sys
import urllib.error
import urllib.parse
import zlib

sys.path.append(str(pathlib.Path(__file__).resolve().parent.parent / "gateway"))

from fleet_secret import secret_in, signed  # noqa: E402
from printable import printable  # noqa: E402

AGENT = os.environ.get("FLEET_AGENT", "http://127.0.0.1:8095")
SIP = re.compile(r"[0-9]{1,3}(?:[.][0-9]{1,3}){3}:[0-9]{1,5}")
# What Kamailio's modules look at: all of sanity_check's tests of a request, and how many hops one may have taken.
TESTS, URIS, HOPS = 17895, 7, 10
# An address of the dispatcher's list is looked for by its host and its port: it is asked by UDP.
ANY_PROTOCOL = 2
# What a gateway asks phones, and the part of a Record-Route that says whence a phone's INVITE came. Only who has the
# fleet's secret can write one: no stranger has Kamailio send anything to an address of his own.
TO_PHONES = "BYE", "UPDATE"
CAME_FROM = re.compile(r"(?:^|;)at=([0-9.]{7,15})-([0-9]{1,5})-([0-9a-f]{32})(?:;|$)")


def ask(path, **words):
    """What the agent answers, and a status with words where it refuses."""
    try:
        query = f"{path}?{urllib.parse.urlencode(words)}" if words else path
        request = signed(secret_in("fleet.secret"), f"{AGENT}/{query}")
        with urllib.request.urlopen(request, timeout=5) as said:
            return json.load(said), 200, "OK"
    except urllib.error.HTTPError as why:
        return None, why.code, printable(why.read(1000).decode("ascii", "backslashreplace"))
    except (OSError, ValueError):
        return None, 503, "The fleet doesn't answer. Try again in a minute."


def mark_of(call, ip, port):
    """What only the fleet can say of a phone's address, and of one call alone."""
    return hmac.new(secret_in("fleet.secret"), f"phone {ip}:{port} {call}".encode(), "sha256").hexdigest()[:32]


def set_of(bridge):
    """The dispatcher's number for the gateways of a bridge."""
    return zlib.crc32(bridge.encode()) & 0x7FFFFFFF


def listed():
    """The lines of the dispatcher's list."""
    said, _, words = ask("")
    if said is None:
        sys.exit(f"dispatch: {words}")
    bridges = sorted(said["bridges"].items())
    return [f"{set_of(name)} sip:{one['sip']} # {name}" for name, one in bridges if SIP.fullmatch(one["sip"])]


def mod_init():
    return Script()


class Script:
    """Requests go to the dispatcher's gateways and nowhere else, whatever they ask for."""

    def child_init(self, rank):
        return 0

    def ksr_onsend_route(self, msg):
        return 1

    def ksr_reply_route(self, msg):
        return 1

    def ksr_request_route(self, msg):
        # Kamailio has this module, and the program hasn't.
        import KSR

        method, is_within = KSR.pv.get("$rm"), KSR.siputils.has_totag() > 0
        is_routed = KSR.hdr.is_present("Route") > 0
        if KSR.pike.pike_check_req() < 0 or KSR.sanity.sanity_check(TESTS, URIS) < 0:
            return 1
        if KSR.maxfwd.process_maxfwd(HOPS) < 0:
            KSR.sl.send_reply(483, "Too Many Hops")
        elif is_within and is_routed:
            self.within(KSR, method)
        elif method == "CANCEL" and not is_routed and KSR.tm.t_check_trans() > 0:
            # It goes where its INVITE went.
            KSR.tm.t_relay()
        elif method == "ACK":
            # That of a refusal ends here.
            KSR.tm.t_check_trans()
        elif is_routed:
            KSR.sl.send_reply(403, "Another Route Than This Fleet's")
        elif method == "INVITE" and not is_within:
            self.invite(KSR)
        elif method == "OPTIONS":
            KSR.sl.send_reply(200, "Kamailio of a fleet")
        else:
            KSR.sl.send_reply(404 if is_within else 405, "Kamailio of a fleet")
        return 1

    def within(self, KSR, method):
        """A request within a call goes to the gateway that it names, if that is one. A gateway's goes to its phone."""
        # Kamailio takes the first route away where it is its own.
        route = (KSR.pv.get("$hdr(Route)") or "").partition(">")[0]
        is_own = KSR.rr.loose_route() > 0
        gateway, sender = (f"{KSR.pv.get(ip)}:{KSR.pv.get(port)}" for ip, port in (("$rd", "$rp"), ("$si", "$sp")))
        is_one = lambda at: SIP.fullmatch(at) and KSR.dispatcher.ds_is_from_list_uri(-1, ANY_PROTOCOL, f"sip:{at}") > 0
        phone = self.phone(KSR, route) if is_own and method in TO_PHONES and is_one(sender) else None
        if phone or is_own and is_one(gateway) and not KSR.pv.get("$du"):
            KSR.pv.sets("$du", f"sip:{phone or gateway}")
            KSR.tm.t_relay()
        elif method != "ACK":
            KSR.sl.send_reply(404, "No Call Of This Fleet")

    def phone(self, KSR, route):
        """Where the INVITE came from of the call that a request is within, None where its route doesn't say so."""
        found = CAME_FROM.search(route)
        is_own = found and hmac.compare_digest(mark_of(KSR.pv.get("$ci"), found[1], found[2]), found[3])
        return f"{found[1]}:{found[2]}" if is_own else None

    def invite(self, KSR):
        said, status, words = ask("where", room=KSR.pv.get("$rU") or "")
        if said is None:
            KSR.sl.send_reply(status, words)
        elif KSR.dispatcher.ds_select_dst(set_of(said["bridge"]), 4) < 0:
            KSR.sl.send_reply(503, f"No gateway of bridge {said['bridge']} is known")
        else:
            ip, port = KSR.pv.get("$si"), KSR.pv.get("$sp")
            KSR.rr.record_route()
            KSR.rr.add_rr_param(f";at={ip}-{port}-{mark_of(KSR.pv.get('$ci'), ip, port)}")
            KSR.tm.t_relay()


if __name__ == "__main__":
    print(*listed(), sep="\n")
