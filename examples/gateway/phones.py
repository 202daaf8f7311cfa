"""What Kamailio does with a phone's requests: it asks for a password, hands offers to the agent, and answers with what
that says.

A phone calls sip:ROOM@HOST. Kamailio reads and writes all SIP, and repeats what is lost. A request within a call has
the Call-ID and both tags of its dialog (RFC 3261 section 12). The gateway's own tag is drawn, and only the phone is
told it. dialogs.py sends requests to phones.
"""

import json
import os
import pathlib
import re
import secrets
import tomllib
import urllib.error
import urllib.request

import dialogs
import KSR

SETTINGS = tomllib.loads(pathlib.Path(os.environ["GATEWAY_SETTINGS"]).read_text())
PHONES, AWAY = SETTINGS["phones"], SETTINGS["calls"].get("away", 30)
AGENT, ACCOUNTS, PROXIES = PHONES["agent"], PHONES.get("accounts", {}), PHONES.get("proxies", [])
# The accounts of exchanges, whose callers have names of their own; and the shortest session that one may ask for.
TRUNKS, SHORTEST = PHONES.get("trunks", []), PHONES.get("shortest_session", 90)
# Where SIP has a status of its own for one of HTTP: Not Acceptable Here, Loop Detected (of a merged request), Call Does
# Not Exist, Request Entity Too Large, Temporarily Unavailable.
STATUSES = {406: 488, 409: 482, 410: 481, 413: 513, 429: 480}
# The realm of passwords. What Kamailio says of an answer to a challenge that comes late, or again.
REALM, OLD = "confbridge", (-4, -6)
# Challenges name a quality of protection, and may say that the old one is over.
QOP, STALE = 1, 16
METHODS = "INVITE, ACK, BYE, CANCEL, OPTIONS, UPDATE"
# How long a session is, and who refreshes it (RFC 4028 section 4).
SESSION = re.compile(r"\s*([0-9]{1,9})\s*(?:;(.*))?")


def ask(path, **words):
    """What the agent gives, and a status with words where it refuses."""
    try:
        request = urllib.request.Request(f"http://{AGENT}/{path}", json.dumps(words).encode(), method="POST")
        with urllib.request.urlopen(request, timeout=10) as said:
            return json.load(said), 200, "OK"
    except urllib.error.HTTPError as why:
        return None, STATUSES.get(why.code, why.code), why.read().decode()
    except (OSError, ValueError):
        return None, 503, "The gateway doesn't answer. Try again in a minute."


class Script:
    def __init__(self):
        self.dialogs = dialogs.Dialogs(ask, AWAY)

    def child_init(self, rank):
        return 0

    def ksr_reply_route(self, msg):
        """An answer to a request of dialogs.py. Without this the next request of a phone would be lost."""
        return 1

    def ksr_onsend_route(self, msg):
        return 1

    def see_calls(self, msg, name=""):
        """Each second, in a process of its own."""
        self.dialogs.look()
        return 1

    def ksr_tm_event(self, msg, name):
        if name == "tm:local-request":
            self.dialogs.local_request()
        return 1

    def ksr_uac_event(self, msg, name):
        self.dialogs.answered_so()
        return 1

    def ksr_request_route(self, msg):
        # A flood is dropped, and what is malformed or has passed too many proxies is answered so.
        if KSR.pv.get("$si") not in PROXIES and KSR.pike.pike_check_req() < 0:
            return 1
        if KSR.sanity.sanity_check(1511, 7) < 0:
            return 1
        if KSR.maxfwd.process_maxfwd(10) < 0:
            KSR.sl.send_reply(483, "Too Many Hops")
            return 1
        method = KSR.pv.get("$rm")
        if method in ("INVITE", "UPDATE"):
            # One that comes again gets its answer again, whatever its password was good for.
            if KSR.tm.t_check_trans() != 0 and self.may_require():
                self.invite() if method == "INVITE" else self.update()
        elif method == "BYE":
            tag, one = dialogs.of_request()
            if one:
                dialogs.drop(tag)
            _, status, words = ask("hang-up", **dialog())
            KSR.sl.send_reply(status, words)
        elif method == "CANCEL":
            # An INVITE is answered at once, and what is answered can't be cancelled (RFC 3261 section 9.2).
            is_known = KSR.tm.t_check_trans() > 0
            KSR.sl.send_reply(*(200, "OK") if is_known else (481, "Call Does Not Exist"))
        elif method == "OPTIONS":
            KSR.sl.send_reply(200, "OK")
        elif method == "ACK":
            # Its answer came through, and isn't sent again.
            KSR.tm.t_check_trans()
            dialogs.confirmed()
        else:
            KSR.hdr.append_to_reply(f"Allow: {METHODS}\r\n")
            KSR.sl.send_reply(405, "Method Not Allowed")
        return 1

    def may_require(self):
        """Whether the gateway has what a request requires of it, and its session is no shorter than one may be."""
        missing = tokens("Require") - {"timer"}
        if missing:
            KSR.hdr.append_to_reply(f"Unsupported: {', '.join(sorted(missing))}\r\n")
            KSR.sl.send_reply(420, "Bad Extension")
        elif 0 < session_of()[0] < SHORTEST:
            KSR.hdr.append_to_reply(f"Min-SE: {SHORTEST}\r\n")
            KSR.sl.send_reply(422, "Session Interval Too Small")
        else:
            return True
        return False

    def invite(self):
        """Answers an offer: of a new call, or within one."""
        words = {"source": KSR.pv.get("$si")}
        if ACCOUNTS:
            words["account"] = self.account()
            if words["account"] is None:
                return
        is_new = KSR.siputils.has_totag() < 0
        if is_new:
            name = KSR.pv.get("$fU") if words.get("account") in (None, *TRUNKS) else words["account"]
            words |= {"room": KSR.pv.get("$rU") or "", "name": name or words.get("account") or "phone"}
            take_tag(secrets.token_hex(16))
        if KSR.tm.t_newtran() < 0:
            return
        said, status, text = ask("phone" if is_new else "again", sdp=KSR.pv.get("$rb") or "", **words, **dialog())
        self.reply(status, text, said)

    def update(self):
        """Answers an UPDATE (RFC 3311): a session goes on, or an offer comes by it."""
        if KSR.pv.get("$rb") and KSR.siputils.has_totag() > 0:
            self.invite()
        elif KSR.tm.t_newtran() >= 0:
            # A Kamailio that was started anew may not have the calls of the one before it yet, and the agent has.
            tag, one = dialogs.of_request()
            said = one or ask("over", tags=[tag or ""])[0]
            is_there = one or said and not said["over"]
            self.reply(*(200, "OK") if is_there else (481, "Call Does Not Exist"))

    def reply(self, status, text, said=None):
        if status == 200:
            interval, refresher = session_of()
            # Where the phone finds Kamailio: behind a NAT that is the advertised address.
            at, protocol = f"{KSR.pv.get('$RAi')}:{KSR.pv.get('$RAp')}", (KSR.pv.get("$proto") or "udp").lower()
            way = "" if protocol == "udp" else f";transport={protocol}"
            lines = [f"Contact: <sip:{KSR.pv.get('$rU') or 'room'}@{at}{way}>", f"Allow: {METHODS}"]
            lines += ["Supported: timer"]
            if interval:
                lines.append(f"Session-Expires: {interval};refresher={refresher}")
                lines += ["Require: timer"] * (refresher == "uac")
            for line in lines:
                KSR.hdr.append_to_reply(line + "\r\n")
            dialogs.kept(KSR.pv.get("$tt"), (interval, refresher))
        if said:
            KSR.textops.set_reply_body(said["sdp"], "application/sdp")
        KSR.tm.t_reply(status, text)

    def account(self):
        """The account whose password a request has. Where there is none, it is asked for it."""
        if KSR.pv.get("$hdrc(Authorization)") or KSR.pv.get("$hdrc(Proxy-Authorization)") > 1:
            # One header would name an account, and another one have a password.
            KSR.sl.send_reply(400, "A request has one password")
            return None
        # Nobody has the password of an account that there isn't.
        name = KSR.pv.get("$au")
        said = KSR.auth.pv_auth_check(REALM, ACCOUNTS.get(name, secrets.token_hex(16)), 0, 0)
        if said > 0:
            return name
        KSR.auth.auth_challenge(REALM, QOP | (STALE if said in OLD else 0))
        return None


def tokens(*names):
    """What headers with these names list."""
    found = set()
    for name in names:
        for at in range(KSR.pv.get(f"$hdrc({name})") or 0):
            found |= {one.strip() for one in (KSR.pv.get(f"$(hdr({name})[{at}])") or "").split(",")}
    return found - {""}


def session_of():
    """The seconds of the session that a request asks for, and who is to refresh it (RFC 4028 section 9): the phone,
    unless it wants to be refreshed by UPDATE. Without a session, 0 seconds."""
    text = KSR.pv.get("$hdr(Session-Expires)") or KSR.pv.get("$hdr(x)") or ""
    found, supported = SESSION.fullmatch(text), tokens("Supported", "k", "Require")
    if not found:
        return 0, None
    asked = re.search("refresher *= *(uac|uas)", found[2] or "", re.IGNORECASE)
    refresher = asked[1].lower() if asked else "uac" if "timer" in supported else "uas"
    may = "timer" in supported if refresher == "uac" else "UPDATE" in tokens("Allow")
    return (int(found[1]), refresher) if may else (0, None)


def dialog():
    return {"call": KSR.pv.get("$ci") or "", "from": KSR.pv.get("$ft") or "", "to": KSR.pv.get("$tt") or ""}


def take_tag(tag):
    """Gives a request the gateway's tag, which its answer then has too. Kamailio's own can be guessed."""
    to = KSR.pv.get("$hdr(To)")
    KSR.hdr.remove("To")
    KSR.hdr.insert(f"To: {to};tag={tag}\r\n")
    KSR.textopsx.msg_apply_changes()


# What Kamailio calls for the script.
mod_init = Script
