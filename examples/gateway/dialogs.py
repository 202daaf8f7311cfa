"""What Kamailio keeps of each call of a phone, by the gateway's tag: what it takes to send a request within the call
(RFC 3261 section 12.2.1). The agent says which calls are over, and a BYE goes to each of these phones.

Session timers (RFC 4028) are kept here too: a phone that says that it refreshes its call, and doesn't, has gone.

The agent is told all of that, and keeps it. A Kamailio that is started anew takes it back from there.
"""

import json
import time

import KSR

TABLE = "calls"
# How many of them the agent is asked for at once, and the longest one that it is told, as JSON. And after how many
# seconds a call is dropped that no ACK has confirmed. No BYE goes there: who doesn't get the answer doesn't know its
# tag, and has perhaps never called.
MOST, LONGEST, UNCONFIRMED = 40, 2000, 10
# By how much the numbers of requests (CSeq) go on that a Kamailio before this one may have sent.
SKIPPED = 10
# What a refresh that Kamailio sends is called, and the part of an interval after which it is due.
REFRESH, HALF = "UPDATE", 2


def get(tag):
    text = KSR.htable.sht_get(TABLE, tag or "-")
    return json.loads(text) if text else None


def put(tag, one):
    KSR.htable.sht_sets(TABLE, tag, json.dumps(one))


def drop(tag):
    KSR.htable.sht_rm(TABLE, tag)


def of_request():
    """The call that a request is within, and its tag: Call-ID and both tags have to be right. None where it isn't."""
    tag = KSR.pv.get("$tt")
    one = get(tag)
    is_so = one and (one["call"], one["tag"]) == (KSR.pv.get("$ci"), KSR.pv.get("$ft"))
    return (tag, one) if is_so else (tag, None)


def kept(tag, session):
    """Keeps a call by an INVITE or UPDATE that is answered 200: where its phone is, and until when it has to refresh
    the call."""
    before, now = get(tag) or {"since": time.time(), "is_confirmed": False, "count": 0}, time.time()
    value = lambda name: "".join((KSR.pv.get(name) or "").split())
    count = KSR.pv.get("$hdrc(Record-Route)") or 0
    transport = (KSR.pv.get("$proto") or "udp").lower()
    one = before | {
        "call": KSR.pv.get("$ci"),
        "tag": KSR.pv.get("$ft"),
        "from": value("$fu"),
        "to": value("$tu"),
        "contact": value("$(ct{nameaddr.uri})") or value("$fu"),
        # Behind a NAT a phone is where its requests come from, and so is a proxy.
        "at": f"sip:{KSR.pv.get('$si')}:{KSR.pv.get('$sp')};transport={transport}",
        "by": f"{transport}:{KSR.pv.get('$Ri')}:{KSR.pv.get('$Rp')}",
    }
    if "routes" not in one:
        one["routes"] = [value(f"$(hdr(Record-Route)[{at}])") for at in range(count)]
    interval, refresher = session
    one |= {"session": interval, "until": now + interval if interval else None}
    one["refresh"] = now + interval / HALF if refresher == "uas" else None
    put(tag, one)


def confirmed():
    """An ACK has come."""
    tag, one = of_request()
    if one and not one["is_confirmed"]:
        put(tag, one | {"is_confirmed": True})


def all_of_them():
    found = {}
    KSR.htable.sht_iterator_start("each", TABLE)
    while KSR.htable.sht_iterator_next("each") > 0:
        found[KSR.pv.get("$shtitkey(each)")] = json.loads(KSR.pv.get("$shtitval(each)"))
    KSR.htable.sht_iterator_end("each")
    return found


class Dialogs:
    """Looks at all calls each second, in a process of its own."""

    def __init__(self, ask, away):
        # `away`: after how many seconds without the agent all calls are over.
        self.ask, self.away, self.answered, self.sending = ask, away, time.time(), None
        # Whether the calls of a Kamailio before this one are here; what the agent was told of each, and what it wants.
        self.has_all, self.told, self.wanted = False, {}, set()

    def look(self):
        if not self.has_all:
            self.take_back()
        now, found = time.time(), all_of_them()
        if not found:
            self.answered = now
            return
        over = self.over(found)
        for tag, one in found.items():
            is_late = one["until"] and now > one["until"]
            if is_late and tag not in over:
                self.ask("hang-up", **{"call": one["call"], "from": one["tag"], "to": tag})
            if is_late or tag in over:
                if get(tag) is None:
                    # Its phone has hung up meanwhile.
                    continue
                if one["is_confirmed"]:
                    drop(tag)
                    self.send("BYE", tag, one)
                elif now - one["since"] > UNCONFIRMED:
                    drop(tag)
            elif one["is_confirmed"] and one["refresh"] and now > one["refresh"]:
                put(tag, one | {"count": one["count"] + 1, "refresh": now + one["session"] / HALF})
                self.send(REFRESH, tag, one)

    def take_back(self):
        """Takes the calls of a Kamailio before this one, as the agent has kept them."""
        said, _, _ = self.ask("dialogs")
        for tag, one in (said or {"dialogs": {}})["dialogs"].items():
            if get(tag) is None:
                put(tag, one | {"count": one["count"] + SKIPPED})
        self.has_all = said is not None

    def over(self, found):
        """Those of these calls that are over. The agent is told what is new of them."""
        tags, over, wanted = [*found], set(), set()
        texts = {tag: json.dumps(one) for tag, one in found.items()}
        new = {tag for tag, text in texts.items() if self.told.get(tag) != text} | self.wanted
        for at in range(0, len(tags), MOST):
            some = tags[at : at + MOST]
            news = {tag: found[tag] for tag in some if tag in new and len(texts[tag]) <= LONGEST}
            said, _, _ = self.ask("over", tags=some, dialogs=news)
            if said is None:
                self.told = {}
                return set(tags) if time.time() - self.answered > self.away else over
            over |= set(said["over"])
            wanted |= set(said["wants"])
        self.answered, self.told, self.wanted = time.time(), texts, wanted
        return over

    def send(self, method, tag, one):
        """Sends a request within a call, to where the phone's last one came from."""
        more = [f"Route: {each}\r\n" for each in one["routes"]]
        more += [f"Session-Expires: {one['session']};refresher=uac\r\nSupported: timer\r\n"] * (method == REFRESH)
        words = {"method": method, "ruri": one["contact"], "furi": one["to"], "turi": one["from"], "ouri": one["at"]}
        words |= {"callid": one["call"], "sock": one["by"], "hdrs": "".join(more)}
        # uac draws a From tag of its own, and has no To tag: `local_request` writes the right ones.
        self.sending = f"<{one['to']}>;tag={tag}", f"<{one['from']}>;tag={one['tag']}", one["count"] + 1, method
        for key, value in words.items():
            KSR.pv.sets(f"$uac_req({key})", value)
        KSR.pv.seti("$uac_req(evroute)", int(method == REFRESH))
        KSR.uac.uac_req_send()
        self.sending = None

    def local_request(self):
        """Writes the tags and the number of the request that is sent now."""
        if self.sending:
            sender, receiver, count, method = self.sending
            for name, value in ("From", sender), ("To", receiver), ("CSeq", f"{count} {method}"):
                KSR.hdr.remove(name)
                KSR.hdr.append(f"{name}: {value}\r\n")

    def answered_so(self):
        """A refresh is answered: the call goes on, or it isn't there any more."""
        status, tag = KSR.pv.get("$uac_req(evcode)"), KSR.pv.get("$ft")
        one = get(tag)
        if one and one["refresh"]:
            now = time.time()
            put(tag, one | {"until": now + one["session"] if status == 200 else now})
