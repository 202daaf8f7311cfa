"""What strangers try at a gateway, by raw SIP and HTTP: nothing of it gains them anything, and nobody else loses."""

import http.client
import json
import pathlib
import socket
import time

from lab.gateway_call.parts import ACCOUNTS, PROXY, Parts, until
from lab.gateway_call.refusals import answer_of, offer_of, port_in, sends
from lab.gateway_call.sipping import Sipping, hears, media_at, packets, talk
from lab.gateway_call.trial import Trial

# parts.py has said where these are.
from refused import Refused  # noqa: E402
from targets import Targets  # noqa: E402

# A desk's most rooms. How many INVITEs come for rooms that nobody has.
ROOMS, INVITES = 64, 70
# What a source may have by the settings that the gateway has by itself: calls that wait, and rooms that it opened.
WAITING, OPENED = 8, 8
# The seconds within which a call's sound has to come, and after which a room without members ends.
UNHEARD, EMPTY = 10, 10
# An address that asks for nothing. How many requests of SIP, and half ones of HTTP, come at once.
BYSTANDER, FLOOD, HALVES = "127.0.0.88", 300, 600
# Addresses that are no public ones: loopback, private, of a provider, of a link, multicast, reserved, broadcast.
NOT_PUBLIC = (
    "127.0.0.1", "127.9.9.9", "10.0.0.1", "172.16.0.1", "192.168.1.1", "100.64.0.1", "169.254.1.1", "224.0.0.9",
    "239.1.1.1", "240.0.0.1", "255.255.255.255", "0.0.0.1",
)  # fmt: skip
PUBLIC = "198.41.0.4"


class Strangers(Trial):
    """The steps of a check in which no browser and no phone is needed."""

    def nothing_is_left(self, text):
        left = until(lambda: self.parts.calls() == 0 and not self.rows(), 20)
        self.check(left is not None, text, self.rows())

    def try_passwords(self):
        """Who has no account can't call. A password is given anew for each request."""
        offer = offer_of(["m=audio 5000 RTP/AVP 0"])
        for text, user, password in (
            ("without a password", "test", None),
            ("with a wrong one", "test", "secret"),
            ("of no account", "nobody", "secret"),
        ):
            one = self.parts.dialog()
            one.user, one.password = user, password
            said = one.ask("INVITE", offer)
            good = said.status == 407 and not self.parts.calls()
            self.check(good, f"an INVITE {text} is asked for one", said.first)
            one.close()
        one = self.parts.dialog()
        asked = one.send("INVITE", offer)
        given = one.credentials("INVITE", *asked.challenge())
        said = one.send("INVITE", offer, more=[given])
        self.check(said.status == 200, "one with the account's password is answered", said.first)
        posing = self.parts.dialog("2")
        posing.password = ACCOUNTS["other"]
        own = f'Proxy-Authorization: Digest username="other", realm="x", nonce="x", uri="{posing.uri()}", response="x"'
        given_so = [own, posing.credentials("INVITE", *posing.send("INVITE", offer).challenge())]
        also = posing.send("INVITE", offer, more=given_so)
        self.check(also.status == 400, "who names two accounts isn't taken for one of them", also.first)
        again = self.parts.dialog("2").send("INVITE", offer, more=[given])
        good = again.status == 407 and "stale=true" in again.text
        self.check(good, "what it gave counts once: a stranger who repeats it is asked", again.text)
        one.tag = said.tag
        self.check(one.ask("BYE").status == 200, "its BYE ends it")
        self.nothing_is_left("and nothing is left")

    def try_without_accounts(self):
        """Where no phone has a password, Kamailio listens on loopback alone, whatever the settings say."""
        parts = Parts(self.folder, self.udp, self.tcp, self.parts.control, first_member=600_000)
        self.others.append(parts)
        text = parts.path.read_text()
        for name, password in ACCOUNTS.items():
            text = text.replace(f"{name} = {json.dumps(password)}\n", "")
        parts.path.write_text(text.replace(f'listen = "{parts.sip}"', f'listen = "0.0.0.0:{parts.sip_port}"'))
        parts.start("kamailio")
        said = parts.log("kamailio")
        words = f"there are no accounts ([phones.accounts]): Kamailio listens on 127.0.0.1:{parts.sip_port} alone"
        self.check(words in said, "without accounts Kamailio says that it listens on loopback alone", said)
        other = parts.dialog()
        other.address = f"127.0.0.2:{parts.sip_port}"
        here, there = parts.dialog().send("OPTIONS"), other.send("OPTIONS", seconds=1)
        self.check((here.status, there.status) == (200, 408), "and does", (here.first, there.first))
        parts.stop("kamailio")

    def try_requests(self):
        """Requests that are too far round, malformed, none that it has, or too many."""
        said = self.parts.dialog().send("OPTIONS", hops=0)
        self.check(said.status == 483, "a request that has no hops left is answered so", said.first)
        said = self.parts.dialog().send("OPTIONS", more=["Expires: never"])
        self.check(said.status == 400, "one that is malformed is answered so", said.first)
        said = self.parts.dialog().send("MESSAGE", more=["Route: <sip:127.0.0.88:5070;lr>"])
        self.check(said.status == 405, "a MESSAGE is relayed nowhere", said.first)
        said = self.floods("127.0.0.77")
        self.check(said.status == 408, f"an address that sends {FLOOD} at once gets no answer", said.first)
        self.check(self.parts.dialog().send("OPTIONS").status == 200, "and others do")
        said = self.floods(PROXY)
        self.check(said.status == 200, "a proxy that passes on as many does, too", said.first)

    def floods(self, ip):
        """What an address is answered that has sent a flood."""
        flood = self.parts.dialog(ip=ip)
        for _ in range(FLOOD):
            flood.tell("OPTIONS")
        time.sleep(0.5)
        flood.close()
        return self.parts.dialog(ip=ip).send("OPTIONS", seconds=1)

    def try_dialogs(self):
        """A stranger who knows somebody's Call-ID, and even the phone's tag, changes nothing."""
        victim = Sipping(self, 5, 2001)
        self.check(victim.joins(), "a phone joins", self.rows())
        heard = Sipping(self, 5, 2002, "other")
        self.check(heard.joins() and hears(victim, heard), "and hears another one")
        before = self.rows()
        media, offer = media_at("127.0.0.66")
        self.takes_no_place(victim, heard, media)
        for text, user, own, tag in (
            ("his Call-ID", "other", None, None),
            ("his Call-ID and tag", "other", victim.dialog.own, None),
            ("his Call-ID and tag, and a guess", "other", victim.dialog.own, "0" * 32),
            ("all of it, but another account", "other", victim.dialog.own, victim.dialog.tag),
        ):
            one = self.parts.dialog(5, user, ip="127.0.0.66", call=victim.dialog.call)
            one.own = own or one.own
            if tag != victim.dialog.tag:
                one.ask("BYE", tag=tag)
            said = one.ask("INVITE", offer, tag=tag)
            if said.status == 200:
                # It has a call of its own.
                one.tag = said.tag
                one.ask("BYE")
            calls = self.parts.calls()
            good = hears(victim, heard) and self.rows() == before and calls == 2 and packets(media) == 0
            self.check(good, f"a stranger with {text} changes nothing", (said.first, calls, self.rows()))
            one.close()
        victim.hang_up()
        heard.hang_up()
        self.nothing_is_left("both hang up, and nothing is left")

    def takes_no_place(self, victim, heard, media):
        """Who sends to a phone's port doesn't take its place, not even when the phone has just sent an INVITE."""
        victim.dialog.invite(victim.offer)
        talk(0.5, victim, heard)
        for at in range(100):
            sends(2003, at, media, victim.port)
            sends(2003, at, media, victim.port)
            talk(0.02, victim, heard)
        good = packets(media) == 0 and hears(victim, heard) and packets(media) == 0
        self.check(good, "a stranger who sends to a phone's port doesn't get its sound", self.rows())

    def try_networks(self):
        """By the settings that name no network, sound goes to public addresses alone. The test's own name loopback."""
        none, taken = Targets([]), []
        for ip in NOT_PUBLIC:
            for source in PUBLIC, ip:
                try:
                    # A phone behind a NAT may name its private address, and gets nothing there.
                    none.demand(offer_of([]).replace("127.0.0.1", ip), source)
                    taken += [(ip, source)] if none.has(ip) or source == ip else []
                except Refused:
                    pass
        self.check(not taken, f"without `targets` none of {len(NOT_PUBLIC)} addresses gets sound", taken)
        good = none.has(PUBLIC) and Targets(["10.0.0.0/24"]).has("10.0.0.9") and not none.has("10.0.0.9")
        self.check(good, "a public one may, and one of a network that they name")

    def try_targets(self):
        """What an INVITE names gets nothing until something has come from there."""
        speaker, (bystander, offer) = Sipping(self, 5, 3001), media_at(BYSTANDER)
        self.check(speaker.joins(), "a phone speaks", self.rows())
        for text, ip in ("a private", "10.0.0.1"), ("a multicast", "224.0.0.9"), ("no", "call.example"):
            said = self.parts.dialog(5, "other").ask("INVITE", offer.replace(BYSTANDER, ip))
            good = said.status == 488 and "address" in said.first or "sends nothing" in said.first
            self.check(good and said.status == 488, f"an INVITE that names {text} address is told so", said.first)
        reflector = self.parts.dialog(5, "other")
        said = reflector.invite(offer)
        talk(2, speaker)
        self.check(said.status == 200 and packets(bystander) == 0, "an address that sends nothing gets nothing")
        self.check(self.members() == 1, "and who named it is no member", self.rows())
        gone = lambda: talk(0.5, speaker) == 0 and self.parts.calls() == 1
        self.comes(gone, "after some seconds that call is gone", self.parts.calls, UNHEARD + 10)
        mover = Sipping(self, 5, 3002, "other")
        self.check(mover.joins(), "a second phone joins", self.rows())
        talk(0.5, mover, speaker)
        before, port = self.rows(), mover.port
        said = mover.dialog.invite(offer)
        talk(2, speaker)
        good = said.status == 200 and packets(bystander) == 0
        self.check(good, "the address that its further INVITE names gets nothing either", said.first)
        mover.port, mover.media = port_in(said.body), bystander
        good = hears(mover, speaker) and self.rows() == before and mover.port == port
        self.check(good, "once it sends from there, its sound comes there", self.rows())
        speaker.hang_up()
        mover.hang_up()
        self.nothing_is_left("both hang up, and nothing is left")

    def try_rooms(self):
        """Who calls rooms that nobody has opens none, and who speaks in them opens a few."""
        said = []
        for at in range(INVITES):
            one = self.parts.dialog(100 + at, ip=f"127.0.1.{at + 1}")
            said.append(one.ask("INVITE", offer_of(["m=audio 5000 RTP/AVP 0"]).replace("127.0.0.1", BYSTANDER)))
            one.close()
        good = sum(one.status == 200 for one in said)
        self.check(good == WAITING, f"of {INVITES} INVITEs of one account {WAITING} wait", [one.first for one in said])
        words = f"480 {WAITING} calls of yours wait already. Try again in some seconds."
        good = {one.first for one in said if one.status != 200} == {words}
        self.check(good, "the others are told so", said[-1].first)
        self.check(not self.rows(), "and no room is open", self.rows())
        rooms = lambda verb: ["group " + " / ".join(f"{verb} {at + one}" for one in range(32)) for at in (200, 300)]
        self.check(all([self.do(line) for line in rooms("add-room")]), f"{ROOMS} rooms are free")
        for line in rooms("remove-room"):
            self.do(line)
        offered = [self.parts.ask("offer", room=400 + at, name="x") for at in range(WAITING + 1)]
        statuses = [status for status, _ in offered]
        self.check(statuses == [200] * WAITING + [429], f"a page's address has {WAITING} that wait", offered[-1])
        self.check(not self.rows(), "and opens no room", self.rows())
        said = self.offers_from("127.0.0.1", "203.0.113.5")[0]
        self.check(said == 429, "an address that it says it asks for counts for nothing", said)
        said, told = self.offers_from(PROXY, "127.0.0.1, 203.0.113.5")
        self.check(said == 200, "one for which a web server asks counts", told)
        self.parts.ask("leave", id=json.loads(told)["id"])
        for _, told in offered[:-1]:
            self.parts.ask("leave", id=told["id"])
        self.nothing_is_left("the calls that wait are gone before long")
        self.try_opening()

    def offers_from(self, ip, told):
        """What a page is answered that asks to join from an address, with the address that is told of it."""
        one = http.client.HTTPConnection("127.0.0.1", self.parts.page_port, 30, (ip, 0))
        head = {"Origin": self.parts.page, "X-Forwarded-For": told}
        one.request("POST", "/offer", json.dumps({"room": 500, "name": "x"}), head)
        said = one.getresponse()
        answer = said.status, said.read().decode()
        one.close()
        return answer

    def try_opening(self):
        """A source opens so many rooms. One without members ends."""
        phones = [Sipping(self, 500 + at, 5000 + at) for at in range(OPENED)]
        self.check(all(one.joins() for one in phones), f"an account opens {OPENED} rooms", self.rows())
        said = self.parts.dialog(600).ask("INVITE", phones[0].offer)
        words = f"480 You have opened {OPENED} rooms already."
        self.check(said.first.startswith(words), "it opens no further one, and is told so", said.first)
        other = Sipping(self, 600, 5100, "other")
        self.check(other.joins(), "another account does", self.rows())
        for one in phones:
            one.hang_up()
        self.do(f"remove-member {self.last_member()}")
        begun = time.monotonic()
        self.check("room 600" in self.rows(), "a room's member is taken away, and its room is there", self.rows())
        self.comes(lambda: talk(0.2, other) == 0 and not self.rows(), "it ends by itself", self.rows, EMPTY + 10)
        self.check(time.monotonic() - begun > EMPTY / 2, "and not at once")
        other.hang_up()
        self.nothing_is_left("all hang up, and nothing is left")

    def try_names(self):
        """A page sees the names of its own room. It reaches no phone's call."""
        phones = [Sipping(self, room, 1000 + room, user) for room, user in ((5, "test"), (6, "other"))]
        self.check(all(one.joins() for one in phones), "two phones are in two rooms", self.rows())
        status, told = self.parts.ask("offer", room=5, name="page")
        state = self.parts.ask("state", id=told["id"])[1]
        self.check(state["names"] == {} and state["room"] is None, "a page that hasn't joined sees no name", state)
        said = self.parts.ask("answer", id=told["id"], sdp=answer_of(ssrc=1100))
        state = self.parts.ask("state", id=told["id"])[1]
        good = said[0] == 200 and state["names"] == {"1005": "test", "1100": "page"}
        self.check(good, "one that has sees those of its room", (said, state))
        self.parts.ask("leave", id=told["id"])
        dialog = phones[0].dialog
        for id in dialog.call, f"phone {dialog.call}", f"{dialog.call} {dialog.own}":
            said = [self.parts.ask(path, id=id)[0] for path in ("state", "leave")]
            said.append(self.parts.ask("answer", id=id, sdp=answer_of())[0])
            talk(0.1, *phones)
            self.check(said == [410] * 3 and self.members() == 2, f"a page has no call {id[:6]}..", said)
        for one in phones:
            one.hang_up()
        self.nothing_is_left("all leave, and nothing is left")

    def asked_as(self, host):
        """The status of the page for who asks by a name."""
        one = http.client.HTTPConnection("127.0.0.1", self.parts.page_port, timeout=10)
        one.request("GET", "/", headers={"Host": host})
        status = one.getresponse().status
        one.close()
        return status

    def closes(self):
        """A client that wants its connection closed is answered, and finds it so."""
        body = json.dumps({"room": 1, "name": "closes"})
        lines = ["POST /offer HTTP/1.1", f"Host: 127.0.0.1:{self.parts.page_port}", f"Origin: {self.parts.page}"]
        lines += ["Connection: close", f"Content-Length: {len(body)}", "", body]
        begun, said = time.monotonic(), b""
        with socket.create_connection(("127.0.0.1", self.parts.page_port), 10) as one:
            one.sendall("\r\n".join(lines).encode())
            while octets := one.recv(65536):
                said += octets
        took, (head, _, text) = time.monotonic() - begun, said.partition(b"\r\n\r\n")
        good = head.startswith(b"HTTP/1.1 200 ") and b"\r\nConnection: close" in head and took < 5
        self.check(good, f"who wants its connection closed is answered, and it is, after {took:.2f} s", head)
        self.parts.ask("leave", id=json.loads(text or "{}").get("id", ""))

    def try_http(self):
        """Names that the page doesn't have, and requests that never end."""
        own = f"127.0.0.1:{self.parts.page_port}"
        said = {host: self.asked_as(host) for host in (own, "evil.example", f"evil.example:{self.parts.page_port}", "")}
        self.check(list(said.values()) == [200, 403, 403, 403], "the page is given by its own name alone", said)
        self.closes()
        halves, most = [], 0
        tasks = pathlib.Path(f"/proc/{self.parts.running['agent'].pid}/task")
        threads = lambda: len(list(tasks.iterdir()))
        before = threads()
        for _ in range(HALVES):
            one = socket.create_connection(("127.0.0.1", self.parts.page_port), 10)
            one.sendall(b"POST /offer HTTP/1.1\r\nX: ")
            halves.append(one)
            most = max(most, threads() - before)
        begun = time.monotonic()
        status = self.asked_as(own)
        took = time.monotonic() - begun
        self.check(status == 200 and took < 2, f"beside {HALVES} half requests the page comes in {took:.2f} s")
        self.check(most <= 66, f"which have {most} threads", most)
        self.comes(lambda: threads() - before < 5, "and are over before long", threads, 20)
        for one in halves:
            one.close()
