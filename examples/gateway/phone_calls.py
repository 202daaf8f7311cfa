"""The calls of phones: their offers and answers, where their sound comes from, and the keys that they press."""

import contextlib
import secrets
import threading
import time

import keys
import sdp
from call import Call, log
from desk import GONE
from refused import Refused
from targets import without_others

# For rtpengine: RTP and RTCP have one port; addresses are known, of browsers by ICE, and not to be learnt from packets.
MUX, KNOWN = ["offer", "require"], ["asymmetric", "strict-source"]
# A phone's address is that of its request, whatever its description names, and then that from which its packets come.
# Until that is certain, packets from the first count more than a stranger's, or the last ones count: where a phone has
# said that its sound comes from elsewhere, late ones from the first would count too much. The bridge's side keeps its
# port when a phone offers again.
LEARNT = ["SIP-source-address", "strict-source", "port-latching"]
NEAREST, LAST = "endpoint-learning-heuristic", "endpoint-learning-delayed"
# For how many seconds a call that has ended is kept for a Kamailio that hasn't heard of it, and how many are.
OWED, MOST_OWED = 600, 1000
# For how many seconds rtpengine learns an address, and nothing may come from a phone before its new port is learnt.
LEARNING = 3


class PhoneCalls:
    """What `Calls` does for phones."""

    def phone(self, room, words):
        """Takes a phone's offer, and answers. It is a member once its sound comes (`heard`)."""
        call = Call("phone", room, words["name"], words.get("account") or words["source"], 0)
        call.tag = words["to"]
        self.pins.demand(call.source)
        self.begin(call, self.phones, (words["call"], words["from"]))
        with self.whole_or_not(call):
            found = sdp.demand(words["sdp"], from_browser=False)
            self.demand_room(call, self.desk.rows())
            # Most phones don't say their SSRC: the watch learns it.
            call.voice = found[0].ssrc
            return self.described(call, found, words)

    def offers_again(self, call, words):
        """Takes a phone's further offer, by which it holds the call, takes it up again, or has moved."""
        with self.whole_or_not(call):
            call.ip = None
            return self.described(call, sdp.demand(words["sdp"], from_browser=False), words)

    def learn_anew(self, call):
        """Learns anew from where a phone sends: a NAT before it has given it another port."""
        with self.lock:
            if call.offer and not call.why:
                log(f"phone {call.name!r} is silent, and packets come from elsewhere: its port is learnt anew")
                alive = call.alive
                self.described(call, sdp.demand(call.offer["sdp"], from_browser=False), call.offer)
                call.alive, call.reset = alive, time.monotonic()

    def described(self, call, found, words):
        """What a phone is answered to its description. Nothing goes there until something has come from there."""
        self.targets.demand(words["sdp"], words["source"])
        direction = sdp.direction_of(found[0])
        given = {"sdp": without_others(words["sdp"]), "received_from": ["IP4", words["source"]]}
        ways = {"ICE": "remove", "rtcp_mux": MUX, "direction": ["outside", "bridge"], "flags": [*LEARNT, NEAREST]}
        ways |= {"transport_protocol": "RTP/AVPF", "codec": sdp.ways_of(found[0])}
        with self.lock:
            if call.is_open:
                call.waits_at = self.engine.received(call.id, "phone").media
                self.engine.ask("block media", call_id=call.id, from_tag="bridge")
                learning = LAST if self.targets.is_elsewhere(words["sdp"], words["source"]) else NEAREST
                # Without a reset an address that was learnt within the last three seconds counts more than the new one.
                ways |= {"to_tag": "bridge", "flags": [*LEARNT, learning, "reset"]}
            is_held = direction in ("sendonly", "inactive") or self.targets.is_hold(words["sdp"])
            is_transcoded = not sdp.has_pcmu(found[0])
            call.offer = {"sdp": words["sdp"], "source": words["source"]}
            ways["label"] = self.label(call, is_held=is_held, is_transcoded=is_transcoded)
            said = self.opened(call, from_tag="phone", **given, **ways)
            events = sdp.events_in(said["sdp"])
            own = sdp.plain(self.bridge, "RTP/AVPF", types=[sdp.PCMU], direction=sdp.ANSWERS[direction], events=events)
            own = {"sdp": sdp.refusing_others(own, found), "flags": KNOWN}
            answer = self.engine.ask("answer", call_id=call.id, from_tag="phone", to_tag="bridge", **own)
            # Keys are told to the agent, and not to the bridge. What plays to who is held isn't for the room.
            self.engine.ask("block DTMF", call_id=call.id, from_tag="phone")
            self.engine.ask("block media" if is_held else "unblock media", call_id=call.id, from_tag="phone")
            call.address, call.is_held, call.is_transcoded = sdp.plain_address(said["sdp"]), is_held, is_transcoded
            if is_transcoded:
                call.voice = call.voice if call.member is not None else None
                call.sends = None
            now, came = time.monotonic(), self.engine.received(call.id, "phone")
            call.alive, call.waits_at, call.learning = now, came.media, now
        return {"sdp": answer["sdp"]}

    def heard(self, call, came):
        """Where a phone's sound has come from an address, sound may go there from now on."""
        with self.lock:
            if call.waits_at is None or came.media <= call.waits_at:
                return
            if not self.targets.has(came.ip):
                words = f"Its sound comes from {came.ip}, to which this gateway sends nothing (`targets`)."
                self.end(call, words)
                return
            if call.ip not in (None, came.ip):
                # A stranger's, while a phone's new port is learnt.
                if time.monotonic() - call.learning > LEARNING:
                    self.learn_anew(call)
                return
            call.ip, call.waits_at, call.media = came.ip, None, came
            if not call.is_held:
                self.engine.ask("unblock media", call_id=call.id, from_tag="bridge")
            if call.member is None and call.room not in self.pins:
                self.comes_in(call)

    def has_moved(self, call, came):
        """Whether nothing has come from a phone for some seconds, while packets came from elsewhere."""
        now = time.monotonic()
        if call.is_held or call.media is None or came.media != call.media.media:
            call.media, call.learning, call.ip = came, now, call.ip or came.ip
        return now - call.learning > LEARNING and came.strange - call.media.strange > LEARNING

    def is_certain(self, call):
        """Whether what comes is the phone's own: while its port is learnt anew, a stranger's packets come through."""
        return time.monotonic() - call.reset > LEARNING + 1

    def comes_in(self, call):
        threading.Thread(target=self.let_in, args=[call], daemon=True).start()

    def let_in(self, call):
        """Makes a phone a member. Where that is refused, the log says why."""
        with contextlib.suppress(Refused), self.whole_or_not(call):
            self.join(call, call.address)

    def of_phone(self, words):
        """The call of a request within it: its Call-ID and both tags have to be right, and who asks has to be."""
        call = self.phones.get((words["call"], words["from"]))
        if not call or not secrets.compare_digest(call.tag.encode(), words["to"].encode()):
            raise Refused("There is no such call.", 410)
        if "account" in words and words["account"] != call.source:
            raise Refused("This call is another account's.", 403)
        return call

    def over(self, tags, dialogs):
        """Which of these tags of the gateway are of no call: Kamailio sends those phones a BYE. What it keeps of calls
        is kept here too, and it is told of which that is missing."""
        known = self.by_tag()
        if not known:
            self.told_over.set()
        for tag in dialogs.keys() & known.keys():
            known[tag].dialog = dialogs[tag]
        for tag in tags:
            self.owed.pop(tag, None)
        wants = [tag for tag in tags if tag in known and known[tag].dialog is None]
        return {"over": [tag for tag in tags if tag not in known], "wants": wants}

    def dialogs(self):
        """What a Kamailio that is started anew takes back: all calls, and those that have ended meanwhile."""
        found, now = {tag: call.dialog for tag, call in self.by_tag().items() if call.dialog}, time.monotonic()
        return {"dialogs": {tag: one for tag, (one, ended) in list(self.owed.items()) if now - ended < OWED} | found}

    def by_tag(self):
        """The calls of phones by the gateway's tags."""
        if self.seen.version < 0:
            # The calls of an agent before this one aren't taken up yet.
            raise Refused(GONE)
        return {call.tag: call for call in list(self.phones.values())}

    def hang_up(self, call):
        """A phone has hung up. It gets no BYE."""
        call.dialog = None
        self.end(call, "It has hung up.")

    # Keys

    def pressed(self, call, key):
        """A phone has pressed a key."""
        with self.lock:
            text = keys.pressed(call, key)
            if call.why:
                return
            if call.member is not None:
                if text.endswith("*6"):
                    self.mutes_itself(call)
            elif key == "#" and call.room in self.pins:
                self.tries_pin(call, text.rstrip("#"))

    def tries_pin(self, call, pin):
        call.keys = ""
        if self.pins.is_right(call.room, call.source, pin):
            if call.waits_at is None:
                self.comes_in(call)
            return
        call.wrong += 1
        log(f"phone {call.name!r} has pressed a wrong PIN for room {call.room}")
        if call.wrong >= keys.WRONG or len(self.pins.late(call.source)) >= keys.MOST:
            self.end(call, "It has pressed too many wrong PINs.")
