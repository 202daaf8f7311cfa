"""The calls of browsers and phones: each is a call of rtpengine and a member at the desk."""

import contextlib
import hmac
import itertools
import json
import secrets
import threading
import time

import sdp
from again import NO_MEMBER, Absents, calls_of, key_of, opened_by, screens_in, tied
from call import Call, log
from desk import FULL, MUSIC, ROOMS, SPEECH, Desk, Rows, groups_of, in_words, is_closed
from fleet_rooms import LEAST, Fleet
from invitations import CLOSED, GUEST, HOST
from keys import Pins
from meeting import Meeting
from mutes import Mutes
from own_rooms import EMPTY, OwnRooms
from phone_calls import KNOWN, MOST_OWED, MUX, PhoneCalls
from pictures import Pictures
from refused import Refused, words_of
from rtpengine import Rtpengine, UnknownCall
from targets import Targets
from turn import servers

# An agent's members have as many numbers, from `first_member` of the settings on.
NUMBERS = 100_000
# For how many seconds an agent that ends waits until Kamailio asks which calls are over.
TELLING = 3
# Where a browser is: ICE says so.
NOWHERE = "127.0.0.1", 9
# How often, each tenth of a second, an agent looks for a room that its fleet has placed.
LOOKS = 50


class Calls(PhoneCalls, Meeting, Mutes):
    def __init__(self, settings):
        self.settings, self.bridge = settings["calls"], settings["bridge"]["udp"]
        self.engine, self.desk = Rtpengine(settings["rtpengine"]["control"]), Desk(settings["bridge"]["tcp"])
        # The fleet that the bridge is one of, and the numbers of members that no other program has.
        self.fleet = Fleet(settings["fleet"], settings["bridge"]["udp"]) if "fleet" in settings else None
        first = self.settings["first_member"]
        self.numbers = range(LEAST, 2**32) if self.fleet else range(first, first + NUMBERS)
        self.targets = Targets(settings["phones"]["targets"])
        # The calls of pages by their ids, and why the last ones ended; those of phones by Call-ID and the phone's tag.
        # One change at a time is made to them and to the desk.
        self.pages, self.ended, self.phones, self.lock = {}, {}, {}, threading.RLock()
        # The rooms that have names, and those that have a PIN; and set once Kamailio has heard which calls are over. By
        # their tags, those of which it hasn't heard: what it keeps of each, and since when.
        self.names, self.pins, self.told_over = settings["names"], Pins(settings["pins"]), threading.Event()
        self.owed = {}
        # By which invitations are signed, where pages need them; and the TURN servers of pages.
        self.key, self.turn = settings["invitations"]["key"], settings["turn"]
        # The desk as it was last read.
        self.seen = Rows()
        # Members that have to go from the desk, with their cameras, and the rooms that the agent added.
        self.leaving, self.own_rooms = [], OwnRooms()
        # Members whose calls may come again, and the secret by which a page shows that one is its own.
        self.absent = Absents(self.settings["away"])
        self.secret = self.fleet.secret if self.fleet else secrets.token_bytes(32)
        # By which pictures follow who speaks, once it is started.
        self.pictures = Pictures(self)

    def __iter__(self):
        return iter([*self.pages.values(), *self.phones.values()])

    def rows(self):
        """Reads the desk. Members without a call have to go after a while, if no call comes again. All calls of an
        earlier bridge come again."""
        with self.lock:
            before, now = self.seen, self.desk.rows()
            if before.version < 0:
                now = self.takes_up()
            self.seen = now
            if before.version < 0 or self.fleet:
                known = {call.member for call in self} | {member for member, _ in self.leaving}
                for member in now.members.keys() - known:
                    if member in self.numbers:
                        self.absent.add(member, now)
            if now.version < before.version:
                self.begins_anew(before)
            self.absent.see(now)
            self.leaving += [(member, one.camera) for member, one in self.absent.over().items()]
            self.note_mutes(now)
            self.clear()
            return self.seen

    def takes_up(self):
        """Takes up the calls of an agent before this one, and the rooms that it has opened. The desk as it is."""
        history = self.desk.history()
        self.desk.screens |= screens_in(history, self.numbers)
        rows = self.desk.rows()
        found = {call.member: call for call in calls_of(self.engine, rows, self.settings["first_member"])}
        for call in found.values():
            call.table = self.pages if call.side == "browser" else self.phones
            call.key = call.id if call.side == "browser" else call.key
            call.table[call.key] = call
        # In a fleet rooms end by its agents.
        for room, member in {} if self.fleet else opened_by(history, self.numbers).items():
            if room in rows.rooms:
                self.own_rooms.add(room, found[member].source if member in found else "")
        if found:
            log(f"{len(found)} calls of an agent before this one go on")
        return rows

    def begins_anew(self, before):
        """The bridge is another one. Pages come again; phones are members again, as they were. In a fleet its agents
        bring rooms here, or elsewhere."""
        stays = lambda call: call.side == "phone" and (self.fleet or call.member in self.seen.members)
        gone = [call for call in self if call.member is not None and not stays(call)]
        for call in gone:
            self.absent.add(call.member, before, call)
        self.absent.begins_anew(before)
        for call in gone:
            if call.side == "browser":
                self.lose(call, "The bridge has been restarted. Press Join to come back.")
                continue
            # What comes from an earlier stream with this SSRC would make a phone wait for its numbers.
            call.again, call.member, call.mix = (call.member, call.mix), None, secrets.randbits(32)
            try:
                self.comes_again(call)
            except Refused as why:
                self.end(call, str(why))

    # Joining

    def offer(self, room, name, source, again=None, role=None):
        """The offer for a browser. The agent offers, so that all browsers have one payload type for VP8. `again` says
        which member it was, and shows that. `role` is that of its invitation, where one is needed."""
        call = Call("browser", room, name, source, 1 + self.settings["pictures"])
        call.role = role
        if again:
            key = key_of(self.secret, again["member"], again["mix"])
            if not hmac.compare_digest(key.encode(), again["key"].encode()):
                raise Refused(NO_MEMBER, 410)
            call.again = again["member"], again["mix"]
        self.begin(call, self.pages, call.id)
        with self.whole_or_not(call):
            # AVPF: where one side is AVP, rtpengine takes NACK and PLI away.
            own = sdp.plain(self.bridge, "RTP/AVPF")
            ways = {"ICE": "force", "SDES": ["off"], "rtcp_mux": MUX, "direction": ["bridge", "outside"]}
            ways |= {"transport_protocol": "UDP/TLS/RTP/SAVPF", "flags": KNOWN}
            said = self.opened(call, from_tag="bridge", sdp=own, label=self.label(call), **ways)
            offer = sdp.bundled(said["sdp"], [call.mix, *call.slots])
            return {"id": call.id, "sdp": offer, "ice": servers(self.turn, call.mix)}

    def answer(self, call, text):
        """Takes a browser's answer, and makes it a member."""
        with self.whole_or_not(call):
            found = sdp.demand(text, from_browser=True)
            call.voice, call.camera = [*(one.ssrc for one in found), None][:2]
            call.screen = found[-1].ssrc if len(found) == call.sections() else None
            call.ufrag = found[0].ufrag()
            own = sdp.plain(NOWHERE, "UDP/TLS/RTP/SAVPF", found[0].transport())
            tags, label = {"from_tag": "bridge", "to_tag": "browser"}, json.dumps({"screen": call.screen})
            said = self.engine.ask("answer", call_id=call.id, **tags, sdp=own, flags=KNOWN, label=label)
            self.join(call, sdp.plain_address(said["sdp"]))
        own = {"member": call.member, "voice": call.voice, "camera": call.camera, "screen": call.screen}
        return own | self.way_back(call)

    def restart(self, call, text):
        """Takes a browser's further offer: by new names of ICE it restarts that (RFC 8445 section 9), since its network has
        changed. Else it takes small pictures, or none. It is the member that it was, and at the desk nothing changes."""
        found = sdp.demand(text, from_browser=True)
        if call.member is None or len(found) != call.sections():
            raise Refused("You have another call than that. Press Join.", 409)
        own = sdp.plain(NOWHERE, "UDP/TLS/RTP/SAVPF", found[0].transport())
        ways = {"ICE": "remove", "rtcp_mux": MUX, "direction": ["outside", "bridge"]}
        ways |= {"transport_protocol": "RTP/AVPF", "flags": [*KNOWN, "port-latching"]}
        tags = {"call_id": call.id, "from_tag": "browser", "to_tag": "bridge"}
        try:
            # An offer would make a call that rtpengine has lost anew, without its other side.
            self.engine.ask("query", call_id=call.id)
            self.engine.ask("offer", **tags, sdp=own, **ways)
            own = sdp.plain(self.bridge, "RTP/AVPF")
            said = self.engine.ask("answer", **tags, sdp=own, ICE="force", flags=KNOWN)
        except UnknownCall as why:
            raise Refused(str(why), 410, True) from None
        if found[0].ufrag() != call.ufrag:
            log(f"browser {call.name!r} has another network")
        call.ufrag = found[0].ufrag()
        return {"sdp": sdp.bundled(said["sdp"], [call.mix, *call.slots], found)}

    def way_back(self, call):
        """By what a page comes again, within how many seconds, where else it may ask, and by which TURN servers."""
        key = {"member": call.member, "mix": call.mix, "key": key_of(self.secret, call.member, call.mix)}
        pages, ice = self.fleet.pages if self.fleet else [], servers(self.turn, call.mix)
        return {"again": key, "away": self.absent.away, "pages": pages, "ice": ice}

    def label(self, call, **more):
        return call.label(self.settings["first_member"], **more)

    def begin(self, call, table, key):
        """Takes a call in. Neither the gateway nor a source may have more than the settings say."""
        if self.seen.version < 0:
            # The calls of an agent before this one are taken up first: what it had at rtpengine beside them goes.
            self.rows()
        with self.lock:
            if key in table:
                raise Refused("There is such a call already.", 409)
            if len(self.pages) + len(self.phones) >= self.settings["most"]:
                raise Refused("The gateway has as many calls as it may have. Try again when somebody has left.")
            waiting = sum(one.source == call.source and one.member is None for one in self)
            if waiting >= self.settings["unanswered"]:
                raise Refused(f"{waiting} calls of yours wait already. Try again in some seconds.", 429)
            call.table, call.key = table, key
            table[key] = call
        if self.fleet:
            with self.whole_or_not(call):
                self.fleet.demand(call.room, call.role != GUEST)

    def demand_room(self, call, rows):
        """Refuses a room that can't be joined, or that may not be opened."""
        if rows.rooms.get(call.room, SPEECH) != SPEECH:
            raise Refused(MUSIC)
        if call.room in rows.rooms or self.fleet:
            return
        if call.role == GUEST:
            raise Refused(CLOSED.format(call.room), 404)
        if call.role != HOST and not self.settings["open_rooms"]:
            raise Refused(f"There is no room {call.room}.", 404)
        if self.own_rooms.of(call.source, rows) >= self.settings["rooms"]:
            words = f"You have opened {self.settings['rooms']} rooms already. Try again when one of them is empty."
            raise Refused(words, 429)
        if len(rows.rooms) >= ROOMS:
            raise Refused(FULL.format("rooms", ROOMS))

    def opened(self, call, **words):
        """What rtpengine says to an offer, by which it has the call."""
        said = self.engine.ask("offer", call_id=call.id, **words)
        call.is_open = True
        if call.why:
            # It was ended meanwhile, when rtpengine didn't have it.
            self.engine.ask("delete", call_id=call.id, delete_delay=0)
            raise Refused(call.why, 410)
        return said

    @contextlib.contextmanager
    def whole_or_not(self, call):
        """Where a call is refused before it is a member, nothing of it stays behind."""
        try:
            yield
        except Exception as why:
            if call.member is None:
                log(f"{call.side} {call.name!r} can't join room {call.room}: {words_of(why)}")
                self.end(call, words_of(why))
            raise

    def join(self, call, address):
        """Makes a call a member by one group: one `undo` takes all of it back."""
        if self.fleet:
            self.arrive(call)
        with self.lock:
            # What a member that has to go has, its number and its SSRCs, is free only then.
            self.rows()
            if call.why or call.member is not None:
                raise Refused(call.why or "You have joined this call already.", 410)
            call.address = address
            if call.again:
                self.comes_again(call)
                return
            for _ in range(3):
                rows = self.desk.rows()
                self.demand_room(call, rows)
                taken = rows.members.keys() | self.absent.keys() | {one.member for one in self}
                member = next(one for one in itertools.count(self.settings["first_member"]) if one not in taken)
                # Where no answer comes, the bridge may have taken the group: the member goes once the desk is back.
                self.leaving.append((member, None))
                group, *more = groups_of(self.joining(call, member, rows))
                refusal = self.desk.group(group)
                self.leaving.pop()
                if refusal is None:
                    self.is_in(call, member, rows)
                    self.do_all(more)
                    return
                # Where an operator has changed the desk meanwhile: again on what it is now.
                if self.desk.rows().version == rows.version:
                    break
        raise Refused(in_words(refusal, group))

    def is_in(self, call, member, before):
        """A call has become a member. `before`: the desk as it was."""
        call.member, call.again, call.alive = member, None, time.monotonic()
        if call.room not in before.rooms:
            self.own_rooms.add(call.room, call.source)
        self.seen = self.desk.rows()
        log(f"{call.side} {call.name!r} has joined room {call.room} as member {member}")

    def comes_again(self, call):
        """Makes a call the member that it was, with all that operators have made of that one. Its old rows go in the
        same group, in which are its mutes."""
        (member, mix), rows = call.again, self.desk.rows()
        self.absent.see(rows)
        old = Absents.as_at(member, rows) if member in rows.members else self.absent.get(member)
        if old is None or old.mix != mix:
            raise Refused(NO_MEMBER, 410)
        for one in [one for one in self.pages.values() if one.member == member]:
            self.lose(one, "This call goes on by another connection.")
        call.room = old.room
        group = [f"remove-member {member}"] if member in rows.members else []
        group += [f"add-room {call.room}"] if call.room not in rows.rooms else []
        ties = tied(old.ties, call, member, rows)
        group += [*call.commands(member, call.address), *(one for one in ties if one.startswith("mute "))]
        more = [one for one in ties if not one.startswith("mute ")]
        fit = max(0, len(groups_of(group + more)[0]) - len(group))
        if self.desk.group(group + more[:fit]) is None:
            more = more[fit:]
        elif refusal := self.desk.group(group):
            raise Refused(in_words(refusal, group))
        kept = self.absent.pop(member, old)
        for one in more:
            # What is refused of these has changed meanwhile.
            self.desk.group([one])
        self.is_in(call, member, rows)
        call.muted = None
        if call.voice in self.seen.mutes:
            self.is_muted_by(call, kept.is_own_mute)
        # Who has joined meanwhile.
        self.do_all(groups_of(self.meeting(call, self.seen)))

    def do_all(self, groups):
        """Does what may be refused: it has changed meanwhile."""
        for group in groups:
            if group:
                self.desk.group(group)

    def arrive(self, call):
        """Waits until a call's room is on the bridge that the fleet has chosen. It may be another one."""
        for _ in range(LOOKS):
            rows = self.desk.rows()
            if call.room in rows.rooms and (not call.again or call.again[0] in rows.members):
                return
            if call.role == GUEST:
                # It may have ended meanwhile.
                self.fleet.demand(call.room, may_open=False)
            if not call.again:
                self.fleet.place(call.room, call.source)
            time.sleep(0.1)
        raise Refused(f"Room {call.room} is on its way to a bridge. Join again in a second.")

    # Leaving

    def end(self, call, why):
        """Ends a call, and takes its member from the desk."""
        with self.lock:
            if call.table.pop(call.key, None) is None:
                return
            call.why = why
            if call.side == "browser":
                self.ended = dict([*self.ended.items(), (call.id, (why, 410))][-1000:])
            elif call.dialog:
                self.owed = dict([*self.owed.items(), (call.tag, (call.dialog, time.monotonic()))][-MOST_OWED:])
            if call.member is not None:
                log(f"{call.side} {call.name!r} has left room {call.room}: {why}")
                self.leaving.append((call.member, call.camera))
        with contextlib.suppress(Refused):
            self.clear()
        with contextlib.suppress(Refused):
            self.engine.ask("delete", call_id=call.id, delete_delay=0)

    def lose(self, call, why, page=""):
        """Ends a call whose page comes again by itself. Its member stays for a while."""
        with self.lock:
            if call.table.pop(call.key, None) is None:
                return
            call.why = why
            self.ended = dict([*self.ended.items(), (call.id, (why, 410, True, page))][-1000:])
            if call.member is not None:
                log(f"{call.side} {call.name!r} is away from room {call.room}: {why}")
                self.absent.add(call.member, self.seen, call)
        with contextlib.suppress(Refused):
            self.engine.ask("delete", call_id=call.id, delete_delay=0)

    def lost(self, call, why, page=""):
        """A call has lost its way, and not by who calls: a page comes again by itself, and a phone can't."""
        if call.side == "browser":
            self.lose(call, why, page)
        else:
            self.end(call, why)

    def end_all(self, why):
        """Ends all calls. Kamailio hears of those of phones, and sends a BYE to each."""
        were_phones = bool(self.phones)
        self.told_over.clear()
        for call in self:
            self.end(call, why)
        if were_phones and self.told_over.wait(TELLING):
            # The answer goes out.
            time.sleep(0.3)

    def clear(self):
        """Takes the members that have to go from the desk. Where it is out of reach or closed, the watch tries again."""
        with self.lock:
            while self.leaving:
                member, camera = self.leaving[0]
                rows = self.desk.rows()
                group, *more = groups_of(self.parting(member, camera, rows) if member in rows.members else [])
                refusal = self.desk.group(group) if group else None
                if refusal is not None and not is_closed(refusal):
                    refusal = self.desk.group([f"remove-member {member}"])
                if is_closed(refusal):
                    return
                self.do_all(more)
                self.leaving.pop(0)

    def end_empty_rooms(self, rows):
        """Ends the rooms that the agent has opened, and that have had no member for some time."""
        with self.lock:
            for room in self.own_rooms.over(rows):
                self.own_rooms.discard(room)
                if self.desk.group([f"remove-room {room}"]) is None:
                    log(f"room {room} has had no member for {EMPTY} s, and has ended")
