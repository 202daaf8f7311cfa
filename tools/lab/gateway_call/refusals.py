"""What can't be had of the gateway: it is told in words, and leaves nothing behind. Neither browser nor phone is
needed."""

import json
import re
import signal
import time

from lab.gateway_call.bodies import are_refused
from lab.gateway_call.parts import Parts, until
from lab.gateway_call.trial import Trial
from operators.packets import rtp
from operators.serving import Answering, udp_socket
from operators.shared import fail

# After how many seconds without a packet a browser has gone, at an agent of a test.
SOON = 6


def offer_of(media):
    """A phone's offer of these media."""
    return "\r\n".join(["v=0", "o=- 1 1 IN IP4 127.0.0.1", "s=-", "c=IN IP4 127.0.0.1", "t=0 0", *media, ""])


def answer_of(types="0", port=9, mux=True, ssrc=777, kind="audio", dtls=True, camera=None, screen=None, slots=0):
    """A browser's answer that names what matters, but for the candidates. A camera and a screen have these SSRCs, and
    between them stand so many slots."""
    print_ = ":".join(["AB"] * 32)
    own = ["a=ice-ufrag:abcd", "a=ice-pwd:abcdefghijklmnopqrstuvwx", "a=mid:0", "a=sendrecv", f"a=ssrc:{ssrc} cname:x"]
    own += [f"a=fingerprint:sha-256 {print_}", "a=setup:active"] if dtls else []
    own += ["a=rtcp-mux"] if mux else []
    pictures = [f"m=video {port} UDP/TLS/RTP/SAVPF 96", "a=mid:1", f"a=ssrc:{camera} cname:x"] if camera else []
    pictures += ["m=video 9 UDP/TLS/RTP/SAVPF 96", "a=recvonly"] * slots
    pictures += ["m=video 9 UDP/TLS/RTP/SAVPF 96", "a=sendonly", f"a=ssrc:{screen} cname:x"] if screen else []
    return offer_of([f"m={kind} {port} UDP/TLS/RTP/SAVPF {types}", *own, *pictures])


def dialog_of(call):
    """What a request of a phone's call has."""
    return {"call": call, "from": "its own tag", "to": "the gateway's tag"}


def sends(ssrc, at, one, port, octet=b"\xff"):
    """Sends 20 ms of a sample, which is silence if none is given, from a socket to a port of rtpengine."""
    one.sendto(rtp(at, at * 160, ssrc, octet * 160, pt=0), ("127.0.0.1", port))


def port_in(text):
    """The port of audio in a description."""
    return int(re.search(r"m=audio (\d+)", text)[1])


class RawPhone:
    """A phone without SIP: it asks the agent as Kamailio does, and sends silence under an SSRC."""

    def __init__(self, parts, name, offer, ssrc, room=1):
        self.parts, self.dialog, self.ssrc, self.socket = parts, dialog_of(name), ssrc, udp_socket()
        words = {"room": str(room), "name": name, "source": "127.0.0.1", "sdp": offer}
        status, told = parts.ask("phone", for_phones=True, **self.dialog, **words)
        if status != 200:
            fail(f"a phone can't join: {told}")
        self.port = port_in(told["sdp"])

    def send(self, at):
        sends(self.ssrc, at, self.socket, self.port)

    def offers_again(self, offer):
        return self.parts.ask("again", for_phones=True, **self.dialog, source="127.0.0.1", sdp=offer)

    def hang_up(self):
        self.parts.ask("hang-up", for_phones=True, **self.dialog)


class Rubbish(Answering):
    """A port of rtpengine that answers each command well, and tells nothing."""

    def answer(self, octets):
        return octets.partition(b" ")[0] + b' {"result": "ok"}'


class Refusals(Trial):
    def refused(self, text, wanted, said):
        """Whether words come, and nothing stays behind at the desk and at rtpengine."""
        status, words = said
        good = status >= 400 and wanted in words
        print(f"      {status}: {words}")
        self.check(good, f"{text} is told in words", said)
        left = until(lambda: self.parts.calls() == 0 and not self.rows(), 5)
        self.check(left is not None, f"{text} leaves nothing behind", self.rows())

    def joins(self, parts=None, room="1", **answer):
        """What a browser is answered that answers so."""
        parts = parts or self.parts
        status, told = parts.ask("offer", room=room, name="test")
        return parts.ask("answer", id=told["id"], sdp=answer_of(**answer)) if status == 200 else (status, told)

    def try_bodies(self):
        """Bodies of requests that aren't what they should be, and an agent that fails by itself."""
        are_refused(self.check, self.parts.post, "offer", {"room": "1", "name": "x"}, "name")
        for_phones = lambda path, octets: self.parts.post(path, octets, for_phones=True)
        phone = {"room": "1", "name": "x", "source": "127.0.0.1", "sdp": "v=0"} | dialog_of("x")
        are_refused(self.check, for_phones, "phone", phone, "sdp")
        voice = "v=0\nm=audio 9 RTP/AVP 0"
        for sdp in "v=0\nm=audio", f"{voice}\na=ssrc:x", f"{voice}\na=ssrc:4294967296 a":
            said = for_phones("phone", json.dumps(phone | {"sdp": sdp}).encode())
            self.refused(f"the description {sdp!r}", "description of the call (SDP) can't be read", said)
        said = self.parts.ask("offer", room=1, name="x", more=[1])
        self.check(said[0] == 200, "a room as a number is one too, and a field that nobody asked for is passed over")
        self.parts.ask("leave", id=said[1]["id"])
        engine = Rubbish()
        parts = Parts(self.folder, self.udp, self.tcp, engine.port, first_member=300_000)
        self.others += [engine, parts]
        parts.start("agent")
        said = parts.ask("offer", room="1", name="x")
        words = "The agent has failed at this. Try again, and tell who runs it to look into its log."
        self.check(said == (500, words), "a fault of the agent tells nothing of its inside", said)
        self.check("Traceback" in parts.log("agent"), "and its log has it", parts.log("agent"))
        self.check(parts.serves(), "and it goes on")
        parts.stop("agent")

    def try_bad_answers(self):
        self.refused("an answer without audio", "needs audio", self.joins(port=0))
        self.refused("an answer with a camera alone", "needs audio", self.joins(kind="video", types="96"))
        self.refused("an answer with PCMA alone", "PCMU", self.joins(types="8"))
        self.refused("an answer without rtcp-mux", "rtcp-mux", self.joins(mux=False))
        self.refused("an answer without encryption", "DTLS-SRTP", self.joins(dtls=False))
        self.refused("a room that is no number", "number", self.joins(room="one"))
        self.refused(
            "a page of another site",
            "another site",
            self.parts.ask("offer", origin="http://evil.example", room="1", name="x"),
        )
        status, _ = self.parts.ask("offer", room="1", name="x")
        self.check(
            status == 200 and until(lambda: self.parts.calls() == 0, 20) is not None,
            "an offer that nobody answers goes again",
        )

    def try_music(self):
        self.do("add-room 44 44100")
        before, (status, words) = self.rows(), self.joins(room="44")
        print(f"      {status}: {words}")
        self.check(status == 503 and "music" in words, "a room for music is told in words", words)
        self.check(self.rows() == before and self.parts.calls() == 0, "and the refused leaves nothing behind")
        self.do("remove-room 44")

    def try_two_with_one_ssrc(self):
        status, told = self.parts.ask("offer", room="1", name="first")
        self.check(self.parts.ask("answer", id=told["id"], sdp=answer_of())[0] == 200, "a browser joins under an SSRC")
        before = self.rows()
        for status, words, wanted, text in (
            (*self.joins(), "SSRC", "a second browser under this SSRC is told so"),
            (
                *self.parts.ask("answer", id=told["id"], sdp=answer_of()),
                "already",
                "a browser that answers twice is told so",
            ),
            (
                *self.parts.ask("answer", id="none", sdp=answer_of()),
                "Press Join",
                "a call that the agent doesn't know is told so",
            ),
            (
                *self.parts.ask("answer", id=told["id"], sdp="v=0\nm=audio"),
                "can't be read",
                "a browser whose answer can't be read is told so",
            ),
        ):
            print(f"      {status}: {words}")
            self.check(status >= 400 and wanted in words, text, words)
            self.check(self.rows() == before and self.parts.calls() == 1, "and leaves nothing behind", self.rows())
        self.parts.ask("leave", id=told["id"])
        self.check(self.rows() == [] and self.parts.calls() == 0, "the first one leaves nothing behind", self.rows())

    def try_full_and_busy(self):
        voices = [f"add-source {5000 + at} 1 audio" for at in range(64)]
        self.do("group add-room 1 / add-member 1 1 127.0.0.1:9 pcmu 1001 0 0")
        numbers = [self.do("group " + " / ".join(voices[at : at + 32])) for at in (0, 32)]
        before, said = self.rows(), self.joins()
        print("      {}: {}".format(*said))
        self.check(said[0] == 503 and "64 voices" in said[1], "a bridge that is full is told in words", said)
        self.check(self.rows() == before and self.parts.calls() == 0, "and the refused leaves nothing behind")
        self.check(len(numbers) == 2 and self.do("remove-room 1") and not self.rows(), "the operator's room goes")
        # The seats are four: the agent's, this operator's, and two more.
        taken = [self.seated() for _ in range(2)]
        for one in taken:
            one.show()
        late = Parts(self.folder, self.udp, self.tcp, self.parts.control, first_member=200_000)
        self.others.append(late)
        late.start("agent")
        self.refused("a bridge that is busy", "busy", self.joins(late))
        for one in taken:
            one.tell("quit")
        self.check(until(lambda: self.joins(late)[0] == 200, 10) is not None, "it is joined once a seat is free")
        late.stop("agent")
        self.check(
            not self.rows() and self.parts.calls() == 0, "an agent that is stopped leaves nothing behind", self.rows()
        )

    def try_bad_phones(self):
        voice = "m=audio 5000 RTP/AVP 0 8"
        for text, wanted, media in (
            ("a phone without audio", "488 This call needs audio", ["m=video 5000 RTP/AVP 96"]),
            ("a phone with G.729 alone", "488 This call's audio is PCMU, PCMA, G.722", ["m=audio 5000 RTP/AVP 18"]),
            ("a phone with video before audio", "488", ["m=video 5002 RTP/AVP 96", voice]),
        ):
            self.refused(text, wanted, self.parts.invite(offer_of(media)))
        self.refused(
            "a phone that calls no number", "404 A room is a number", self.parts.invite(offer_of([voice]), "hall")
        )
        self.do("add-room 44 44100")
        status, words = self.parts.invite(offer_of([voice]), 44)
        self.check(status == 503 and "music" in words and self.parts.calls() == 0, "a room for music is told", words)
        self.do("remove-room 44")

    def try_phones_with_one_ssrc(self):
        """Phones whose offers name no SSRC: each is learnt from the packets that come."""
        offer = offer_of(["m=audio 5000 RTP/AVP 0"])
        phones = [RawPhone(self.parts, name, offer, 4242) for name in ("first", "second")]
        self.check(not self.rows(), "a phone that has sent nothing is no member", self.rows())
        sources = lambda: [row.split()[2] for row in self.rows() if row.startswith("source 4242 ")]
        members = []
        for at in range(150):
            if at == 75:
                members.append(self.last_member())
            for one in phones[: 1 + (at > 75)]:
                one.send(at)
            time.sleep(0.02)
        members.append(self.last_member())
        self.check(sources() == members[:1], "a phone's SSRC is learnt from its packets", self.rows())
        self.check(self.members() == 2, "a second phone under this SSRC is a member, and isn't heard", self.rows())
        told = phones[0].offers_again(offer)
        self.check(told[0] == 200 and self.members() == 2, "a phone that offers again stays the member that it is")
        phones[0].hang_up()
        for at in range(150, 300):
            phones[1].send(at)
            time.sleep(0.02)
        self.check(sources() == members[1:], "once the first one leaves, it is heard", self.rows())
        phones[1].hang_up()
        self.check(not self.rows() and self.parts.calls() == 0, "both leave nothing behind", self.rows())

    def try_without_rtpengine(self):
        self.parts.stop("rtpengine", signal.SIGKILL)
        status, words = self.joins()
        print(f"      {status}: {words}")
        self.check(
            status == 503 and "doesn't answer" in words and not self.rows(),
            "rtpengine that is gone is told in words",
            words,
        )
        self.parts.start("rtpengine")

    def try_without_bridge(self):
        """By an agent of its own, at which members stay for some seconds without a packet."""
        parts = Parts(self.folder, self.udp, self.tcp, self.parts.control, first_member=520_000, away=SOON)
        self.others.append(parts)
        parts.start("agent")
        self.bridge.kill()
        self.bridge.wait()
        status, words = self.joins(parts)
        print(f"      {status}: {words}")
        good = status == 503 and "The bridge doesn't answer" in words
        self.check(good, "a bridge that is gone is told in words", words)
        self.check(self.parts.calls() == 0, "and rtpengine has no call")
        self.restart_bridge()
        self.check(until(lambda: self.joins(parts)[0] == 200, 60) is not None, "once it is back, one joins")
        self.comes(lambda: not self.rows(), "and is no member once nothing comes", self.rows, 3 * SOON)
        parts.stop("agent")
