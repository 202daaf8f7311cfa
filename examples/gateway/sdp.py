"""Session descriptions (RFC 8866) of browsers, phones, rtpengine and the bridge."""

import secrets

from refused import Refused

PCMU, VP8 = 0, 96
NAMES = {PCMU: "PCMU/8000", VP8: "VP8/90000"}
# The sound of phones, of which rtpengine makes PCMU; the types that need no name (RFC 3551 section 6); and keys.
OTHERS, STATIC, EVENTS = ("opus", "g722", "pcma"), {"0": "pcmu", "8": "pcma", "9": "g722"}, "telephone-event"
TRANSPORT = ("ice-ufrag:", "ice-pwd:", "ice-options:", "fingerprint:", "setup:", "candidate:", "end-of-candidates")


class Section:
    """An m-section: its kind, port and payload types, and its attributes behind those of the whole session."""

    def __init__(self, text, shared):
        lines = text.split("\n")
        self.kind, self.port, self.protocol, *self.types = lines[0].split()
        self.attributes = [line[2:] for line in [*shared, *lines] if line.startswith("a=")]
        # The SSRC that is sent under, where the section names it.
        self.ssrc = next((int(one[5:].split()[0]) for one in self.attributes if one.startswith("ssrc:")), None)
        if not 0 <= (self.ssrc or 0) < 2**32:
            raise ValueError("an SSRC of over 32 bits")

    def codecs(self):
        """The name of each payload type's encoding, in small letters, in the order of the section."""
        maps = [one[7:].split(None, 1) for one in self.attributes if one.startswith("rtpmap:") and " " in one]
        named = {type_: name.partition("/")[0].lower() for type_, name in maps}
        return [named.get(one, STATIC.get(one, "")) for one in self.types]

    def ufrag(self):
        """The name that ICE has for its way."""
        return next((one for one in self.attributes if one.startswith("ice-ufrag:")), None)

    def transport(self):
        """What it says of ICE and DTLS, each line once."""
        return list(dict.fromkeys(one for one in self.attributes if one.startswith(TRANSPORT)))


def sections(text):
    head, *parts = text.replace("\r", "").split("\nm=")
    return [Section(part, head.split("\n")) for part in parts]


def demand(text, from_browser):
    """The sections of a browser's answer or a phone's offer, which has what the bridge and rtpengine need."""
    try:
        found = sections(text)
    except (ValueError, IndexError):
        raise Refused("Your program's description of the call (SDP) can't be read.", 400) from None
    audio = found[0] if found else None
    if audio is None or audio.kind != "audio" or audio.port == "0":
        raise Refused("This call needs audio, and your program offers none as the first of its media.", 406)
    if from_browser and str(PCMU) not in audio.types:
        raise Refused("This call's audio is PCMU (G.711 mu-law), which your program doesn't offer.", 406)
    if not {"pcmu", *OTHERS} & {*audio.codecs()}:
        raise Refused("This call's audio is PCMU, PCMA, G.722 or Opus, of which your program offers none.", 406)
    if from_browser and "rtcp-mux" not in audio.attributes:
        raise Refused("This call needs RTP and RTCP on one port (rtcp-mux), which your browser refuses.", 406)
    if from_browser and not any(one.startswith("fingerprint:") for one in audio.attributes):
        raise Refused("This call needs encryption (DTLS-SRTP), which your browser doesn't offer.", 406)
    return found


# What a phone may say of its sound's direction, and what it is answered (RFC 3264 section 6.1).
ANSWERS = {"sendrecv": "sendrecv", "sendonly": "recvonly", "recvonly": "sendonly", "inactive": "inactive"}


def direction_of(section):
    return [*(one for one in ["sendrecv", *section.attributes] if one in ANSWERS)][-1]


def has_pcmu(section):
    return "pcmu" in section.codecs()


def ways_of(section):
    """What rtpengine is to make of a phone's encodings: PCMU stays, and is made of the first other one."""
    if has_pcmu(section):
        return {"strip": ["all"], "offer": ["PCMU", EVENTS]}
    first = next(one for one in section.codecs() if one in OTHERS)
    others = sorted({one for one in section.codecs() if one not in (first, EVENTS, "")})
    return {"strip": others, "mask": [first], "transcode": ["PCMU"]}


def events_in(text):
    """The payload type of keys in rtpengine's offer, if it has them."""
    first = sections(text)[0]
    maps = [one[7:].split(None, 1) for one in first.attributes if one.startswith("rtpmap:")]
    return next((int(type_) for type_, name in maps if name.strip() == f"{EVENTS}/8000"), None)


def described(lines):
    return "".join(line + "\r\n" for line in lines)


def session(ip):
    return ["v=0", f"o=- {secrets.randbits(31)} 1 IN IP4 {ip}", "s=-", f"c=IN IP4 {ip}", "t=0 0"]


def plain(address, protocol, attributes=(), types=(PCMU, VP8), direction="sendrecv", events=None):
    """A description of one stream that carries all types, for rtpengine. It passes on what it doesn't transcode."""
    (ip, port), names = address, NAMES | ({} if events is None else {events: f"{EVENTS}/8000"})
    types = [*types, *([] if events is None else [events])]
    lines = [*session(ip), f"m=audio {port} {protocol} " + " ".join(map(str, types))]
    lines += [f"a=rtpmap:{one} {names[one]}" for one in types]
    return described([*lines, "a=rtcp-mux", f"a={direction}", *(f"a={one}" for one in attributes)])


def refusing_others(answer, offer):
    """An answer of one section, with a refusal of each further section of the offer (RFC 3264 section 6)."""
    return answer + described(f"m={one.kind} 0 {one.protocol} {' '.join(one.types)}" for one in offer[1:])


def bundled(text, streams, offer=None):
    """The offer for a browser: its voice and the mix, its camera and slot 0, a section for each further slot, and one for
    its screen. Or the answer to its own offer of these sections.

    It has no header extension, no RTX and no reduced-size RTCP, and of the feedback NACK and PLI alone, as the bridge
    has no more.
    """
    first = sections(text)[0]
    ways = ["sendrecv" if mid < 2 else "sendonly" for mid in range(len(streams))] + ["recvonly"]
    if offer:
        ways = [ANSWERS[direction_of(one)] for one in offer]
    shared = ["c=IN IP4 0.0.0.0", *(f"a={one}" for one in first.transport()), "a=rtcp-mux"]
    voice = [f"a=rtpmap:{PCMU} PCMU/8000", "a=ptime:20"]
    camera = [f"a=rtpmap:{VP8} VP8/90000", f"a=rtcp-fb:{VP8} nack", f"a=rtcp-fb:{VP8} nack pli"]
    lines = [*session("127.0.0.1"), "a=group:BUNDLE " + " ".join(str(mid) for mid in range(len(ways)))]
    for mid, ssrc in enumerate([*streams, None]):
        kind, type_, own = ("video", VP8, camera) if mid else ("audio", PCMU, voice)
        lines += [f"m={kind} {first.port} UDP/TLS/RTP/SAVPF {type_}", *shared, f"a=mid:{mid}", *own]
        lines.append(f"a={ways[mid]}")
        if ssrc is not None:
            lines += [f"a=ssrc:{ssrc} cname:bridge", f"a=ssrc:{ssrc} msid:stream{mid} {kind}{mid}"]
    return described(lines)


def plain_address(text):
    """Where rtpengine takes and sends plain RTP."""
    ip = next(line for line in text.replace("\r", "").split("\n") if line.startswith("c=")).split()[2]
    return f"{ip}:{sections(text)[0].port}"
