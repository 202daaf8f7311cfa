"""rtpengine, asked by its control protocol "ng", in JSON: a datagram asks, another one with its cookie answers."""

import contextlib
import json
import secrets
import socket
import typing

from refused import Refused


class UnknownCall(Refused):
    """rtpengine doesn't have the call: it has been restarted since, or has given the call up."""


class Received(typing.NamedTuple):
    """How many packets came, the SSRC of the last one where there is one, how many were of the call's sound, and the IP
    address to which rtpengine sends sound: once such packets came, it is that from which they came. And how many it
    dropped, since they came from elsewhere: these aren't counted before."""

    packets: int
    ssrc: int | None
    media: int
    ip: str | None
    strange: int


class Rtpengine:
    def __init__(self, address):
        self.address = address

    def ask(self, command, **words):
        """The answer to a command. Words of the protocol have `-` where Python has `_`."""
        cookie = secrets.token_hex(8).encode()
        asked = json.dumps({"command": command, **{key.replace("_", "-"): value for key, value in words.items()}})
        with socket.socket(socket.AF_INET, socket.SOCK_DGRAM) as one:
            one.connect(self.address)
            one.settimeout(1)
            # A command that comes again with its cookie is answered again, and not carried out again.
            for _ in range(3):
                with contextlib.suppress(OSError):
                    one.send(cookie + b" " + asked.encode())
                    own, _, answer = one.recv(65536).partition(b" ")
                    if own == cookie:
                        return checked(command, json.loads(answer))
        raise Refused("The media server (rtpengine) doesn't answer. Try again in a minute.")

    def received(self, call, side):
        """What has come from one side of a call."""
        medias = self.ask("query", call_id=call)["tags"].get(side, {}).get("medias", [])
        streams = [stream for media in medias for stream in media["streams"]]
        ssrc = next((stream["SSRC"] for stream in streams if "SSRC" in stream), None)
        # The first stream of a call is that of its sound, the others have RTCP.
        first = streams[0] if streams else {"stats": {"packets": 0, "errors": 0}}
        good = lambda stream: stream["stats"]["packets"] - stream["stats"]["errors"]
        packets, ip = sum(map(good, streams)), first.get("endpoint", {}).get("address")
        return Received(packets, ssrc, good(first), ip, first["stats"]["errors"])


def checked(command, answer):
    why = answer.get("error-reason", "")
    if "Unknown call" in why:
        raise UnknownCall("The media server (rtpengine) has lost the call. Press Join to come back.", 410)
    if answer["result"] == "error":
        raise Refused(f"The media server (rtpengine) refuses the call ({command}: {why}).")
    return answer
