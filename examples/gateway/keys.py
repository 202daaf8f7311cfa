"""Keys that phones press (telephone events, RFC 4733): rtpengine tells the agent each one by a datagram of JSON.

`*6` mutes who calls, and unmutes him again where no operator has muted him since. Where a room has a PIN, a phone is a
member once it has pressed that and `#`.
"""

import collections
import contextlib
import hmac
import json
import socket
import threading
import time

from refused import Refused

# The key of each event, by its number.
KEYS = "0123456789*#ABCD"
# Keys that come so many seconds after the one before begin anew.
PAUSE = 5
# How many wrong PINs end a call, and how many of one source in how many seconds are the last ones for a while.
WRONG, MOST, SECONDS = 3, 9, 600


class Keys(threading.Thread):
    def __init__(self, address, calls):
        super().__init__(daemon=True)
        self.calls, self.socket = calls, socket.socket(socket.AF_INET, socket.SOCK_DGRAM)
        self.socket.bind(address)

    def run(self):
        while True:
            with contextlib.suppress(ValueError, KeyError, TypeError, IndexError, OSError, Refused):
                told = json.loads(self.socket.recv(65536))
                call = next((one for one in self.calls.phones.values() if one.id == told["callid"]), None)
                if call and told["type"] == "DTMF" and told["source_tag"] == "phone":
                    self.calls.pressed(call, KEYS[told["event"]])


class Pins:
    """The PINs of rooms, and how many wrong ones each source has given."""

    def __init__(self, pins):
        self.pins = {int(room): str(pin) for room, pin in pins.items()}
        self.wrong = collections.defaultdict(list)

    def __contains__(self, room):
        return room in self.pins

    def demand(self, source):
        """Refuses a source that has given too many wrong ones."""
        if len(self.late(source)) >= MOST:
            raise Refused("You have pressed too many wrong PINs. Try again in ten minutes.", 429)

    def late(self, source):
        self.wrong[source] = [at for at in self.wrong[source] if time.monotonic() - at < SECONDS]
        return self.wrong[source]

    def is_right(self, room, source, pin):
        good = hmac.compare_digest(self.pins[room].encode(), pin.encode())
        if not good:
            self.late(source).append(time.monotonic())
        return good


def pressed(call, key):
    """The keys that a call has pressed last, with this one."""
    now = time.monotonic()
    call.keys, call.pressed = (call.keys if now - call.pressed < PAUSE else "")[-20:] + key, now
    return call.keys
