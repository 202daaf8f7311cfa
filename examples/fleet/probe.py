#!/usr/bin/env python3
"""Whether a program answers over UDP, for a scheduler: the status is 0 where it does, at one of its addresses.

    probe.py rtpengine ADDRESS ..    rtpengine's control port
    probe.py sip ADDRESS ..          Kamailio, which may listen on loopback alone
"""

import socket
import sys

SECONDS = 2
PING = b"1 d7:command4:pinge"
OPTIONS = (
    "OPTIONS sip:probe@{0}:{1} SIP/2.0\r\nVia: SIP/2.0/UDP {2}:{3};branch=z9hG4bK{3}\r\nFrom: <sip:probe@{2}>;tag=1\r\n"
    "To: <sip:probe@{0}>\r\nCall-ID: probe{3}\r\nCSeq: 1 OPTIONS\r\nMax-Forwards: 2\r\nContent-Length: 0\r\n\r\n"
)


def answers(program, address):
    host, _, port = address.rpartition(":")
    with socket.socket(socket.AF_INET, socket.SOCK_DGRAM) as one:
        one.settimeout(SECONDS)
        try:
            one.connect((host, int(port)))
            one.send(PING if program == "rtpengine" else OPTIONS.format(host, port, *one.getsockname()).encode())
            return bool(one.recv(65536))
        except OSError:
            return False


def main():
    program, *addresses = sys.argv[1:] or [""]
    if program not in ("rtpengine", "sip") or not addresses:
        sys.exit(__doc__)
    if not any(answers(program, one) for one in addresses):
        sys.exit(f"probe: {program} doesn't answer")


if __name__ == "__main__":
    main()
