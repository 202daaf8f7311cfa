"""Gives a sending and a receiving program one address.

The member's address is 127.0.0.1:PORT. What comes to 127.0.0.1:SPEAK goes from there to the bridge, at
127.0.0.1:BRIDGE. The RTP packets that the bridge sends there go on to 127.0.0.1:HEAR. It runs until it is stopped. A
program that receives at the port that it sends from needs no such help.
"""

import select

from operators.packets import is_rtcp
from operators.serving import udp_socket

NEEDS = "a running bridge"


def options(parser):
    parser.add_argument("port", type=int, metavar="PORT", help="the member's port")
    parser.add_argument("speak", type=int, metavar="SPEAK", help="the port that the sending program sends to")
    parser.add_argument("hear", type=int, metavar="HEAR", help="the port at which the receiving program receives")
    parser.add_argument("bridge", type=int, nargs="?", default=5004, metavar="BRIDGE", help="the bridge's port (5004)")


def run(args):
    member, program = udp_socket(args.port), udp_socket(args.speak)
    while True:
        for one in select.select([member, program], [], [])[0]:
            octets = one.recv(65536)
            if one is program:
                member.sendto(octets, ("127.0.0.1", args.bridge))
            elif len(octets) > 1 and not is_rtcp(octets):
                program.sendto(octets, ("127.0.0.1", args.hear))
