"""Where media of a phone may go: to public addresses, and to the networks that the settings name (`targets`).

What a phone's description names gets nothing by that: rtpengine learns an address from packets that come from there.
"""

import contextlib
import ipaddress
import socket

from refused import Refused

# A phone that holds a call may name the first address (RFC 2543 section 8.3). The second one is this machine's.
HOLD, LOOPBACK = ipaddress.IPv4Address(0), ipaddress.IPv4Address("127.0.0.1")
# What a description for rtpengine doesn't have: further addresses, to which it would send.
OTHERS = ("a=candidate:", "a=end-of-candidates", "a=remote-candidates:", "a=ice-", "a=rtcp:")


class Targets:
    def __init__(self, networks):
        self.networks = [ipaddress.IPv4Network(one) for one in networks]

    def has(self, ip):
        """Whether media may go to an address, which is a text."""
        return self.allows(address_of(ip))

    def allows(self, ip):
        # This machine's other addresses are as its loopback address.
        return is_public(ip) or self.names(ip) or self.names(LOOPBACK) and is_own(ip)

    def is_elsewhere(self, text, source):
        """Whether a description names an address other than the request's, to which sound may go once it comes from
        there."""
        return any(self.allows(ip) and ip != address_of(source) for ip in named(text) if ip != HOLD)

    @staticmethod
    def is_hold(text):
        """Whether a description names no address, by which older phones hold a call."""
        return HOLD in named(text)

    def names(self, ip):
        return any(ip in one for one in self.networks)

    def demand(self, text, source):
        """Refuses a description that names an address to which media may not go, of a request from a source.

        A phone behind a NAT names its private address, which is passed over where its request has a public one. So is
        an address of IPv6, as this gateway has none.
        """
        if not self.has(source):
            raise Refused(f"Your address, {source}, is none to which this gateway sends (`targets`).", 403)
        for ip in named(text):
            is_behind = ip.is_private and not ip.is_loopback and is_public(address_of(source))
            if ip != HOLD and not is_behind and not self.allows(ip):
                words = f"Your program's description of the call (SDP) names {ip}, to which this gateway sends nothing."
                raise Refused(words, 406)


def named(text):
    """The addresses of IPv4 that a description names."""
    lines = [line for line in text.splitlines() if line.startswith("c=") and not line.startswith("c=IN IP6 ")]
    return [address_of(line.split()[-1].partition("/")[0]) for line in lines]


def is_public(ip):
    return ip.is_global and not ip.is_multicast


def is_own(ip):
    """Whether this machine has an address."""
    with contextlib.suppress(OSError), socket.socket(socket.AF_INET, socket.SOCK_DGRAM) as one:
        one.bind((str(ip), 0))
        return not ip.is_multicast and ip != HOLD
    return False


def address_of(ip):
    try:
        return ipaddress.IPv4Address(ip)
    except ValueError:
        raise Refused("This gateway has IPv4 alone: your program names no such address.", 406) from None


def without_others(text):
    """A description without the further addresses that it names."""
    return "".join(line for line in text.splitlines(keepends=True) if not line.startswith(OTHERS))
