"""What ICE needs towards a peer at one known address: a binding request, and the answer to one (RFC 8489, RFC 8445
section 7)."""

import hashlib
import hmac
import ipaddress
import os
import zlib

COOKIE = bytes.fromhex("2112a442")
REQUEST, SUCCESS = 0x0001, 0x0101
# Attributes.
USERNAME, INTEGRITY, XOR_ADDRESS, PRIORITY, USE, FINGERPRINT, CONTROLLING = (
    0x0006, 0x0008, 0x0020, 0x0024, 0x0025, 0x8028, 0x802A
)


def is_request(octets):
    return len(octets) >= 20 and octets[4:8] == COOKIE and octets[:2] == REQUEST.to_bytes(2, "big")


def attribute(kind, value):
    return kind.to_bytes(2, "big") + len(value).to_bytes(2, "big") + value + bytes(-len(value) % 4)


def signed(kind, transaction, said, password):
    """A message with these attributes, its signature by a password and its checksum."""

    def headed(more):
        return kind.to_bytes(2, "big") + (len(said) + more).to_bytes(2, "big") + COOKIE + transaction + said

    said += attribute(INTEGRITY, hmac.new(password.encode(), headed(24), hashlib.sha1).digest())
    return headed(8) + attribute(FINGERPRINT, (zlib.crc32(headed(8)) ^ 0x5354554E).to_bytes(4, "big"))


def binding_request(user, password):
    """A request that chooses the path over which it goes, signed with the peer's password."""
    said = attribute(USERNAME, user.encode()) + attribute(PRIORITY, bytes.fromhex("6e7f1eff"))
    said += attribute(CONTROLLING, os.urandom(8)) + attribute(USE, b"")
    return signed(REQUEST, os.urandom(12), said, password)


def answer(request, source, password):
    """The answer to a request that came from an address, signed with the own password."""
    ip, port = source
    key = int.from_bytes(COOKIE, "big")
    address = (
        b"\x00\x01" + (port ^ key >> 16).to_bytes(2, "big") + (int(ipaddress.IPv4Address(ip)) ^ key).to_bytes(4, "big")
    )
    return signed(SUCCESS, request[8:20], attribute(XOR_ADDRESS, address), password)
