"""Whether a bridge runs whose agent doesn't: its machine's kernel says so.

A datagram to a port where no program listens is answered by ICMP (port unreachable), and one to a bridge isn't. So a
port that is silent is a bridge's, if a port of the same address that is closed isn't silent. Where that is silent too,
the machine is gone, or cut off, or lets no ICMP out.
"""

import select
import socket
import time

# How often it is asked, and how many seconds it has for an answer each time.
TIMES, WAITS = 3, 0.2
# A datagram that is none of a call.
OCTET = b"\0"
RUNS, GONE, SILENT = "runs", "gone", "silent"


def seen(bridges):
    """What is seen of bridges: RUNS, GONE or SILENT. They are given by name, as what is known of them."""
    ports = {}
    for one in bridges.values():
        ports |= dict.fromkeys((address_of(one["udp"]), closed(one)), None)
    refused = refusing(ports)
    said = lambda one: GONE if address_of(one["udp"]) in refused else RUNS if closed(one) in refused else SILENT
    return {name: said(one) for name, one in bridges.items()}


def closed(bridge):
    """A port of the bridge's address where nobody listens: an agent has the port of this number by TCP alone."""
    return address_of(bridge["udp"])[0], address_of(bridge["agent"])[1]


def address_of(text):
    host, _, port = text.rpartition("//")[2].rpartition(":")
    return (host, int(port)) if port.isdigit() and int(port) < 65536 else ("", 0)


def refusing(addresses):
    """Those of some UDP addresses at which nobody listens, as their machines say."""
    asked, refused = {}, set()
    for one in addresses:
        if not one[1]:
            continue
        stream = socket.socket(socket.AF_INET, socket.SOCK_DGRAM)
        stream.setblocking(False)
        asked[stream] = one
        try:
            stream.connect(one)
        except OSError:
            del asked[stream]
            stream.close()
    for _ in range(TIMES):
        for stream in list(asked):
            tried(stream.send, OCTET, stream, asked, refused)
        end = time.monotonic() + WAITS
        while asked and (left := end - time.monotonic()) > 0:
            for stream in select.select(asked, [], [], left)[0]:
                tried(stream.recv, 1, stream, asked, refused)
    for stream in asked:
        stream.close()
    return refused


def tried(work, given, stream, asked, refused):
    """Sends or receives. Where that is refused, nobody listens there."""
    try:
        work(given)
    except ConnectionRefusedError:
        refused.add(asked.pop(stream))
        stream.close()
    except OSError:
        # There is no way to it, or nothing has come.
        pass
