"""A phone of a few lines: it asks over UDP, and reads the first line of what it is answered (SIP, RFC 3261)."""

import glob
import shutil

from operators.serving import port_of, udp_socket


def asked(method, user, address, id, body="", seconds=2):
    """The first line of the final answer to a request, None where there is none in time. Its body is an offer."""
    ip, _, port = address.partition(":")
    with udp_socket() as one:
        here = f"127.0.0.1:{port_of(one)}"
        lines = [f"{method} sip:{user}@{address} SIP/2.0", f"Via: SIP/2.0/UDP {here};branch=z9hG4bK{id}"]
        lines += ["From: <sip:test@127.0.0.1>;tag=1", f"To: <sip:{user}@{address}>", f"Call-ID: {id}"]
        lines += [f"CSeq: 1 {method}", "Max-Forwards: 70", f"Contact: <sip:test@{here}>"]
        lines += ["Content-Type: application/sdp", f"Content-Length: {len(body)}", "", body]
        one.settimeout(seconds)
        one.sendto("\r\n".join(lines).encode(), (ip, int(port)))
        try:
            while (first := one.recv(65536).decode().splitlines()[0]).startswith("SIP/2.0 1"):
                pass
            return first
        except OSError:
            return None


def kamailio_lacks():
    """What Kamailio with a script in Python lacks on this machine, by the names of Debian's packages."""
    # A search of all folders below would not end where a link leads back to one of them.
    roots = "/usr/lib*", "/usr/lib*/*", "/usr/local/lib*"
    has_module = any(glob.glob(f"{root}/kamailio/modules/app_python3.so") for root in roots)
    packages = {"kamailio": shutil.which("kamailio"), "kamailio-python3-modules": has_module}
    return " and no ".join(name for name, found in packages.items() if not found)
