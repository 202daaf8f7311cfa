"""The secret of a fleet (examples/fleet): by it agents know each other, and those who may ask them.

Each request is signed (HMAC-SHA256, RFC 2104), and the secret stays on the machine. So neither who reads the network
learns it, nor who writes to etcd, which tells an agent where the others are.
"""

import hmac
import os
import pathlib
import stat
import time
import urllib.parse
import urllib.request

# A secret has at least so many octets.
LEAST = 32


def secret_in(path):
    """The secret in a file. Where the variable FLEET_SECRET is set, it names that file."""
    path = pathlib.Path(os.environ.get("FLEET_SECRET", path))
    secret = path.read_bytes().strip()
    if stat.S_IMODE(path.stat().st_mode) & 0o007:
        raise ValueError(f"{path}: others may read the secret: chmod 640 it")
    if len(secret) < LEAST:
        raise ValueError(f"{path}: a secret has {LEAST} octets or more")
    return secret


def signature(secret, method, host, path, moment, body):
    """What only who has the secret can say of a request to a host (`10.0.0.5:8095`) at a moment (in nanoseconds)."""
    return hmac.new(secret, f"{method} {path}\n{host}\n{moment}\n".encode() + body, "sha256").hexdigest()


def signed(secret, url, body=None):
    """A request that is signed: with a body it is a POST."""
    parts, method, moment = urllib.parse.urlsplit(url), "GET" if body is None else "POST", time.time_ns()
    path = f"{parts.path or '/'}{'?' if parts.query else ''}{parts.query}"
    word = signature(secret, method, parts.netloc, path, moment, body or b"")
    return urllib.request.Request(url, body, {"Authorization": f"Fleet {moment} {word}"}, method=method)
