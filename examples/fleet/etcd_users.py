#!/usr/bin/env python3
"""Gives a new etcd its users, before anybody else reaches it.

    etcd_users.py DATA PASSWORD

DATA is the folder of etcd's data, and PASSWORD the file of the password that agents know: 24 characters or more, which
a machine has drawn. etcd runs on loopback meanwhile, and ends. Then it knows two users: `fleet`, who may read and write
the keys of a fleet and no others, and `root`, whose password is drawn here and told nobody. Where DATA has users
already, nothing changes.
"""

import base64
import json
import pathlib
import secrets
import socket
import subprocess
import sys
import time
import urllib.error
import urllib.request

# The keys of a fleet: those below this one.
KEYS = "/confbridge/"
USER = "fleet"
# How many seconds etcd may take to begin, and how many characters a password has at least. What a machine has drawn
# nobody finds by trying, so that etcd may see quickly whether it is right (4 is the least cost that it knows).
PATIENCE, LEAST, COST = 60, 24, 4


def free_port():
    with socket.socket() as one:
        one.bind(("127.0.0.1", 0))
        return one.getsockname()[1]


def packed(text):
    return base64.b64encode(text.encode()).decode()


def asked(url, path, **words):
    """The status of a request, and what is answered."""
    try:
        request = urllib.request.Request(f"{url}/v3/{path}", json.dumps(words).encode(), method="POST")
        with urllib.request.urlopen(request, timeout=10) as said:
            return said.status, said.read()
    except urllib.error.HTTPError as why:
        return why.code, why.read()


def users(password):
    """What etcd is asked, in order."""
    keys = {"key": packed(KEYS), "range_end": packed(KEYS[:-1] + "0")}
    yield "auth/role/add", {"name": "root"}
    yield "auth/user/add", {"name": "root", "password": secrets.token_hex(32)}
    yield "auth/user/grant", {"user": "root", "role": "root"}
    yield "auth/role/add", {"name": USER}
    yield "auth/role/grant", {"name": USER, "perm": {"permType": "READWRITE", **keys}}
    yield "auth/user/add", {"name": USER, "password": password}
    yield "auth/user/grant", {"user": USER, "role": USER}
    yield "auth/enable", {}


def answers(url):
    """Whether etcd answers, and without a user."""
    end = time.monotonic() + PATIENCE
    while time.monotonic() < end:
        try:
            return asked(url, "kv/range", key=packed(KEYS))[0] == 200
        except OSError:
            time.sleep(0.1)
    sys.exit("etcd_users: etcd doesn't answer")


def main():
    if len(sys.argv) != 3:
        sys.exit(__doc__)
    data, password = sys.argv[1], pathlib.Path(sys.argv[2]).read_text().strip()
    if len(password) < LEAST:
        sys.exit(f"etcd_users: a password has {LEAST} characters or more")
    url, peers = (f"http://127.0.0.1:{free_port()}" for _ in range(2))
    words = ["etcd", f"--data-dir={data}", f"--listen-client-urls={url}", f"--advertise-client-urls={url}"]
    words += [f"--listen-peer-urls={peers}", f"--bcrypt-cost={COST}"]
    etcd = subprocess.Popen(words, stdin=subprocess.DEVNULL)
    try:
        for path, given in users(password) if answers(url) else ():
            status, said = asked(url, path, **given)
            # Where an earlier start was cut off, a part is there.
            if status != 200 and b"already exist" not in said:
                sys.exit(f"etcd_users: {path}: {said!r}")
    finally:
        etcd.terminate()
        etcd.wait()


if __name__ == "__main__":
    main()
