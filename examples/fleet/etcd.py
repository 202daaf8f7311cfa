"""etcd, asked by its JSON gateway: values by key, changes that happen as a whole or not at all, leases, and a watch."""

import base64
import http.client
import json
import socket
import threading
import urllib.parse

from printable import printable
from refused import Refused

GONE = "The fleet's memory (etcd) doesn't answer. Try again in a minute."
# What a change says of a key whose value may be any.
ANY = None


# How many seconds an answer may take, where the settings don't say.
PATIENCE = 2
# How many seconds it takes at most to see whether a password is right, which is meant to be slow.
SEEING = 20
# How many octets of an answer are read, and of one line of a watch.
MOST_OCTETS = 64 * 2**20
# How etcd says that a token is too old, or was given before it was started anew.
OLD_TOKENS = "invalid auth token", "etcdserver: revision of auth store is old"
# The statuses of a server that is there, but has no others to agree with.
ALONE = 503, 504
# So many connections wait for the next request.
IDLE = 8
# When the system finds that nobody is at the other end of a watch: after so many seconds without an octet it asks, again
# after each further second, and gives up after so many times.
SILENT, TIMES = 2, 3


def packed(text):
    return base64.b64encode(text.encode()).decode()


def unpacked(text):
    return base64.b64decode(text).decode("ascii", "backslashreplace")


def above(folder):
    """The end of the keys of a folder: those from "/rooms/" up to "/rooms0", since 0 follows the slash."""
    return folder[:-1] + "0"


def value_of(one):
    """The value of a key, None where it is no JSON. Whoever may write to etcd has put it."""
    try:
        return json.loads(base64.b64decode(one.get("value", "")))
    except (ValueError, RecursionError):
        return None


def put_value(one):
    """The value of a key that is there: False where it is none of an agent's."""
    value = value_of(one)
    return False if value is None else value


def revision_of(said):
    return int(said["header"]["revision"])


class Ended(OSError):
    """A watch that etcd has ended: what it was to begin with is compacted, or the server has lost the others."""


class Etcd:
    """The servers of one etcd, of which the first that answers is asked. Values are those of JSON.

    `user` is a name and a password, or None where etcd has no users. A server that takes longer than `patience`, in
    seconds, is taken for one that doesn't answer; five times that long where it is asked for much.
    """

    def __init__(self, servers, user=None, patience=PATIENCE):
        self.servers, self.user, self.token, self.lock = list(servers), user, None, threading.Lock()
        self.patience = patience
        # Connections that wait for a request, by their server. `idle` has a lock of its own: a password takes long.
        self.idle, self.free = {}, threading.Lock()

    def ask(self, path, times=1, **words):
        """What is answered, by a server that answers before its time is over."""
        for _ in range(len(self.servers)):
            server = self.servers[0]
            try:
                return self.asked(server, path, times * self.patience, words)
            except (OSError, ValueError, KeyError, http.client.HTTPException):
                self.passes_over(server)
        raise Refused(GONE)

    def passes_over(self, server):
        """The next server is asked, unless somebody has seen to that."""
        with self.free:
            if self.servers[0] == server:
                self.servers.append(self.servers.pop(0))

    def asked(self, server, path, seconds, words):
        """What a server answers. A token that is too old is renewed once."""
        token = self.renewed(server, None) if self.user else None
        try:
            return self.posted(server, path, seconds, words, token)
        except Refused as why:
            if not token or not any(one in str(why) for one in OLD_TOKENS):
                raise
        return self.posted(server, path, seconds, words, self.renewed(server, token))

    def renewed(self, server, old):
        """A token that isn't the old one. All threads have one."""
        with self.lock:
            if self.token == old:
                name, password = self.user
                said = self.posted(server, "auth/authenticate", SEEING, {"name": name, "password": password}, None)
                self.token = said["token"]
            return self.token

    def posted(self, server, path, seconds, words, token):
        with self.free:
            waiting = self.idle.setdefault(server, [])
            connection = waiting.pop() if waiting else None
        if connection:
            try:
                return self.exchanged(server, connection, path, seconds, words, token)
            except (ConnectionError, http.client.HTTPException):
                # It was closed while it waited. What is asked twice is compared twice, so nothing is changed twice.
                pass
        return self.exchanged(server, connected(server, seconds), path, seconds, words, token)

    def exchanged(self, server, connection, path, seconds, words, token):
        """Asks by a connection, which then waits for the next request."""
        try:
            if connection.sock:
                connection.sock.settimeout(seconds)
            connection.request("POST", f"/v3/{path}", json.dumps(words), {"Authorization": token} if token else {})
            answer = connection.getresponse()
            said, is_whole = answer.read(MOST_OCTETS), answer.isclosed()
        except BaseException:
            connection.close()
            raise
        with self.free:
            waiting = self.idle.setdefault(server, [])
            if is_whole and not answer.will_close and len(waiting) < IDLE:
                waiting.append(connection)
            else:
                connection.close()
        if answer.status in ALONE:
            raise OSError(f"status {answer.status}")
        if answer.status != 200:
            raise Refused(refusal_of(said))
        return json.loads(said)

    def read_at(self, folder):
        """The values below a folder such as "/rooms/", each with its revision, by the rest of its key; and the revision
        of the whole. What is no JSON is False."""
        said = self.ask("kv/range", 5, key=packed(folder), range_end=packed(above(folder)))
        found = {unpacked(one["key"])[len(folder) :]: one for one in said.get("kvs", [])}
        return {key: (put_value(one), int(one["mod_revision"])) for key, one in found.items()}, revision_of(said)

    def read(self, folder):
        return self.read_at(folder)[0]

    def watched(self, folder, revision, began):
        """What changes below a folder from a revision on, as it happens: lists of keys without the folder, values (None
        for one that is removed), and revisions. `began` is given the socket, so that others may end the watch."""
        server = self.servers[0]
        try:
            token = self.renewed(server, None) if self.user else None
            connection = connected(server, 10)
            stream = connection.sock
            began(stream)
            words = {"key": packed(folder), "range_end": packed(above(folder)), "start_revision": str(revision)}
            # A server that has lost the others says so, and goes on telling nothing otherwise.
            headers = {"Grpc-Metadata-hasleader": "true"} | ({"Authorization": token} if token else {})
            connection.request("POST", "/v3/watch", json.dumps({"create_request": words}), headers)
            answer = connection.getresponse()
            stream.settimeout(None)
            while line := answer.readline(MOST_OCTETS):
                yield self.told(folder, json.loads(line), token)
            raise Ended("the watch has ended")
        except (ValueError, KeyError, http.client.HTTPException) as why:
            raise OSError(str(why)) from None
        except OSError:
            self.passes_over(server)
            raise

    def told(self, folder, said, token):
        """The changes of a line of a watch."""
        result = said.get("result", {})
        if "error" in said or result.get("canceled"):
            words = str(said.get("error") or result.get("cancel_reason") or "its revision is compacted")
            if any(one in words for one in OLD_TOKENS) or "permission denied" in words:
                with self.lock:
                    self.token = None if self.token == token else self.token
            raise Ended(printable(words[:200]))
        changes = [(one.get("type"), one["kv"]) for one in result.get("events", [])]
        return [
            (unpacked(kv["key"])[len(folder) :], None if kind == "DELETE" else put_value(kv), int(kv["mod_revision"]))
            for kind, kv in changes
        ]

    def value(self, key):
        """The value of a key and its revision: None and 0 where there is none."""
        found = self.ask("kv/range", key=packed(key)).get("kvs")
        return (value_of(found[0]), int(found[0]["mod_revision"])) if found else (None, 0)

    def folders(self, keys):
        """For each key, its value (None where there is none) and those of the keys in its folder, by their order."""
        asked = []
        for key in keys:
            asked.append({"request_range": {"key": packed(key)}})
            asked.append({"request_range": {"key": packed(f"{key}/"), "range_end": packed(above(f"{key}/"))}})
        said = self.ask("kv/txn", 5, success=asked)["responses"] if asked else []
        found = [list(map(value_of, one["response_range"].get("kvs", []))) for one in said]
        return [(own[0] if own else None, below) for own, below in zip(found[::2], found[1::2])]

    def swap(self, changes, lease=None, only_if=()):
        """Gives keys new values, None to remove one, if each has the revision that the change names, and if other keys
        have the revisions of `only_if`. A key that ends in a slash is a folder, of which all is removed. The revision
        of the change, and 0 where it wasn't made."""
        compared, done = [], []
        for key, revision in only_if:
            compared.append({"key": packed(key), "target": "MOD", "mod_revision": str(revision)})
        for key, value, revision in changes:
            if revision is not ANY:
                compared.append({"key": packed(key), "target": "MOD", "mod_revision": str(revision)})
            if value is None:
                end = {"range_end": packed(above(key))} if key.endswith("/") else {}
                done.append({"request_delete_range": {"key": packed(key)} | end})
            else:
                put = {"key": packed(key), "value": packed(json.dumps(value))}
                done.append({"request_put": put | ({"lease": lease} if lease else {})})
        said = self.ask("kv/txn", compare=compared, success=done)
        return revision_of(said) if said.get("succeeded", False) else 0

    def lease(self, seconds):
        """A lease: what is put under it goes, unless it is renewed every so many seconds."""
        return self.ask("lease/grant", TTL=str(seconds))["ID"]

    def renew(self, lease, seconds, turn):
        """Whether the lease still was there, by an answer that may take so long. Who has waited for some answers asks
        another server, by its `turn`."""
        try:
            said = self.asked(self.servers[turn % len(self.servers)], "lease/keepalive", seconds, {"ID": lease})
        except (OSError, ValueError, KeyError, http.client.HTTPException):
            raise Refused(GONE) from None
        return int(said.get("result", {}).get("TTL", 0)) > 0


def connected(server, seconds):
    """A connection to a server. Nobody waits for what is written, and the system finds out where nobody is there."""
    parts = urllib.parse.urlsplit(server)
    kind = http.client.HTTPSConnection if parts.scheme == "https" else http.client.HTTPConnection
    connection = kind(parts.netloc, timeout=seconds)
    connection.connect()
    options = [(socket.SOL_SOCKET, socket.SO_KEEPALIVE, 1), (socket.IPPROTO_TCP, socket.TCP_NODELAY, 1)]
    options += [(socket.IPPROTO_TCP, socket.TCP_KEEPIDLE, SILENT), (socket.IPPROTO_TCP, socket.TCP_KEEPINTVL, 1)]
    options += [(socket.IPPROTO_TCP, socket.TCP_KEEPCNT, TIMES)]
    for level, name, value in options:
        connection.sock.setsockopt(level, name, value)
    return connection


def refusal_of(said):
    words = printable(said[:200].decode("ascii", "backslashreplace"))
    return f"The fleet's memory (etcd) refuses: {words}"
