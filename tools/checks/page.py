"""Serves the page's web files as they stand, for who works on them.

A file is read anew for each request, so a change shows once the browser loads the page again. Without --page the desk
is a plain one of the models, with --rooms rooms of --each members: what is pressed is done, and no packet is counted.
With --counts packets of all members are counted, some speak, and a few are in trouble. With --page all but the files
comes from a desk_page that runs, and so from its bridge.
"""

import argparse
import http.client
import re

from checks import standin
from checks.counted import Counts
from operators.shared import fail

NEEDS = "nothing"

TOKEN = re.compile(r'<meta name="desk-token" content="([0-9a-f]{32})">')
# The fields that a request and a response keep.
KEPT = "x-desk-token", "x-desk-person", "x-desk-seen", "content-type"


def address(text):
    host, _, port = text.rpartition(":")
    if not host or not port.isdigit():
        raise argparse.ArgumentTypeError(f"{text} is no address, such as 127.0.0.1:7080")
    return host, int(port)


def options(parser):
    parser.add_argument("--port", type=int, default=8080, help="where it listens, on 127.0.0.1 (%(default)s)")
    parser.add_argument("--page", type=address, metavar="ADDRESS", help="a desk_page that runs, such as 127.0.0.1:7080")
    parser.add_argument("--rooms", type=int, default=2, help="rooms of the plain desk (%(default)s)")
    parser.add_argument("--each", type=int, default=8, help="members of each of its rooms (%(default)s)")
    parser.add_argument("--counts", action="store_true", help="count packets of its members, some of them in trouble")


def asked(page, method, path, body=None, fields=None):
    """The status, the kind and the body of a response of a desk_page."""
    connection = http.client.HTTPConnection(*page, timeout=20)
    try:
        connection.request(method, path, body=body, headers=fields or {})
        response = connection.getresponse()
        return response.status, response.getheader("content-type", "text/plain"), response.read()
    finally:
        connection.close()


def relays_to(page, one):
    """A handler that has the web files of a plain page, and all else of a desk_page."""

    class Handler(standin.handler_of(one)):
        def relay(self, body=None):
            origin = self.headers["Origin"]
            if origin and origin.partition("//")[2] != self.headers["Host"]:
                return self.tell(403, "ForeignOrigin: this page takes nothing from other pages\n")
            fields = {name: self.headers[name] for name in KEPT if self.headers[name]}
            try:
                status, kind, told = asked(page, self.command, self.path, body, fields)
            except OSError as error:
                return self.tell(502, f"Gone: no desk_page is there: {error}\n")
            return self.tell(status, told.decode(), kind.partition(";")[0])

        def stream(self):
            """Hands the events of a desk_page on, as they come."""
            connection = http.client.HTTPConnection(*page, timeout=20)
            try:
                connection.request("GET", "/events")
                response = connection.getresponse()
                self.send_response(response.status)
                self.send_header("Content-Type", response.getheader("content-type", "text/plain"))
                self.end_headers()
                while octets := response.read1(65536):
                    self.wfile.write(octets)
            finally:
                connection.close()

        def do_GET(self):
            if one.file(self.path):
                return self.tell(200, *one.file(self.path))
            return self.stream() if self.path == "/events" else self.relay()

        def do_POST(self):
            return self.relay(self.rfile.read(int(self.headers["Content-Length"])))

    return Handler


def token_of(page):
    """The token that a desk_page takes."""
    try:
        found = TOKEN.search(asked(page, "GET", "/")[2].decode())
    except OSError as error:
        fail(f"no desk_page is at {page[0]}:{page[1]}: {error}")
    return found[1] if found else fail(f"what is at {page[0]}:{page[1]} is no desk_page")


def some_counts(one):
    """Every eleventh member speaks, one is silent, one loses on its way in, and one on its way out."""
    desk = one.log.desk
    sound = [source["ssrc"] for source in desk.sources if source["media"] == "audio"]
    levels = {ssrc: -40.0 + place % 7 * 4 for place, ssrc in enumerate(sound[::11])}
    mixes, last = [member["out_audio"] for member in desk.members], len(desk.members) - 1
    losing, reports = {sound[last // 2]: 0.11}, {mixes[last // 3]: (0.097, 41, 280)}
    return Counts(one, silent=[sound[last]], losing=losing, levels=levels, reports=reports)


def run(args):
    one = standin.Standin()
    if args.page:
        one.token = token_of(args.page)
    else:
        standin.fill(one, args.rooms, args.each)
        one.counted = some_counts(one).told if args.counts else None
    server = standin.serve(one, args.port, relays_to(args.page, one) if args.page else None)
    print(f"http://127.0.0.1:{server.server_port}/", flush=True)
    server.thread.join()
    return 0
