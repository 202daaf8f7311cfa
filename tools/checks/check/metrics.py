"""Reads what the page's program tells machines: /metrics, /stats, /desk and /history, from a bridge that runs.

Each line of /metrics has the text format of Prometheus: a family has its HELP and its TYPE once, before its samples,
which stand together, and no two of them have the same labels. What a bridge's own `stats` counts is there, number by
number. A request to send, or one of another host, gets none of it. Where Prometheus is installed (Debian's package
prometheus), one scrapes the page every second, and has the numbers. With --model a stand-in answers in the place of a
bridge, by lines that are fixed, then by none, as where all numbers are 0, and then by a fault, as an older bridge does.
"""

import contextlib
import json
import pathlib
import re
import shutil
import socket
import socketserver
import subprocess
import tempfile
import threading
import time
import urllib.request

from checks.check.page import Page, check, connected, seated, started
from operators.serving import free_port, settings
from operators.shared import add_program_or_build, fail

NEEDS = "a program, and Prometheus for its part; half a minute"

# What a stand-in counts. Words and lines that nobody knows are passed over.
COUNTED = """\
datagrams 1042 octets 180266 accepted
datagrams 3 octets 51 dropped rtp 3 Csrc
source 10.0.0.1:5000 101 packets 1042 octets 180266 late 0 duplicate 1 dropped 2 expected 1043 lost 1 ago 12 jitter 7 \
frames 31 given-up 2 waiting 40 samples - energy - since 7
source 10.0.0.1:5000 201 packets 7 octets 1204 late 2 duplicate 0 dropped 23 expected 9 lost 2 ago 120000 jitter 0 \
frames - given-up - waiting - samples 1120 energy 358400 bad-payload 22 bad-type 8 spent 0 probation 1 jump 0 silent 140
stranger 10.0.0.9:5000 777 type 100 packets 12
left-out sources 0 strangers 5 streams 0 reports 6
stream 501 fraction 64 lost 1 highest 101 8 packets 20 octets 22000 resent 3 jitter 12 round-trip 35
stream 502 fraction 0 lost -2 highest - - packets 1 octets 13 resent 0 jitter 8 round-trip -
stream 9001 fraction - lost - highest - - packets 50 octets 8600 resent 0 jitter - round-trip -
lane 0 items 5012 dropped 4 packets 4010 octets 520112 waited 6 not-ready 1 denied 0 refused 7 unreachable 0 \
too-long 0 other 2 waiting 3
tomorrow 7 of 9
limited nacks 4 blocks 0 plis 1
socket receive-buffer 212992 send-buffer 4194304 drops 15
seats 2 of 4
end
"""
# Samples of these lines, and what they have in /stats.
SAMPLES = {
    'confbridge_datagrams_total{outcome="accepted"}': 1042,
    'confbridge_datagrams_total{outcome="dropped rtp 3 Csrc"}': 3,
    'confbridge_datagram_bytes_total{outcome="accepted"}': 180266,
    'confbridge_source_packets_total{address="10.0.0.1:5000",ssrc="201"}': 7,
    'confbridge_source_last_datagram_age_seconds{address="10.0.0.1:5000",ssrc="201"}': 120,
    'confbridge_source_jitter_seconds{address="10.0.0.1:5000",ssrc="101"}': 0.007,
    'confbridge_source_frames{address="10.0.0.1:5000",ssrc="101"}': 31,
    'confbridge_source_samples_total{address="10.0.0.1:5000",ssrc="201"}': 1120,
    'confbridge_source_energy_total{address="10.0.0.1:5000",ssrc="201"}': 358400,
    'confbridge_source_bad_payload_packets_total{address="10.0.0.1:5000",ssrc="201"}': 22,
    'confbridge_source_probation_packets_total{address="10.0.0.1:5000",ssrc="201"}': 1,
    'confbridge_source_bad_payload_type{address="10.0.0.1:5000",ssrc="201"}': 8,
    'confbridge_source_silent_seconds{address="10.0.0.1:5000",ssrc="201"}': 0.14,
    'confbridge_stranger_packets_total{address="10.0.0.9:5000",ssrc="777"}': 12,
    'confbridge_uncounted_datagrams_total{kind="strangers"}': 5,
    'confbridge_uncounted_datagrams_total{kind="reports"}': 6,
    'confbridge_stream_lost_packets{ssrc="502"}': -2,
    'confbridge_stream_highest_sequence_number{ssrc="501"}': 8,
    'confbridge_stream_resent_packets_total{ssrc="501"}': 3,
    'confbridge_stream_packets_total{ssrc="9001"}': 50,
    'confbridge_stream_jitter_seconds{ssrc="502"}': 0.008,
    'confbridge_stream_round_trip_seconds{ssrc="501"}': 0.035,
    'confbridge_lane_waiting_items{lane="0"}': 3,
    'confbridge_lane_unsent_packets_total{lane="0",cause="refused"}': 7,
    'confbridge_limited_feedback_total{kind="nacks"}': 4,
    "confbridge_socket_receive_buffer_bytes": 212992,
    "confbridge_socket_send_buffer_bytes": 4194304,
    "confbridge_socket_drops_total": 15,
    "confbridge_seats_used": 2,
    "confbridge_seats": 4,
}  # fmt: skip
STATS = [
    ("datagrams", 1, {"datagrams": 3, "octets": 51, "outcome": "dropped rtp 3 Csrc"}),
    ("strangers", 0, {"address": "10.0.0.9:5000", "ssrc": 777, "payload_type": 100, "packets": 12}),
    (
        "streams",
        1,
        {
            "out_ssrc": 502,
            "fraction": 0,
            "lost": -2,
            "highest_ssrc": None,
            "highest": None,
            "packets": 1,
            "octets": 13,
            "resent": 0,
            "jitter_ms": 8,
            "round_trip_ms": None,
        },
    ),
]
# What stands for a line that isn't there: a key of /stats, a metric, and its kinds.
ZEROS = [
    ("left_out", "confbridge_uncounted_datagrams_total", ("sources", "strangers", "streams", "reports")),
    ("limited", "confbridge_limited_feedback_total", ("nacks", "blocks", "plis")),
]
# The format's lines, as https://prometheus.io/docs/instrumenting/exposition_formats has them.
NAME = r"[a-zA-Z_:][a-zA-Z0-9_:]*"
LABEL = r'[a-zA-Z_][a-zA-Z0-9_]*="(?:[^"\\\n]|\\["\\n])*"'
HELP = re.compile(rf"# HELP ({NAME}) ([^\\]+)")
TYPE = re.compile(rf"# TYPE ({NAME}) (counter|gauge)")
SAMPLE = re.compile(rf"({NAME})((?:\{{{LABEL}(?:,{LABEL})*\}})?) (-?[0-9]+(?:e-3)?)")


def options(parser):
    add_program_or_build(parser)
    parser.add_argument(
        "--page", metavar="PROGRAM", help="the page's program (crates/desk_page/out/desk_page if not given)"
    )
    parser.add_argument("--prometheus", default="prometheus", metavar="COMMAND", help="the scraper (%(default)s)")
    parser.add_argument("--model", action="store_true", help="take a stand-in for the bridge")


class Standin(socketserver.ThreadingTCPServer):
    """A bridge that counts what is fixed, or that is too old to count."""

    daemon_threads = allow_reuse_address = True

    def __init__(self):
        super().__init__(("127.0.0.1", 0), Answers)
        self.counted = COUNTED
        threading.Thread(target=self.serve_forever, daemon=True).start()

    def answer(self, line):
        if line == "stats":
            return self.counted
        return "end 0\n" if line.split(" ")[0] in ("show", "history") else "fault 1 3 UnknownWord\n"


class Answers(socketserver.StreamRequestHandler):
    def handle(self):
        for line in self.rfile:
            self.wfile.write(self.server.answer(line.decode().rstrip("\r\n")).encode())


def samples_of(text):
    """The samples of a text, by name and labels. Ends where the text hasn't the format."""
    found, kinds, family = {}, {}, None
    check(text.endswith("\n"), "the metrics don't end with an LF")
    lines = text.splitlines()
    for at, line in enumerate(lines):
        if told := HELP.fullmatch(line):
            family = told[1]
            check(family not in kinds, f"the family {family} comes twice")
            follows = TYPE.fullmatch(lines[at + 1] if at + 1 < len(lines) else "")
            check(follows and follows[1] == family, f"behind the HELP of {family} stands no TYPE of it")
            kinds[family] = follows[2]
        elif not TYPE.fullmatch(line):
            told = SAMPLE.fullmatch(line)
            check(told and told[1] == family, f"`{line}` is no sample of {family}")
            check(told[1] + told[2] not in found, f"`{line}` comes twice")
            found[told[1] + told[2]] = float(told[3])
    for name, kind in kinds.items():
        check((kind == "counter") == name.endswith("_total"), f"{name} is a {kind}")
    return found


def scraped(page):
    """The samples of /metrics."""
    status, response, text = page.ask("GET", "/metrics")
    kind = response.getheader("content-type")
    check(status == 200 and kind == "text/plain; version=0.0.4; charset=utf-8", f"/metrics is {status} {kind}: {text}")
    return samples_of(text)


def counted(page):
    """What /stats has."""
    status, response, text = page.ask("GET", "/stats")
    kind = response.getheader("content-type")
    check(status == 200 and kind == "application/json", f"/stats is {status} {kind}: {text}")
    return json.loads(text)


def is_guarded(page):
    """What is for machines has no effect, and is for none but programs of this machine."""
    for path in "/metrics", "/stats", "/desk", "/history":
        for wanted, method, fields in [
            (405, "POST", {"X-Desk-Token": page.token}),
            (405, "DELETE", {}),
            (403, "GET", {"Host": f"desk.example:{page.port}"}),
            (403, "GET", {"Origin": "http://evil.example"}),
            (200, "GET", {"Host": f"localhost:{page.port}"}),
        ]:
            status = page.ask(method, path, None, fields)[0]
            check(status == wanted, f"{method} {path} with {fields} is {status}, not {wanted}")
        check(page.ask("GET", f"{path}?x=1")[0] == 200, f"{path} with a query string isn't there")


def tells_all(page):
    """What the stand-in counts is there."""
    found, told = scraped(page), counted(page)
    for name, value in SAMPLES.items():
        check(found.get(name) == value, f"{name} is {found.get(name)}, not {value}")
    check('confbridge_stream_highest_sequence_number{ssrc="502"}' not in found, "what isn't known has a sample")
    for key, at, row in STATS:
        check(told[key][at] == row, f"/stats has {told[key]} under {key}")
    check(told["seats"] == {"used": 2, "of": 4} and told["left_out"]["strangers"] == 5, f"/stats has {told['seats']}")


def tells_zeros(page):
    """What a bridge tells by no line, since all its numbers are 0, is 0."""
    found, told = scraped(page), counted(page)
    for key, name, kinds in ZEROS:
        check(told[key] == dict.fromkeys(kinds, 0), f"/stats has {told[key]} under {key}")
        for kind in kinds:
            check(found.get(f'{name}{{kind="{kind}"}}') == 0, f"{name} of {kind} isn't 0")


def by_model(args, folder):
    """A stand-in counts, then it has nothing to count, and then it is an older one that doesn't."""
    one = Standin()
    with running(args, folder, one.server_address[1]) as page:
        is_guarded(page)
        tells_all(page)
        scrapes(args, folder, page.port, SAMPLES)
        one.counted = "end\n"
        tells_zeros(page)
        one.counted = "fault 1 3 UnknownWord\n"
        for path in "/metrics", "/stats":
            status, _, text = page.ask("GET", path)
            check(status == 501 and text.startswith("Unknown"), f"from an older bridge {path} is {status} {text}")
        one.shutdown()
        one.server_close()


def agrees(page, operator):
    """The numbers of `stats`, of /stats and of /metrics are the same, as far as they stand still."""
    lines = [line.split(" ") for line in operator.shown("stats")]
    found, told = scraped(page), counted(page)
    given = {" ".join(line[4:]): int(line[1]) for line in lines if line[0] == "datagrams"}
    for outcome, number in given.items():
        name = f'confbridge_datagrams_total{{outcome="{outcome}"}}'
        check(found.get(name) == number, f"{name} is {found.get(name)}, and the bridge counts {number}")
    check({row["outcome"]: row["datagrams"] for row in told["datagrams"]} == given, "/stats has other datagrams")
    drops = next(line for line in lines if line[0] == "socket")[-1]
    drops = None if drops == "-" else int(drops)
    check(told["socket"]["drops"] == drops, f"/stats has {told['socket']}, and the bridge tells {drops} drops")
    check(found.get("confbridge_socket_drops_total") == drops, f"/metrics hasn't the {drops} drops")
    return {"confbridge_seats_used": told["seats"]["used"], "confbridge_seats": told["seats"]["of"]}


def by_bridge(args, folder):
    """A bridge that runs counts two datagrams."""
    udp, tcp = free_port(socket.SOCK_DGRAM), free_port(socket.SOCK_STREAM)
    bridge = started("confbridge", args.binary, ["serve", settings(folder, udp, tcp)], args.seconds, folder)
    try:
        operator = seated(bridge, tcp)
        for line in "add-room 1", "add-member 10 1 127.0.0.1:6000 pcmu 9001 0 0", "add-source 201 10 audio":
            check(operator.ask(line).startswith("ok "), f"`{line}` is refused")
        with socket.socket(socket.AF_INET, socket.SOCK_DGRAM) as one:
            one.sendto(b"short", ("127.0.0.1", udp))
            one.sendto(bytes([128, 0, 0, 1, 0, 0, 0, 160, 0, 0, 3, 9]) + b"\xff" * 160, ("127.0.0.1", udp))
        time.sleep(1)
        with running(args, folder, tcp) as page:
            is_guarded(page)
            steady = agrees(page, operator)
            check(any(row["ssrc"] == 777 for row in counted(page)["strangers"]), "/stats has no unknown sender")
            scrapes(args, folder, page.port, steady)
            operator.tell("stop")
            bridge.wait(timeout=30)
            for path in "/metrics", "/stats", "/desk", "/history":
                status, _, text = page.ask("GET", path)
                check(status == 502 and text.startswith("Gone"), f"without a bridge {path} is {status} {text}")
    finally:
        if bridge.poll() is None:
            bridge.terminate()
            bridge.wait(timeout=30)


@contextlib.contextmanager
def running(args, folder, port):
    """The page of a bridge at this port, while it runs."""
    listen = free_port(socket.SOCK_STREAM)
    words = ["--bridge", f"127.0.0.1:{port}", "--listen", f"127.0.0.1:{listen}"]
    program = started("desk_page", args.page, words, args.seconds, folder)
    try:
        connected(program, listen).close()
        page = Page(listen, port)
        page.load()
        yield page
    finally:
        program.terminate()
        program.wait(timeout=30)


def asked(port, query):
    """What Prometheus has of a metric, by name and labels."""
    url = f"http://127.0.0.1:{port}/api/v1/query?query={query}"
    with urllib.request.urlopen(url, timeout=5) as reply:
        return json.load(reply)["data"]["result"]


def scrapes(args, folder, page, wanted):
    """A Prometheus scrapes the page at this port, and has these samples."""
    if not shutil.which(args.prometheus):
        print(f"skipped: a Prometheus scrapes the page. There is no command `{args.prometheus}`")
        return
    port, home = free_port(socket.SOCK_STREAM), pathlib.Path(folder) / "prometheus"
    home.mkdir()
    config = home / "prometheus.yml"
    config.write_text(
        "global:\n  scrape_interval: 1s\nscrape_configs:\n- job_name: confbridge\n  static_configs:\n"
        f"  - targets: ['127.0.0.1:{page}']\n"
    )
    words = [f"--config.file={config}", f"--storage.tsdb.path={home}/data", f"--web.listen-address=127.0.0.1:{port}"]
    with (home / "said").open("w") as said:
        program = subprocess.Popen([args.prometheus, *words], stdout=said, stderr=said)
    try:
        has_scraped(program, port, wanted)
    finally:
        program.terminate()
        program.wait(timeout=30)


def has_scraped(program, port, wanted):
    """The target is up, and each metric has the value that is wanted."""
    for _ in range(100):
        check(program.poll() is None, f"prometheus has ended with status {program.returncode}")
        with contextlib.suppress(OSError):
            up = asked(port, "up")
            if up and up[0]["value"][1] == "1":
                break
        time.sleep(0.2)
    else:
        fail("prometheus doesn't get the metrics")
    for name, value in wanted.items():
        metric, _, labels = name.partition("{")
        given = dict(re.findall(r'([a-z_]+)="([^"]*)"', labels))
        found = [one for one in asked(port, metric) if given.items() <= one["metric"].items()]
        values = [float(one["value"][1]) for one in found]
        check(values == [value], f"prometheus has {found} for {name}, not {value}")
    print(f"a Prometheus has {len(wanted)} samples")


def run(args):
    with tempfile.TemporaryDirectory() as folder:
        (by_model if args.model else by_bridge)(args, folder)
    print("what the page's program tells machines, no fault")
    return 0
