"""What passes a bridge in the text format of Prometheus, by HTTP."""

import http.server
import threading

from operators.explain.senders import AUDIO

HELP = {
    "confbridge_desk_known": ("gauge", "Whether the desk is known"),
    "confbridge_desk_version": ("gauge", "The version of the desk"),
    "confbridge_source_packets_total": ("counter", "RTP packets that came of a source"),
    "confbridge_source_lost_packets": ("gauge", "Packets of a source that are missing by their numbers"),
    "confbridge_source_jitter_seconds": ("gauge", "Interarrival jitter of a source (RFC 3550)"),
    "confbridge_source_level_dbfs": ("gauge", "Mean level of a source's sound"),
    "confbridge_source_last_seconds": ("gauge", "When the last packet of a source came, since 1970"),
    "confbridge_datagrams_total": ("counter", "Datagrams of a source by what became of them"),
    "confbridge_unknown_left_out_total": ("counter", "Datagrams of further unknown senders, of which so many are kept"),
    "confbridge_bridge_reports_lost_ratio": ("gauge", "Share of a source that the bridge's last report calls lost"),
    "confbridge_stream_packets_total": ("counter", "RTP packets that went to a receiver"),
    "confbridge_receiver_reports_lost_ratio": ("gauge", "Share of a stream that its receiver's last report calls lost"),
}


def labelled(**labels):
    """Labels with their values escaped."""
    return "{" + ",".join(f'{name}="{str(value).translate(ESCAPES)}"' for name, value in labels.items()) + "}"


ESCAPES = str.maketrans({"\\": r"\\", '"': r"\"", "\n": r"\n"})


def samples(seen):
    """Each sample as (name, labels, value)."""
    yield "confbridge_desk_known", "", int(seen.is_known)
    if seen.is_known:
        yield "confbridge_desk_version", "", seen.judge.log.version
    yield "confbridge_unknown_left_out_total", "", seen.left_out
    for source in seen.senders.sources.values():
        member = seen.member_at(source.address)
        names = dict(member="" if member is None else member, address=source.address, ssrc=source.ssrc, type=source.pt)
        labels = labelled(**names)
        yield "confbridge_source_packets_total", labels, source.packets
        yield "confbridge_source_lost_packets", labels, source.lost()
        yield "confbridge_source_jitter_seconds", labels, round(source.jitter_ms() / 1000, 6)
        yield "confbridge_source_last_seconds", labels, round(source.last / 1e9, 3)
        if source.pt in AUDIO and source.power:
            yield "confbridge_source_level_dbfs", labels, round(source.level(), 1)
        for outcome, count in source.outcomes.items():
            yield "confbridge_datagrams_total", labelled(**names, outcome=outcome), count
    for (address, ssrc), said in seen.by_bridge.items():
        yield "confbridge_bridge_reports_lost_ratio", labelled(address=address, ssrc=ssrc), round(said.fraction, 4)
    for (address, out), (count, _) in seen.streams.items():
        yield "confbridge_stream_packets_total", labelled(address=address, ssrc=out), count
    for (address, out), said in seen.by_receivers.items():
        yield "confbridge_receiver_reports_lost_ratio", labelled(address=address, ssrc=out), round(said.fraction, 4)


def text_of(seen):
    """All samples, those of one name together."""
    found = {}
    for name, labels, value in samples(seen):
        found.setdefault(name, []).append(f"{name}{labels} {value}\n")
    return "".join(
        f"# HELP {name} {HELP[name][1]}\n# TYPE {name} {HELP[name][0]}\n" + "".join(lines)
        for name, lines in found.items()
    )


def serve(address, seen, lock):
    """Answers GET /metrics at an address, in a thread. The server."""

    class Handler(http.server.BaseHTTPRequestHandler):
        """Answers with the text."""

        def do_GET(self):
            with lock:
                octets = text_of(seen).encode() if self.path == "/metrics" else b"/metrics has the metrics\n"
            self.send_response(200 if self.path == "/metrics" else 404)
            self.send_header("Content-Type", "text/plain; version=0.0.4")
            self.send_header("Content-Length", str(len(octets)))
            self.end_headers()
            self.wfile.write(octets)

        def log_message(self, *_args):
            pass

    host, _, port = address.rpartition(":")
    server = http.server.ThreadingHTTPServer((host, int(port)), Handler)
    threading.Thread(target=server.serve_forever, daemon=True).start()
    return server
