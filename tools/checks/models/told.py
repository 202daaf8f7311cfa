"""What crates/x_cases_files tells of a datagram, in the words of its README: its class, and each field that is
read."""

from operators.models.codec import Dropped, read_rtcp, read_rtp
from operators.packets import number


def octets_text(octets):
    return octets.hex() or "-"


def numbers_in(octets, size=4):
    """The whole numbers of so many octets each that stand in some octets."""
    return [number(octets[at : at + size]) for at in range(0, len(octets) // size * size, size)]


def numbers_text(octets):
    return ",".join(map(str, numbers_in(octets))) or "-"


def rtp_text(data):
    p = read_rtp(data)
    extension = f"{p['extension'][:2].hex()}:{octets_text(p['extension'][4:])}" if p["extension"] else "-"
    told = " ".join(f"{name}={p[name]}" for name in ("marker", "pt", "seq", "ts", "ssrc"))
    return (
        f"{told} csrcs={numbers_text(p['csrcs'])} extension={extension} payload={octets_text(p['payload'])} "
        f"padding={p['padding']}"
    )


# Each kind of RTCP packet is told, and written again: its body without padding, null behind texts, and nothing behind
# the named parts.


def blocks_text(body, count):
    told = ""
    for at in range(0, 24 * count, 24):
        ssrc, loss, *rest = numbers_in(body[at : at + 24])
        told += " block=" + "/".join(map(str, [ssrc, loss >> 24, (loss & 0xFFFFFF ^ 0x800000) - 0x800000, *rest]))
    return told


def sender(count, body):
    ssrc, _, _, ts, packets, octets = numbers_in(body[:24])
    told = (
        f"sender ssrc={ssrc} ntp={body[4:12].hex()} rtp={ts} packets={packets} "
        f"octets={octets}{blocks_text(body[24:], count)}"
    )
    return told, body[: 24 + 24 * count]


def receiver(count, body):
    return f"receiver ssrc={number(body[:4])}{blocks_text(body[4:], count)}", body[: 4 + 24 * count]


def chunk_in(body, at):
    """The chunk at a place: its text, its octets as they are written, and the place behind it."""
    told, written = f" chunk={number(body[at : at + 4])}", body[at : at + 4]
    at += 4
    while body[at]:
        end = at + 2 + body[at + 1]
        told += f"/{body[at]}:{octets_text(body[at + 2 : end])}"
        written += body[at:end]
        at = end
    return told, written + bytes(4 - len(written) % 4), at // 4 * 4 + 4


def sdes(count, body):
    at, told, written = 0, "sdes", b""
    for _ in range(count):
        some, more, at = chunk_in(body, at)
        told, written = told + some, written + more
    return told, written


def bye(count, body):
    rest = body[4 * count :]
    text = rest[1 : 1 + rest[0]] if rest else b""
    written = body[: 4 * count] + (rest[:1] + text if rest else b"")
    reason = octets_text(text) if rest else "none"
    return f"bye ssrcs={numbers_text(body[: 4 * count])} reason={reason}", written + bytes(-len(written) % 4)


def app(count, body):
    return f"app subtype={count} ssrc={number(body[:4])} name={body[4:8].hex()} content={octets_text(body[8:])}", body


def nack(_, body):
    words = ",".join(f"{word >> 16}/{word & 0xFFFF:04x}" for word in numbers_in(body[8:]))
    return f"nack sender={number(body[:4])} media={number(body[4:8])} words={words}", body


def pli(_, body):
    return f"pli sender={number(body[:4])} media={number(body[4:8])}", body[:8]


KINDS = {200: sender, 201: receiver, 202: sdes, 203: bye, 204: app}
FEEDBACK = {(205, 1): nack, (206, 1): pli}


def rtcp_text(data):
    told, written = [], b""
    for pt, count, body in read_rtcp(data):
        kind = KINDS.get(pt) or FEEDBACK.get((pt, count))
        some, kept = kind(count, body) if kind else (f"other pt={pt} count={count} body={octets_text(body)}", body)
        told.append(some)
        written += bytes([0x80 | count, pt]) + (len(kept) // 4).to_bytes(2, "big") + kept
    return " | ".join([*told, "again" if written == data else f"written={octets_text(written)}"])


def told_of(data):
    """What is told of a datagram."""
    if len(data) < 2 or data[0] >> 6 != 2:
        return "Neither"
    name, text = ("Rtcp", rtcp_text) if 192 <= data[1] <= 223 else ("Rtp", rtp_text)
    try:
        return f"{name} {text(data)}"
    except Dropped as dropped:
        _, fault, word = str(dropped).split()
        return f"{name} {fault}:{word}"
