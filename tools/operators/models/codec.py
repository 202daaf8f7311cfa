"""What the codecs read: RTP packets and RTCP compounds, or the first fault of each."""

from operators.packets import number

RTP_FAULTS = {1: "Short", 2: "Version", 3: "Csrc", 4: "Extension", 5: "Padding"}
RTCP_FAULTS = {1: "Short", 2: "Version", 3: "First", 4: "Length", 5: "Padding", 6: "Body"}


class Dropped(Exception):
    """What stands after `dropped`."""


def rtp_fault(fault):
    return Dropped(f"rtp {fault} {RTP_FAULTS[fault]}")


def rtcp_fault(fault):
    return Dropped(f"rtcp {fault} {RTCP_FAULTS[fault]}")


def read_rtp(d):
    """The fields of an RTP packet (RFC 3550 section 5.1)."""
    if len(d) < 12:
        raise rtp_fault(1)
    if d[0] >> 6 != 2:
        raise rtp_fault(2)
    at = 12 + 4 * (d[0] & 15)
    csrcs, extension, padding = d[12:at], None, 0
    if len(d) < at:
        raise rtp_fault(3)
    if d[0] & 16:
        if len(d) < at + 4 or len(d) < at + 4 + 4 * number(d[at + 2 : at + 4]):
            raise rtp_fault(4)
        extension = d[at : at + 4 + 4 * number(d[at + 2 : at + 4])]
        at += len(extension)
    if d[0] & 32:
        padding = d[-1]
        if not 1 <= padding <= len(d) - at:
            raise rtp_fault(5)
    fields = dict(marker=d[1] >> 7, pt=d[1] & 127, seq=number(d[2:4]), ts=number(d[4:8]), ssrc=number(d[8:12]))
    return dict(fields, csrcs=csrcs, extension=extension, payload=d[at : len(d) - padding], padding=padding)


def after_items(body, at):
    """The place after the items of an SDES chunk, or None where they aren't whole (RFC 3550 section 6.5)."""
    while at < len(body):
        if body[at] == 0:
            return at // 4 * 4 + 4
        if at + 2 > len(body) or at + 2 + body[at + 1] > len(body):
            return None
        at += 2 + body[at + 1]
    return None


def has_whole_chunks(body, count):
    """Whether so many SDES chunks stand in a body."""
    at = 0
    for _ in range(count):
        at = after_items(body, at + 4)
        if at is None or at > len(body):
            return False
    return True


def is_whole(pt, count, body):
    """Whether the body of an RTCP packet holds what its type and count say."""
    if pt == 203:
        rest = body[4 * count :]
        return len(body) >= 4 * count and (not rest or len(rest) >= 1 + rest[0])
    if pt == 202:
        return has_whole_chunks(body, count)
    least = {200: 24 + 24 * count, 201: 4 + 24 * count, 204: 8}.get(pt, 0)
    if (pt, count) in ((205, 1), (206, 1)):
        least = 12 if pt == 205 else 8
    return len(body) >= least


def without_padding(body, is_last):
    """The body of a padded packet without its padding."""
    padding = body[-1] if body else 0
    if not is_last or padding == 0 or padding % 4 or padding > len(body):
        raise rtcp_fault(5)
    return body[: len(body) - padding]


def read_rtcp(d):
    """The packets of a compound as (type, count, body) (RFC 3550 section 6)."""
    packets, at = [], 0
    if len(d) < 4:
        raise rtcp_fault(1)
    while at < len(d):
        if len(d) - at < 4:
            raise rtcp_fault(4)
        if d[at] >> 6 != 2:
            raise rtcp_fault(2)
        count, pt = d[at] & 31, d[at + 1]
        if at == 0 and pt not in (200, 201):
            raise rtcp_fault(3)
        end = at + 4 + 4 * number(d[at + 2 : at + 4])
        if end > len(d):
            raise rtcp_fault(4)
        body = d[at + 4 : end]
        if d[at] & 32:
            body = without_padding(body, end == len(d))
        if not is_whole(pt, count, body):
            raise rtcp_fault(6)
        packets.append((pt, count, body))
        at = end
    return packets


def nack_words(numbers):
    """The words of a NACK for these numbers (RFC 4585 section 6.2.1)."""
    words = []
    for n in numbers:
        if words and 1 <= (n - words[-1][0]) % 65536 <= 16:
            words[-1][1] |= 1 << (n - words[-1][0]) % 65536 - 1
        else:
            words.append([n % 65536, 0])
    return words


def nack_numbers(words):
    """The numbers that the words of a NACK ask for, each once."""
    asked = []
    for at in range(0, len(words) - 3, 4):
        pid, blp = number(words[at : at + 2]), number(words[at + 2 : at + 4])
        asked += [pid] + [(pid + i) % 65536 for i in range(1, 17) if blp >> i - 1 & 1]
    return list(dict.fromkeys(asked))
