"""RTP packets as octets: made, and taken apart."""


def number(octets):
    return int.from_bytes(octets, "big")


def rtp(seq, ts, ssrc, payload, marker=0, pt=100):
    """The octets of an RTP packet; its numbers wrap."""
    return (
        bytes([0x80, marker << 7 | pt])
        + (seq % 65536).to_bytes(2, "big")
        + (ts % 2**32).to_bytes(4, "big")
        + ssrc.to_bytes(4, "big")
        + payload
    )


def is_rtcp(octets):
    return 192 <= octets[1] <= 223


def is_rtp_of(octets, ssrc):
    return not is_rtcp(octets) and ssrc_of(octets) == ssrc


def seq_of(octets):
    return number(octets[2:4])


def ssrc_of(octets):
    return number(octets[8:12])


def payload_of(octets):
    return octets[12 + 4 * (octets[0] & 15) :]


def has_no_gap(packets):
    """Whether there are two packets or more and each has the number after the one before it."""
    numbers = [seq_of(packet) for packet in packets]
    return len(numbers) > 1 and all((b - a) % 65536 == 1 for a, b in zip(numbers, numbers[1:]))


def nack(ssrc, asked, blp=0):
    """A receiver report without blocks, and a NACK for a number of a stream and for those after it that a BLP names."""
    return (
        bytes.fromhex("80c900010000000981cd000300000009")
        + ssrc.to_bytes(4, "big")
        + asked.to_bytes(2, "big")
        + blp.to_bytes(2, "big")
    )


def pli(ssrc):
    """A receiver report without blocks, and a picture loss indication for a stream."""
    return bytes.fromhex("80c900010000000981ce000200000009") + ssrc.to_bytes(4, "big")
