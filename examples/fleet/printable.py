"""What others say, as a terminal may show it."""


def printable(text):
    """A text of the octets 32 to 126 alone: any other character is written out, as `\\x1b`."""
    return "".join(one if " " <= one <= "~" else one.encode("unicode_escape").decode() for one in text)
