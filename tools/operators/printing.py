"""What a terminal is given: characters that print, whatever octets a capture, a row or a name holds."""


def printable(text):
    """A text in which each character that doesn't print stands as its escape, but for the ends of lines."""
    if text.isprintable():
        return text
    return "".join(one if one.isprintable() or one == "\n" else escaped(one) for one in text)


def escaped(one):
    """A character as Python writes it: `\\x1b`, `\\u202e`."""
    return one.encode("unicode_escape").decode()


class Printing:
    """A stream of text that gets what prints."""

    def __init__(self, stream):
        self.stream = stream

    def write(self, text):
        self.stream.write(printable(text))
        return len(text)

    def writelines(self, lines):
        for line in lines:
            self.write(line)

    def __getattr__(self, name):
        return getattr(self.stream, name)


def guarded(stream):
    """A stream of this process that gets what prints, if it is there. `tools/bridge` guards both, for all tools."""
    if stream is None:
        return None
    stream.reconfigure(errors="backslashreplace")
    return Printing(stream)
