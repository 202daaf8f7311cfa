"""A script, or the text of a trace, in the place of a capture: what was done is known line by line, so that nothing has
to be read off the wire, and what the models send counts as sent."""

import re

from operators.captures.notes import BadCapture, Notes
from operators.explain.comparing import Streams
from operators.explain.events import CALL, REPORT, RX, TICK, Event
from operators.explain.explaining import Explained
from operators.explain.operators import Call
from operators.explain.quick import QuickBridge
from operators.explain.running import Run
from operators.explain.wire import Datagram, Wire

# How a script or a trace begins, a line with a moment, and a tick of a trace's first lane.
BEGINS = re.compile(rb"#|lane [0-9]+ |(bridge|desk|rx|tick|wait|report|item) ")
TIMED, TICKED = re.compile(r"(?:rx|tick|wait|report) ([0-9]+)\b"), re.compile(r"lane 0 item (tick [0-9]+)")
# The lines that send something, with the place of the address among their words.
SENT = {"tx": 3, "re": 3, "ct": 3, "up": 1}


def is_script(octets):
    """Whether what begins with these octets is a script or a trace."""
    return BEGINS.match(octets) is not None


def lines_of(text):
    """The lines of a script. Of a trace these are the receive side's, and the ticks that its first lane was given, by
    their moments: each speaker tells its own in order."""
    lines, moment = [], 0
    for line in text.splitlines():
        tick = TICKED.fullmatch(line)
        line = tick[1] if tick else line
        if line.strip() and not line.startswith(("#", "lane ", "lost")):
            timed = TIMED.match(line)
            at = int(timed[1]) if timed else moment
            moment = moment if tick else at
            lines.append((at, line))
    is_trace = re.search("^lane [0-9]+ ", text, re.M)
    return [line for _, line in (sorted(lines, key=lambda one: one[0]) if is_trace else lines)]


class Script:
    """What a script does: its wire as the models make it, its calls, and an event for each line."""

    def __init__(self, text):
        self.lines, self.wire, self.calls, self.events, self.places = lines_of(text), Wire(Notes()), [], [], {}
        told = next((line.split(" ") for line in self.lines if line.startswith("bridge ")), ["bridge", "1", "bridge"])
        self.speaker, self.wire.pauses = (int(told[1]), told[2]), []
        moments = [int(found[1]) for found in map(TIMED.match, self.lines) if found]
        self.wire.begin = self.wire.zero = self.moment = min(moments, default=0)
        self.wire.end, self.model = max(moments, default=0), QuickBridge()
        self.model.answer(f"bridge {self.speaker[0]} {self.speaker[1]} renew")
        for number, line in enumerate(self.lines, 1):
            try:
                self.take(line, line.split(" "))
            except (ValueError, IndexError, KeyError) as why:
                raise BadCapture(f"the models don't know line {number} of its script: {line[:80]}") from why
        self.wire.out.sort(key=lambda one: one.moment)

    def take(self, line, words):
        """Gives a line to the model, and keeps what happened."""
        if words[0] == "bridge":
            return
        timed = TIMED.match(line)
        self.moment = int(timed[1]) if timed else self.moment
        said, (kind, what) = self.model.answer(line), (REPORT, None)
        if words[0] == "rx":
            kind, what = RX, Datagram(self.moment, words[2], bytes.fromhex(words[3]))
            self.wire.into.append(what)
        elif words[0] == "desk":
            number = int(said[0].split(" ")[1]) if said[0].startswith("ok ") else 0
            call = Call(self.moment, "", " ".join(words[2:]), int(words[1]), said[0], self.moment, number, self.moment)
            kind, what = CALL, call
            self.calls.append(call)
        elif words[0] == "tick":
            kind, what = TICK, len(self.events)
        self.events.append((line, Event(kind, self.moment, self.moment, what)))
        self.send(said, what if kind == TICK else None)

    def send(self, said, tick):
        """Puts what the model sends on the wire."""
        for words in (one.split(" ") for one in said):
            if words[0] in SENT:
                octets = bytes.fromhex(words[-1])
                self.wire.out.append(Datagram(self.moment, words[SENT[words[0]]], octets))
                if words[0] == "tx":
                    self.places[int(words[4]), int(words[5]), self.moment] = tick

    def explained(self):
        streams = Streams(self.wire, self.places)
        run = Run(self.wire, streams, self.speaker)
        for line, event in self.events:
            if event.kind in (RX, CALL):
                run.carry_out(event)
            else:
                run.compare(event, run.say(line, event), event.what)
        return Explained(self.wire, self.calls, streams, None, run, self.wire.begin)


def explain_script(text):
    """Explains a script or a trace."""
    return Script(text).explained()
