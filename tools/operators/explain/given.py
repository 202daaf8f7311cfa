"""The desk of a capture that begins in mid-call, as a file gives it: the lines of `show`, `groups`, `history` or
`calls`, a file of `tools/bridge keep`, or a trace of the bridge."""

import dataclasses
import re

from operators.captures.notes import BadCapture
from operators.explain.operators import Shown, history_of, is_good, log_of, version_in
from operators.models.desk import Log

# A call in a trace, and a line with a moment.
TRACED, TIMED = re.compile(r"desk ([0-9]{1,2}) (.+)", re.ASCII), re.compile(r"(?:rx|wait|report) ([0-9]{1,20})\b.*")
# The head of a file of `tools/bridge keep`.
KEPT = re.compile(r"# .*\bversion ([0-9]{1,20})\b.*", re.ASCII)


@dataclasses.dataclass(frozen=True)
class Given:
    """The lines of a file: what they say of the desk when a capture begins, and the calls that came later."""

    lines: tuple

    def at(self, moment):
        """The desk at a moment, and later calls as (number, moment, operator, words)."""
        for read in self.by_show, self.by_history, self.by_calls, self.by_keep, self.by_trace:
            found = read(moment)
            if found:
                return found
        raise BadCapture(
            "the desk's file has neither the lines of `show`, `groups`, `history` or `calls`, whose last one is `end "
            "VERSION`, nor those of `tools/bridge keep`, nor of a trace"
        )

    def up_to_end(self):
        """The lines up to the first `end VERSION`, and this version; or None."""
        for at, line in enumerate(self.lines):
            version = version_in(line, "end")
            if version is not None:
                return [one for one in self.lines[:at] if not one.startswith(("ok ", "no "))], version
        return None

    def by_show(self, moment):
        ended = self.up_to_end()
        words = "room", "member", "source", "slot", "sub", "mute", "gain", "pin", "floor"
        if ended and all(line.split(" ")[0] in words for line in ended[0]):
            return Shown(moment, moment, tuple(ended[0]), ended[1], by="a file"), ()
        return None

    def by_history(self, moment):
        ended = self.up_to_end()
        calls = history_of(ended[0]) if ended else None
        return (Shown(moment, moment, (), ended[1], *calls, by="a file"), ()) if calls else None

    def by_calls(self, moment):
        """All calls from the first one on, with moments."""
        ended = self.up_to_end()
        calls = log_of(*ended) if ended else ()
        return made_until(moment, calls, "a file") if calls and calls[0][0] == 1 else None

    def by_keep(self, moment):
        lines, version = self.up_to_end() or (self.lines, None)
        groups = [line for line in lines if not line.startswith("#")]
        if not groups or not all(line.startswith("group ") and is_good(line) for line in groups):
            return None
        log = Log()
        if not all(log.call(line.split(" ")).startswith("ok ") for line in groups):
            raise BadCapture("the groups of the desk's file make no desk")
        versions = [int(found[1]) for found in map(KEPT.fullmatch, self.lines) if found]
        version = versions[0] if versions else version
        return Shown(moment, moment, tuple(log.desk.shown(0)[:-1]), version, by="a file"), ()

    def by_trace(self, moment):
        """A trace has each call behind what was done before it, with moments."""
        calls, now = [], 0
        for line in self.lines:
            timed, traced = TIMED.fullmatch(line), TRACED.fullmatch(line)
            now = int(timed[1]) if timed else now
            if traced and is_good(traced[2]):
                calls.append((len(calls) + 1, now, int(traced[1]), traced[2]))
        if not calls or not any(line.startswith("bridge ") for line in self.lines):
            return None
        return made_until(moment, calls, "a trace")


def made_until(moment, calls, by):
    """The desk that calls had made until a moment, and those that come later: each has its number, its moment, its
    operator and its words."""
    log = Log()
    # They were accepted, whatever the bridge's own SSRC is.
    log.desk.bridge = None
    for _, at, seat, text in calls:
        if at < moment:
            log.call(text.split(" "), seat)
    later = tuple(call for call in calls if call[1] >= moment)
    return Shown(moment, moment, tuple(log.desk.shown(0)[:-1]), log.version, by=by), later


def given_by(text):
    """What a file gives."""
    return Given(tuple(line.strip() for line in text.splitlines() if line.strip()))
