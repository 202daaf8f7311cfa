"""What a line of a desk call spells, or its first fault, and what settings a text gives, as docs/FORMATS.md says."""

import re
import tomllib

NUMBER, NAMES = "number", ("pcmu", "l16", "audio", "video")
FAULTS = {
    1: "LineTooLong",
    2: "BadByte",
    3: "UnknownWord",
    4: "MissingWord",
    5: "ExtraWord",
    6: "BadNumber",
    7: "BadAddress",
    8: "BadHex",
}
# What each word behind a command's name is: the greatest number, an address, or one of some words.
U32, U16, U64 = 2**32 - 1, 2**16 - 1, 2**64 - 1
CODEC, KIND, ADDRESS, HEX, CNAME = ("pcmu", "l16"), ("audio", "video"), "address", "hex", "cname"
# A count of lost packets, the clock rate of audio, and pairs of octets; those of samples are bounded by the rate.
LOST, RATE, PAIRS, SAMPLES = "lost", "rate", "pairs", "samples"
COMMANDS = {
    "add-room": [U32, U32],
    "remove-room": [U32],
    "add-member": [U32, U32, ADDRESS, CODEC, U32, U16, U32],
    "remove-member": [U32],
    "move-member": [U32, U32],
    "add-source": [U32, U32, KIND],
    "remove-source": [U32],
    "add-slot": [U32, U32, U32, U16, U32],
    "remove-slot": [U32],
    "subscribe": [U32, U32],
    "unsubscribe": [U32],
    "set-gain": [U32, U32, U32],
    "mute": [U32],
    "unmute": [U32],
    "pin": [U32, U32],
    "unpin": [U32],
    "give-floor": [U32, U32],
    "take-floor": [U32],
}
TURNS = {"undo": [U64], "redo": [U64], "revert": [U64]}
# The first line of a script, without calls and frames.
SCRIPT = {
    "bridge": [U32, CNAME, ("renew",)],
    "rx": [U64, ADDRESS, HEX],
    "wait": [U64, ADDRESS, U32],
    "tick": [U64],
    "report": [U64],
    "show": [],
}
# What a script hands the lane behind the word `item`, without frames.
ITEMS = {
    "audio": [ADDRESS, U32, RATE, U32, SAMPLES],
    "tick": [U64],
    "nack": [ADDRESS, U32, PAIRS],
    "block": [ADDRESS, U32, 255, LOST, U32, U32, U32, U32],
    "pli": [ADDRESS, U32],
    "report": [U64],
    "renew": [],
}
# How many octets a line of a script has at most, and one that begins with `item `.
LINE_LIMIT, ITEM_LIMIT = 2**16, 2**23
# The first words of operators' lines that are no calls.
ALONE = (
    "show", "groups", "history", "calls", "stats", "levels", "lease", "watch", "as", "why", "help", "quit", "stop",
)  # fmt: skip
# The most octets of an operator's name.
NAME_LIMIT = 64
# How many of a command's last words may be left out.
LEFT_OUT = {"add-room": 1, "bridge": 1}


class Fault(Exception):
    """A word's place, from 1, and the number of its fault."""


def number_of(text, most):
    """A number without leading zeros, or None."""
    return int(text) if re.fullmatch("0|[1-9][0-9]*", text, re.A) and int(text) <= most else None


def address_of(text):
    """An address as its four numbers and its port, or None."""
    parts = re.split("[.:]", text)
    if not re.fullmatch(r"[0-9]+\.[0-9]+\.[0-9]+\.[0-9]+:[0-9]+", text, re.A):
        return None
    numbers = [number_of(part, 255) for part in parts[:4]] + [number_of(parts[4], 65535)]
    return None if None in numbers else numbers


def judge(word, kind, place):
    """Raises the fault of a word that has to be of a kind."""
    if kind == ADDRESS:
        if address_of(word) is None:
            raise Fault(place, 7)
    elif kind == HEX:
        if not re.fullmatch("([0-9a-fA-F]{2})+", word, re.A):
            raise Fault(place, 8)
    elif kind in (PAIRS, SAMPLES):
        if not re.fullmatch("([0-9a-fA-F]{4})+", word, re.A):
            raise Fault(place, 8)
    elif kind == LOST:
        size = number_of(word.removeprefix("-"), 2**23)
        if size is None or size == 2**23 and not word.startswith("-"):
            raise Fault(place, 6)
    elif kind == RATE:
        if word not in ("8000", "44100"):
            raise Fault(place, 6)
    elif kind == CNAME:
        if not 1 <= len(word) <= 255:
            raise Fault(place, 3)
    elif isinstance(kind, tuple):
        if word not in kind:
            raise Fault(place, 3)
    elif number_of(word, kind) is None:
        raise Fault(place, 6)


def read_part(words, place, commands):
    """Raises the first fault of a command's words, of which the first stands at a place."""
    if not words:
        raise Fault(place, 4)
    if words[0] not in commands:
        raise Fault(place, 3)
    kinds = commands[words[0]]
    least = len(kinds) - LEFT_OUT.get(words[0], 0)
    for at, kind in enumerate(kinds, 1):
        if at < len(words):
            judge(words[at], kind, place + at)
        elif at <= least:
            raise Fault(place + at, 4)
    if len(words) > 1 + len(kinds):
        raise Fault(place + 1 + len(kinds), 5)


def read_call(words):
    """Raises the first fault of a call's words."""
    if words[:1] != ["group"]:
        return read_part(words, 1, COMMANDS | TURNS)
    place, part = 2, []
    for word in [*words[1:], "/"]:
        if word == "/":
            read_part(part, place, COMMANDS)
            place, part = place + len(part) + 1, []
        else:
            part.append(word)
    return None


def read_alone(words):
    """Raises the first fault of the words of an operator's line that is no call."""
    most = 2 if words[0] in ("history", "calls", "lease", "as", "help") or words[:2] == ["watch", "names"] else 1
    if words[0] == "as" and len(words) < 2:
        raise Fault(2, 4)
    if words[1:]:
        if words[0] in ("history", "calls"):
            judge(words[1], U64, 2)
        elif words[0] == "lease" and words[1] != "off":
            judge(words[1], U32, 2)
        elif words[0] == "as" and not 1 <= len(words[1]) <= NAME_LIMIT:
            raise Fault(2, 3)
        elif words[0] == "help" and words[1] not in (*COMMANDS, *TURNS, "group", *ALONE):
            raise Fault(2, 3)
    if len(words) > most:
        raise Fault(most + 1, 5)


def read_item(words):
    """Raises the first fault of the words of an item, of which the first is word 2 of its line."""
    if words[:1] == ["audio"] and len(words) > 5 and words[3] in ("8000", "44100"):
        read_part([*words[:5], "0000"], 2, ITEMS)
        judge(words[5], PAIRS, 7)
        if len(words[5]) > 4 * (int(words[3]) // 5):
            raise Fault(7, 8)
    read_part(words, 2, ITEMS)


def read_script_line(words):
    """Raises the first fault of the words of a script's first line."""
    if words[0] == "item":
        read_item(words[1:])
        return
    if words[0] != "desk":
        read_part(words, 1, SCRIPT)
        return
    if len(words) < 2:
        raise Fault(2, 4)
    judge(words[1], 15, 2)
    try:
        read_call(words[2:])
    except Fault as fault:
        raise Fault(fault.args[0] + 2, fault.args[1]) from None


def fault_of_script_line(line):
    """What a script tells of its first line (bytes, without LF), where that has a fault. Frames aren't judged."""
    line = line.removesuffix(b"\r")
    if len(line) > (ITEM_LIMIT if line.startswith(b"item ") else LINE_LIMIT):
        return "line 1 word 0: 1 LineTooLong"
    if any(not 32 <= octet <= 126 for octet in line):
        return "line 1 word 0: 2 BadByte"
    if not line or line.startswith(b"#"):
        return None
    try:
        read_script_line(line.decode().split(" "))
    except Fault as fault:
        place, number = fault.args
        return f"line 1 word {place}: {number} {FAULTS[number]}"
    return None


def fault_of_line(line):
    """What an operator is told of the fault of a line (bytes, without LF), or None where it is a call or a word of its
    own."""
    if any(not 32 <= octet <= 126 for octet in line):
        return "fault 0 2 BadByte"
    words = line.decode().split(" ") if line else []
    try:
        if words and words[0] in ALONE:
            read_alone(words)
        else:
            read_call(words)
    except Fault as fault:
        place, number = fault.args
        return f"fault {place} {number} {FAULTS[number]}"
    return None


# Settings


def is_small(value):
    """Whether each whole number in a TOML value has at most 64 bits."""
    if isinstance(value, dict):
        return all(is_small(it) for it in value.values())
    if isinstance(value, list):
        return all(is_small(it) for it in value)
    return isinstance(value, bool) or not isinstance(value, int) or -(2**63) <= value < 2**63


def good_address(value, is_loopback):
    parts = address_of(value) if isinstance(value, str) else None
    return parts is not None and (not is_loopback or parts[0] == 127)


def good_number(value, least, most):
    return isinstance(value, int) and not isinstance(value, bool) and least <= value <= most


def good_name(value):
    return isinstance(value, str) and 1 <= len(value) <= 255 and all(32 <= ord(it) <= 126 for it in value)


def good_buffer(value):
    return good_number(value, 4_096, 1_000_000_000)


# How many octets a buffer is asked to have where the settings don't say.
USUAL_BUFFER = 4_194_304
# What stands for the address of a trace where there is none.
NO_TRACE = object()
KEYS = {
    "udp": (None, lambda value: good_address(value, False)),
    "tcp": (None, lambda value: good_address(value, True)),
    "lanes": (1, lambda value: good_number(value, 1, 16)),
    "operators": (1, lambda value: good_number(value, 1, 16)),
    "report_ms": (5_000, lambda value: good_number(value, 1_000, 5_000)),
    "bridge_ssrc": (1, lambda value: good_number(value, 0, U32)),
    "cname": ("bridge", good_name),
    "trace": (NO_TRACE, lambda value: good_address(value, True)),
    "receive_buffer": (USUAL_BUFFER, good_buffer),
    "send_buffer": (USUAL_BUFFER, good_buffer),
}


def settings_of(text):
    """What crates/x_cases_front prints of the settings of a text."""
    try:
        table = tomllib.loads(text)
    except (tomllib.TOMLDecodeError, RecursionError):
        return "1 BadToml"
    if not is_small(table):
        return "1 BadToml"
    found = {}
    for key, (usual, is_good) in KEYS.items():
        if key not in table and usual is None:
            return f"2 MissingKey {key}"
        found[key] = table.get(key, usual)
        if found[key] is not NO_TRACE and not is_good(found[key]):
            return f"3 BadValue {key}"
        if key == "trace" and found[key] is not NO_TRACE and (found["operators"] < 2 or " " in found["cname"]):
            return "3 BadValue trace"
    others = sorted((key.encode(), key) for key in table if key not in KEYS)
    if others:
        return f"4 UnknownKey {others[0][1]}"
    shown = "udp {udp} and tcp {tcp} {lanes} {operators} {report_ms} {bridge_ssrc} {cname}".format(**found)
    trace = "" if found["trace"] is NO_TRACE else f" trace {found['trace']}"
    sizes = found["receive_buffer"], found["send_buffer"]
    buffers = "" if sizes == (USUAL_BUFFER, USUAL_BUFFER) else " buffers {} {}".format(*sizes)
    return f"{shown}{trace}{buffers}"
