"""Whether a program was proved, by what its building left beside it.

`rt run` leaves NAME.stamp, which ends in the program's SHA-256 sum. `rt ci` leaves NAME.by-rattle: the same program, by
a second compiler, built after the first. A program that somebody copied there has neither a stamp with its sum nor a
second program that is younger. This finds mistakes; whoever wants to deceive can.
"""

import hashlib

from operators.shared import is_current


def lack_of_proof(program):
    """Why a program in a crate's out/ can't be taken for a proved one, or None."""
    if not is_current(program):
        return "a source is newer than it"
    stamp, second = (program.with_name(program.name + end) for end in (".stamp", ".by-rattle"))
    if stamp.is_file() and stamp.read_text().endswith(hashlib.sha256(program.read_bytes()).hexdigest()):
        return None
    if second.is_file() and second.stat().st_mtime_ns >= program.stat().st_mtime_ns:
        return None
    return f"neither {stamp.name} of `rt run` has its sum, nor is {second.name} of `rt ci` younger than it"
