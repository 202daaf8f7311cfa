#!/usr/bin/env python3
"""Asks an agent of a fleet, by the fleet's secret.

    ask.py FILE URL [JSON]

such as `ask.py fleet.secret http://127.0.0.1:8095/` or `ask.py fleet.secret http://127.0.0.1:8095/leave '{"room": 12,
"member": 12001}'`. FILE has the secret. The status is 1 where the agent refuses.
"""

import pathlib
import sys
import urllib.error
import urllib.request

sys.path.append(str(pathlib.Path(__file__).resolve().parent.parent / "gateway"))

from fleet_secret import secret_in, signed  # noqa: E402
from printable import printable  # noqa: E402


def shown(octets):
    """An answer, line by line, as a terminal may show it."""
    return "\n".join(map(printable, octets.decode("ascii", "backslashreplace").splitlines()))


def main():
    if not 3 <= len(sys.argv) <= 4:
        sys.exit(__doc__)
    path, url, *body = sys.argv[1:]
    try:
        request = signed(secret_in(path), url, *(one.encode() for one in body))
        with urllib.request.urlopen(request, timeout=15) as said:
            print(shown(said.read()))
    except urllib.error.HTTPError as why:
        sys.exit(shown(why.read()))
    except (OSError, ValueError) as why:
        sys.exit(f"ask: {printable(str(why))}")


if __name__ == "__main__":
    main()
