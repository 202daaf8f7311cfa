"""What a request says: its body is a JSON object, of which each field is checked by its name."""

import json

from refused import Refused


def text(most):
    """A text that isn't longer."""
    return f"a text of at most {most} characters", lambda one: is_text(one) and len(one) <= most


def is_text(one):
    """Whether it is a text without half of a character. JSON can spell one (RFC 8259 section 8.2)."""
    return isinstance(one, str) and not any("\ud800" <= each <= "\udfff" for each in one)


def whole(most):
    return f"a whole number from 0 to {most}", lambda one: type(one) is int and 0 <= one <= most


# A room that is no number has an answer of its own (`room_of` of web.py).
ROOM = "a number of at most nine digits", lambda one: type(one) is int or is_text(one)
FLAG = "true or false", lambda one: isinstance(one, bool)


def fields_of(octets, must, may=()):
    """The fields of a body: those that it must have, and those that it may have. Any others are passed over."""
    try:
        said = json.loads(octets)
    except RecursionError:
        raise Refused("The request is nested too deep. It is a JSON object of texts and numbers.", 400) from None
    except ValueError:
        raise Refused("The request is no JSON.", 400) from None
    if not isinstance(said, dict):
        raise Refused("The request is no JSON object with fields by their names.", 400)
    for name, (words, is_good) in [*must.items(), *dict(may).items()]:
        if name in said and not is_good(said[name]):
            raise Refused(f"The field `{name}` of the request has to be {words}.", 400)
        if name in must and name not in said:
            raise Refused(f"The request has no field `{name}`: {words}.", 400)
    return {name: said[name] for name in [*must, *may] if name in said}
