"""Bodies of requests that an agent refuses, each with its words. The gateway's and the fleet's agent get the same."""

import json

# What a reader of a refusal should never see of the program.
INSIDE = ("Error", "Traceback", "object has no", "<class", ".py", "NoneType")


def bad_bodies(good, name):
    """What is wrong, the body, the status and words: of a good one whose field of this name is a text."""
    with_field = lambda value: json.dumps(good | {name: value}).encode()
    without = json.dumps({key: value for key, value in good.items() if key != name}).encode()
    return [
        ("no body", b"", 400, "is no JSON."),
        ("a body that is no JSON", b"room=1&name=x", 400, "is no JSON."),
        ("half a body of JSON", json.dumps(good).encode()[:-1], 400, "is no JSON."),
        ("octets that are no text", b"\xff\xfe\xfd\x80", 400, "is no JSON."),
        ("a number of 5,000 digits", b"9" * 5000, 400, "is no JSON."),
        ("an array", json.dumps([good]).encode(), 400, "no JSON object"),
        ("a number", b"7", 400, "no JSON object"),
        ("a text", b'"offer"', 400, "no JSON object"),
        ("a body that is null", b"null", 400, "no JSON object"),
        ("a body of 50,000 arrays in each other", b"[" * 50_000, 400, "nested too deep"),
        ("a field that is missing", without, 400, f"no field `{name}`: a text of at most"),
        ("a number in place of a text", with_field(7), 400, f"`{name}` of the request has to be a text"),
        ("null in place of a text", with_field(None), 400, f"`{name}` of the request has to be a text"),
        ("an object in place of a text", with_field({"a": 1}), 400, f"`{name}` of the request has to be a text"),
        ("half a character", with_field("\ud800"), 400, f"`{name}` of the request has to be a text"),
        ("a text that is too long", with_field("x" * 90_000), 400, "has to be a text of at most"),
        ("a body that is too long", with_field("x" * 100_000), 413, "Content-Length of at most 100000"),
        ("a room that is a list", json.dumps(good | {"room": ["1"]}).encode(), 400, "`room` of the request has to be"),
        ("a room that is true", json.dumps(good | {"room": True}).encode(), 400, "`room` of the request has to be"),
        ("a room below 0", json.dumps(good | {"room": -1}).encode(), 404, "A room is a number of at most nine digits."),
        ("a room of ten digits", json.dumps(good | {"room": 10**9}).encode(), 404, "A room is a number"),
    ]


def are_refused(check, post, path, good, name):
    """Whether each bad body gets its words and nothing else, and a request that nobody knows too."""
    for text, octets, status, words in bad_bodies(good, name):
        said = post(path, octets)
        plain = said[0] == status and words in str(said[1]) and not any(one in said[1] for one in INSIDE)
        check(plain, f"/{path}, {text}: {status}, `{words}`", said)
    said = post("nothing", json.dumps(good).encode())
    check(said == (404, "There is no request /nothing."), "a request that nobody knows is told so", said)
