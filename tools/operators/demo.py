"""Starts a bridge, its page and two members, and holds a call until it is stopped.

The bridge has the settings of examples/serve.toml, and the page is at http://127.0.0.1:7080/. Member 10 sends a tone of
440 Hz and frames of a test picture, member 11 a tone of 1000 Hz. Both read what they are sent. With --hear a player of
the system plays what member 10 hears: member 11's tone, and not its own. The desk is made through the page, which so
names each change that **Undo** takes back. Where a port is taken the demo changes nothing. Ctrl-C ends all of it.
"""

import http.client
import json
import math
import re
import shutil
import socket
import subprocess
import time

from operators.models.mix import compressed
from operators.packets import rtp
from operators.serving import come_to, udp_socket
from operators.shared import CRATES, ROOT, add_program_or_build, fail, found_program, try_command

NEEDS = "a program, ports 5004, 6000, 6002, 7000 and 7080"

UDP, TCP, PAGE = ("127.0.0.1", 5004), ("127.0.0.1", 7000), ("127.0.0.1", 7080)
# Each member's port, the SSRC of its tone, and the tone in Hz.
MEMBERS = [(6000, 201, 440), (6002, 202, 1000)]
DESK = [
    "add-room 1",
    "add-member 10 1 127.0.0.1:6000 pcmu 9001 0 0",
    "add-member 11 1 127.0.0.1:6002 pcmu 9002 0 0",
    "add-source 201 10 audio",
    "add-source 202 11 audio",
    "add-source 101 10 video",
    "add-slot 501 11 0 0 0",
    "give-floor 1 10",
]
NAMES = {"room 1": "Demo", "member 10": "Ada", "member 11": "Ben"}
# What plays mu-law of 8000 Hz from its standard input. The first that is installed does.
PLAYERS = [
    ["pacat", "--playback", "--raw", "--format=ulaw", "--rate=8000", "--channels=1"],
    ["aplay", "-q", "-t", "raw", "-f", "MU_LAW", "-r", "8000", "-c", "1"],
    ["ffplay", "-loglevel", "error", "-nodisp", "-f", "mulaw", "-ar", "8000", "-i", "-"],
]


def options(parser):
    add_program_or_build(parser)
    parser.add_argument("--hear", action="store_true", help="play what member 10 hears, by pacat, aplay or ffplay")


def tone(hertz, tick):
    """20 ms of a tone, from a tick on."""
    times = range(tick * 160, tick * 160 + 160)
    return bytes(compressed(round(8000 * math.sin(2 * math.pi * hertz * at / 8000))) for at in times)


def picture(tick):
    """The payloads of a frame: moving bars, in two packets."""
    return [bytes((at // 8 + tick + 128 * part) % 256 for at in range(600)) for part in range(2)]


def text_of(address):
    return f"{address[0]}:{address[1]}"


def started(crate, words, seconds, given=None):
    program = found_program(given, crate)
    if not program and CRATES.is_dir():
        print(f"building crates/{crate} without proofs, which takes some minutes", flush=True)
    command, folder = ([program, *words], None) if program else (try_command(words, seconds), CRATES / crate)
    return subprocess.Popen(command, cwd=folder, stdin=subprocess.DEVNULL, stdout=subprocess.DEVNULL)


def refuse_taken():
    """Ends where a port of the demo is taken: whoever has it is another bridge, page or member."""
    kinds = [(socket.SOCK_DGRAM, UDP), (socket.SOCK_STREAM, TCP), (socket.SOCK_STREAM, PAGE)]
    for kind, address in kinds + [(socket.SOCK_DGRAM, ("127.0.0.1", port)) for port, _, _ in MEMBERS]:
        with socket.socket(socket.AF_INET, kind) as one:
            # A connection that has just ended keeps nobody from listening.
            one.setsockopt(socket.SOL_SOCKET, socket.SO_REUSEADDR, kind == socket.SOCK_STREAM)
            try:
                one.bind(address)
            except OSError:
                fail(f"{text_of(address)} is taken: end what runs there, such as another bridge. Nothing was changed")


def asked(method, path, body=None, token=""):
    """What the page answers to a request."""
    connection = http.client.HTTPConnection(*PAGE, timeout=60)
    connection.request(method, path, body=body, headers={"X-Desk-Token": token})
    answer = connection.getresponse().read().decode().strip()
    connection.close()
    return answer


def make_desk():
    """Makes the desk by the page, as an operator there does, and names its members."""
    token = re.search('name="desk-token" content="([0-9a-f]*)"', asked("GET", "/"))[1]
    for line in DESK:
        told = asked("POST", "/call", line, token)
        if not told.startswith("ok "):
            fail(f"`{line}` is answered `{told}`")
    asked("POST", "/names", f"names 0\n{json.dumps(NAMES)}", token)


def connected(program, address):
    """A connection to a program, once it listens there."""
    while program.poll() is None:
        try:
            return socket.create_connection(address, timeout=60)
        except ConnectionRefusedError:
            time.sleep(0.2)
    return fail(f"the program for {text_of(address)} has ended with status {program.returncode}")


def started_player():
    """The program that plays what member 10 hears. Ends where none is installed."""
    found = next((words for words in PLAYERS if shutil.which(words[0])), None)
    if not found:
        names = ", ".join(words[0] for words in PLAYERS)
        fail(f"--hear needs a player, one of {names}. Nothing was changed")
    return subprocess.Popen(found, stdin=subprocess.PIPE)


def play(player, datagram):
    """Gives the sound of a packet of a mix to the player. A player that has ended ends the demo."""
    if len(datagram) < 12 or datagram[1] & 127 != 0:
        return
    try:
        player.stdin.write(datagram[12 + 4 * (datagram[0] & 15) :])
        player.stdin.flush()
    except BrokenPipeError:
        fail(f"{player.args[0]} has ended, which plays what member 10 hears")


def talk(player=None):
    """The members send 50 times a second, and read what has come."""
    sockets = [udp_socket(port) for port, _, _ in MEMBERS]
    begun, tick, seq = time.monotonic(), 0, 0
    while True:
        for one, (_, ssrc, hertz) in zip(sockets, MEMBERS):
            one.sendto(rtp(tick, tick * 160, ssrc, tone(hertz, tick), pt=0), UDP)
            one.setblocking(False)
            for datagram in come_to(one):
                if player and one is sockets[0]:
                    play(player, datagram)
        if tick % 2 == 0:
            for part, payload in enumerate(picture(tick)):
                sockets[0].sendto(rtp(seq, tick * 1800, 101, payload, marker=part), UDP)
                seq += 1
        tick += 1
        time.sleep(max(0.0, begun + tick * 0.02 - time.monotonic()))


def run(args):
    refuse_taken()
    player = started_player() if args.hear else None
    programs = [started("confbridge", ["serve", ROOT / "examples/serve.toml"], 86400, args.binary)]
    try:
        connected(programs[0], TCP).close()
        programs.append(started("desk_page", ["--bridge", text_of(TCP), "--listen", text_of(PAGE)], 86400))
        connected(programs[1], PAGE).close()
        make_desk()
        print(f"the desk is at http://{text_of(PAGE)}/ (Ctrl-C ends the call)", flush=True)
        talk(player)
    except KeyboardInterrupt:
        return 0
    finally:
        if player:
            player.terminate()
        # `rt try` ends the program that it runs once it is asked to end, and leaves it behind where it is killed.
        for program in programs:
            program.terminate()
            program.wait()
