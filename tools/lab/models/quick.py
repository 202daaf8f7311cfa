"""Stand-ins for the bridges of one machine: their desks over TCP, as far as joins, moves and mutes need them, without
media.

    quick.py LOG TCP:UDP:FIRST:ROOMS:MEMBERS ..

Each has rooms from FIRST on at its begin, with so many members. LOG gets a line for each room that a desk gets (`+`) or
loses (`-`), with the moment. A line on standard input is answered by how many looks there were at desks to which
nothing had happened (`history 0`). No lease closes a desk. served.py has all commands, and takes longer for each.
"""

import asyncio
import collections
import contextlib
import itertools
import pathlib
import socket
import sys
import time

MOST_ROOMS, MOST_MEMBERS, MOST_CALLS = 64, 1024, 4096


class No(Exception):
    """A refusal: its number and its name."""


class Desk:
    def __init__(self, name, log):
        self.name, self.log, self.version = name, log, 0
        # Rooms with their members; members with their rooms and the rest of their rows; sources with their rows.
        self.rooms, self.members, self.sources, self.watching, self.looks = {}, {}, {}, set(), 0
        # The sources that are muted, and the last calls, as a history has them.
        self.mutes, self.calls = set(), collections.deque(maxlen=MOST_CALLS)

    def call(self, line):
        """The answer to a call, which is carried out as a whole or not at all."""
        undo = []
        try:
            for command in line.removeprefix("group ").split(" / "):
                word, *given = command.split(" ")
                self.do(word, given, undo)
        except No as why:
            for back in reversed(undo):
                back()
            return f"no {self.version} {why}"
        self.version += 1
        self.calls.append(f"{self.version} 0 {line}")
        for text in (back.__doc__ for back in undo):
            if text:
                self.log.write(f"{time.monotonic()} {self.name} {text}\n")
        return f"ok {self.version}"

    def do(self, word, given, undo):
        if word == "add-room":
            room = given[0]
            self.demand(room not in self.rooms, "1 Exists")
            self.demand(len(self.rooms) < MOST_ROOMS, f"12 Full rooms {MOST_ROOMS}")
            self.rooms[room] = set()
            undo.append(noted(lambda: self.rooms.pop(room), f"+ {room}"))
        elif word == "add-member":
            member, room, *rest = given
            self.demand(room in self.rooms, "2 NoRoom")
            self.demand(member not in self.members, "1 Exists")
            self.demand(len(self.members) < MOST_MEMBERS, f"12 Full members {MOST_MEMBERS}")
            self.members[member] = room, " ".join(rest)
            self.rooms[room].add(member)
            undo.append(noted(lambda: (self.members.pop(member), self.rooms[room].discard(member))))
        elif word == "add-source":
            ssrc, member, kind = given
            self.demand(member in self.members, "3 NoMember")
            self.demand(ssrc not in self.sources, "1 Exists")
            self.sources[ssrc] = member, kind
            undo.append(noted(lambda: self.sources.pop(ssrc)))
        elif word == "remove-room":
            self.demand(given[0] in self.rooms, "2 NoRoom")
            for member in list(self.rooms[given[0]]):
                self.do("remove-member", [member], undo)
            members = self.rooms.pop(given[0])
            undo.append(noted(lambda: self.rooms.update({given[0]: members}), f"- {given[0]}"))
        elif word == "remove-member":
            self.demand(given[0] in self.members, "3 NoMember")
            room, rest = self.members.pop(given[0])
            self.rooms[room].discard(given[0])
            sources = {ssrc: one for ssrc, one in self.sources.items() if one[0] == given[0]}
            muted = self.mutes & sources.keys()
            self.mutes -= muted
            for ssrc in sources:
                del self.sources[ssrc]
            undo.append(noted(lambda: (self.members.update({given[0]: (room, rest)}), self.rooms[room].add(given[0]))))
            undo.append(noted(lambda: (self.sources.update(sources), self.mutes.update(muted))))
        elif word == "mute":
            self.demand(given[0] in self.sources, "4 NoSource")
            self.demand(given[0] not in self.mutes, "10 Already")
            self.mutes.add(given[0])
            undo.append(noted(lambda: self.mutes.discard(given[0])))
        else:
            raise No("7 Unknown")

    def demand(self, holds, refusal):
        if not holds:
            raise No(refusal)

    def shown(self):
        lines = [f"room {room}" for room in sorted(self.rooms, key=int)]
        lines += [f"member {at} {one} {room} {rest}" for at, (one, (room, rest)) in enumerate(self.members.items())]
        lines += [f"source {ssrc} {' '.join(self.sources[ssrc])}" for ssrc in sorted(self.sources, key=int)]
        lines += [f"mute {ssrc}" for ssrc in sorted(self.mutes, key=int)]
        return "\n".join([*lines, f"end {self.version}"])

    def answer(self, line):
        if line == "watch":
            return f"end {self.version}"
        if line.startswith("as "):
            return line
        if line.startswith("lease "):
            return f"{line} agent-fleet"
        if line.startswith("history "):
            calls = list(self.calls)[-int(line[8:]) :] if line != "history 0" else []
            return "\n".join([*calls, f"end {self.version}"])
        if line.startswith("calls "):
            calls = [one.split(" ", 2) for one in list(self.calls)[-int(line[6:]) :]] if line != "calls 0" else []
            return "\n".join([*(f"call {no} 0 {op} - {call}" for no, op, call in calls), f"end {self.version}"])
        return self.shown() if line == "show" else self.call(line)

    async def serve(self, reader, writer):
        """A connection of an operator."""
        with contextlib.suppress(ConnectionError, asyncio.IncompleteReadError):
            while line := (await reader.readline()).decode().strip():
                if line == "watch":
                    self.watching.add(writer)
                self.looks += line == "history 0"
                said = self.answer(line)
                writer.write(f"{said}\n".encode())
                for one in self.watching if said.startswith("ok ") else ():
                    one.write(f"call {self.version} 0 {line}\n".encode())
                await writer.drain()
        self.watching.discard(writer)
        writer.close()


def noted(back, text=None):
    """What takes a change back, and what the log says of the change."""
    work = lambda: back()
    work.__doc__ = text
    return work


def fill(desk, first, rooms, members):
    """Gives a desk the rooms of its begin."""
    numbers = itertools.count(1)
    for room in range(first, first + rooms):
        desk.call(f"add-room {room}")
        for at in range(members):
            member, number = room * 1000 + 1 + at, first * 1000 + next(numbers)
            text = f"group add-member {member} {room} 10.0.{at}.1:{number % 60000 + 1} pcmu {3 * 10**9 + number} 0 0"
            desk.call(f"{text} / add-source {number} {member} audio")


async def run(log, given):
    kept = []
    for words in given:
        tcp, udp, first, rooms, members = map(int, words.split(":"))
        one = socket.socket(socket.AF_INET, socket.SOCK_DGRAM)
        one.bind(("127.0.0.1", udp))
        desk = Desk(tcp, log)
        fill(desk, first, rooms, members)
        kept.append((one, desk, await asyncio.start_server(desk.serve, "127.0.0.1", tcp)))
    print("ready", flush=True)
    loop, reader = asyncio.get_running_loop(), asyncio.StreamReader()
    await loop.connect_read_pipe(lambda: asyncio.StreamReaderProtocol(reader), sys.stdin)
    while await reader.readline():
        print(sum(desk.looks for _, desk, _ in kept), flush=True)


if __name__ == "__main__":
    with pathlib.Path(sys.argv[1]).open("a", buffering=1) as told:
        asyncio.run(run(told, sys.argv[2:]))
