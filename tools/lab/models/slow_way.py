"""A way to a TCP server on this machine that counts octets and can be slow or cut.

    slow_way.py PORT SERVER

It takes connections at PORT for the port SERVER. Lines on standard input: `delay SECONDS` has each answer wait so long,
`cut` ends all connections and takes no more, `join` takes some again, `count` prints the octets of all answers so far.
"""

import asyncio
import collections
import sys


class Way:
    def __init__(self, server):
        self.server, self.delay, self.octets, self.is_cut, self.open = server, 0.0, 0, False, set()

    async def taken(self, reader, writer):
        """A connection, and one to the server."""
        if self.is_cut:
            writer.close()
            return
        try:
            far_reader, far_writer = await asyncio.open_connection("127.0.0.1", self.server)
        except OSError:
            writer.close()
            return
        both = {writer, far_writer}
        self.open |= both
        await asyncio.gather(self.asks(reader, far_writer), self.answers(far_reader, writer), return_exceptions=True)
        self.open -= both
        for one in both:
            one.close()

    async def asks(self, reader, writer):
        while octets := await reader.read(65536):
            writer.write(octets)
            await writer.drain()
        writer.close()

    async def answers(self, reader, writer):
        """Answers come in order, each so late."""
        loop, waiting, more = asyncio.get_running_loop(), collections.deque(), asyncio.Event()

        async def hands_on():
            while True:
                while not waiting:
                    more.clear()
                    await more.wait()
                moment, octets = waiting.popleft()
                await asyncio.sleep(max(0.0, moment - loop.time()))
                if not octets:
                    writer.close()
                    return
                writer.write(octets)
                await writer.drain()

        handing = asyncio.create_task(hands_on())
        while True:
            octets = await reader.read(65536)
            self.octets += len(octets)
            waiting.append((loop.time() + self.delay, octets))
            more.set()
            if not octets:
                break
        await handing

    async def obeys(self):
        loop, reader = asyncio.get_running_loop(), asyncio.StreamReader()
        await loop.connect_read_pipe(lambda: asyncio.StreamReaderProtocol(reader), sys.stdin)
        while line := (await reader.readline()).decode().split():
            if line[0] == "delay":
                self.delay = float(line[1])
            elif line[0] == "count":
                print(self.octets, flush=True)
            else:
                self.is_cut = line[0] == "cut"
                for one in list(self.open) if self.is_cut else ():
                    one.transport.abort()


async def main():
    way = Way(int(sys.argv[2]))
    await asyncio.start_server(way.taken, "127.0.0.1", int(sys.argv[1]))
    print("ready", flush=True)
    await way.obeys()


if __name__ == "__main__":
    asyncio.run(main())
