"""A server of HTTP whose threads and whose time have bounds."""

import contextlib
import http.server
import socket
import sys
import threading
import time

# The most connections at once, each of which has a thread, and the seconds in which each request and its answer are
# through: from a connection's begin or the answer before on, but for the time that the agent itself takes.
MOST, SECONDS = 64, 10


class Bounded(http.server.ThreadingHTTPServer):
    """Where all threads are taken, a newcomer gets that of the connection that has kept one waiting the longest."""

    request_queue_size = 128

    def __init__(self, *given):
        # Each connection that has a thread, and since when it is waited for: None while the agent is at work for it.
        self.since, self.free = {}, threading.Semaphore(MOST)
        super().__init__(*given)

    def serve(self):
        """Serves in threads of its own until it is closed."""
        threading.Thread(target=self.serve_forever, daemon=True).start()
        threading.Thread(target=self.watch, daemon=True).start()

    def process_request(self, request, client_address):
        if not self.free.acquire(blocking=False):
            self.make_way()
            if not self.free.acquire(timeout=1):
                self.shutdown_request(request)
                return
        self.since[request] = time.monotonic()
        super().process_request(request, client_address)

    def process_request_thread(self, request, client_address):
        try:
            super().process_request_thread(request, client_address)
        finally:
            self.since.pop(request, None)
            self.free.release()

    def make_way(self):
        waiting = [(since, one) for one, since in list(self.since.items()) if since is not None]
        if waiting:
            end(min(waiting, key=lambda each: each[0])[1])

    def watch(self):
        """Ends each connection whose time is over."""
        while self.socket.fileno() != -1:
            time.sleep(0.5)
            for one, since in list(self.since.items()):
                if since is not None and time.monotonic() - since > SECONDS:
                    end(one)

    @contextlib.contextmanager
    def at_work(self, request):
        """What the agent does meanwhile takes none of the connection's time, which begins anew with the answer."""
        self.since[request] = None
        try:
            yield
        finally:
            self.since[request] = time.monotonic()

    def handle_error(self, request, client_address):
        """A connection that was ended is no fault."""
        if not isinstance(sys.exception(), OSError):
            super().handle_error(request, client_address)


def end(connection):
    """Ends a connection, whose thread then finds it so."""
    with contextlib.suppress(OSError):
        connection.shutdown(socket.SHUT_RDWR)
