"""A relay of TCP connections, as between a replica and its primary: it passes on what comes after a delay, and can be paused."""

from __future__ import annotations

import contextlib
import random
import socket
import socketserver
import threading
import time
from collections.abc import Iterator

HOST = "127.0.0.1"
MOST_BYTES = 65_536


class Relay(socketserver.ThreadingTCPServer):
    """Listens on a port of its own, `port`, and connects each one who comes with the port that it was given.

    What comes waits for once to twice `delay`, in seconds, and what comes meanwhile goes on with it. While the relay is paused all bytes
    wait, and none is lost; then they go on, those of several connections in any order. It runs as long as its context.
    """

    daemon_threads = True

    def __init__(self, onward_port: int, delay: float) -> None:
        super().__init__((HOST, 0), _Passage)
        self.onward_port, self.delay, self.port = onward_port, delay, int(self.server_address[1])
        self._is_open = threading.Event()
        self._is_open.set()

    def __enter__(self) -> Relay:
        threading.Thread(target=self.serve_forever, kwargs={"poll_interval": 0.05}, daemon=True).start()
        return self

    def __exit__(self, *fault: object) -> None:
        self.shutdown()
        self.server_close()

    @contextlib.contextmanager
    def paused(self) -> Iterator[None]:
        """Passes nothing on while the context lasts."""
        self._is_open.clear()
        try:
            yield
        finally:
            self._is_open.set()

    def carry(self, source: socket.socket, target: socket.socket) -> None:
        """Passes on what the source sends, until it ends or one of the two breaks."""
        with contextlib.suppress(OSError):
            while came := source.recv(MOST_BYTES):
                self._is_open.wait()
                time.sleep(random.uniform(self.delay, 2 * self.delay))
                target.sendall(came)
        with contextlib.suppress(OSError):
            target.shutdown(socket.SHUT_WR)


class _Passage(socketserver.BaseRequestHandler):
    """One connection through the relay, both ways."""

    server: Relay

    def handle(self) -> None:
        with contextlib.suppress(OSError), socket.create_connection((HOST, self.server.onward_port)) as onward:
            for end in (self.request, onward):
                end.setsockopt(socket.IPPROTO_TCP, socket.TCP_NODELAY, 1)
            back = threading.Thread(target=self.server.carry, args=(onward, self.request), daemon=True)
            back.start()
            self.server.carry(self.request, onward)
            back.join()
