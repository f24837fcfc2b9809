"""A relay of TCP connections to a server. From a moment on it loses what clients send, or what the server answers: while the connections
stay, or so that they break."""

import contextlib
import pathlib
import socket
import sys
import time

sys.path.append(str(pathlib.Path(__file__).resolve().parents[2] / "examples" / "redis"))

from relay import MOST_BYTES, Relay  # noqa: E402

REQUESTS, ANSWERS = "requests", "answers"
# How long the server has for a request that it got, before a connection breaks.
BREAK_SECONDS = 0.2


class CuttingRelay(Relay):
    """Listens on a port of its own, `port`, and connects each one who comes with the server at another port, as long as its context."""

    def __init__(self, onward_port):
        super().__init__(onward_port, 0.0)
        self.lost, self.breaks = None, False

    def lose(self, what, breaks):
        """Loses all requests or all answers from now on. If told so, a connection breaks that loses something."""
        self.lost, self.breaks = what, breaks

    def carry(self, source, target):
        """Passes on what the source sends, until it ends or the connection breaks."""
        with contextlib.suppress(OSError):
            what = ANSWERS if source.getpeername()[1] == self.onward_port else REQUESTS
            while came := source.recv(MOST_BYTES):
                if self.lost != what:
                    target.sendall(came)
                elif self.breaks:
                    time.sleep(BREAK_SECONDS)
                    break
        for end in (source, target):
            with contextlib.suppress(OSError):
                end.shutdown(socket.SHUT_RDWR)
