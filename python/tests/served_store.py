"""A store that outlives its clients: one copy of some keys, which a thread of the test serves to processes. Some requests take effect late.

    python3 served_store.py SOCKET LOG NAME SEED CALLS

is such a process: four threads with a client each, "NAME 0" and so on, which share a recorder and make so many calls each. It writes a line
when it has begun.
"""

import json
import pathlib
import random
import socket
import socketserver
import sys
import threading
import time

from causal_judge import Recorder

CLIENTS, KEYS = 4, 5
TIME_OUT = 0.02


class StoreServer(socketserver.ThreadingUnixStreamServer):
    """Serves the store at a path until it is closed."""

    daemon_threads = True
    block_on_close = False

    def __init__(self, path, seed):
        super().__init__(str(path), Handler)
        self.values, self.lock, self.rng = {}, threading.Lock(), random.Random(seed)
        threading.Thread(target=self.serve_forever, args=(0.01,), daemon=True).start()

    def close(self):
        self.shutdown()
        self.server_close()

    def handle_error(self, request, client_address):
        """A client that was killed breaks its connection; all else is a fault of the test."""
        if not isinstance(sys.exc_info()[1], ConnectionError):
            super().handle_error(request, client_address)

    def answer(self, word, key, value=None):
        """What a request is answered. It takes effect in between, and one in 30 so late that the client has given up."""
        time.sleep(TIME_OUT * 1.5 if self.rng.random() < 1 / 30 else self.rng.random() * 0.001)
        with self.lock:
            held = self.values.get(key)
            if word == "w":
                self.values[key] = value
            elif word == "d":
                self.values.pop(key, None)
        return held


class Handler(socketserver.StreamRequestHandler):
    """Answers one connection."""

    def handle(self):
        for line in self.rfile:
            self.wfile.write(json.dumps(self.server.answer(*json.loads(line))).encode() + b"\n")


class Connection:
    """A connection to the store. After a time-out it is made anew, so that no late answer is taken for another."""

    def __init__(self, path):
        self.path, self.stream = path, None

    def ask(self, *request):
        """The answer to a request. Raises OSError where there is none in time."""
        if self.stream is None:
            self.stream = socket.socket(socket.AF_UNIX)
            self.stream.settimeout(TIME_OUT)
            self.stream.connect(self.path)
        try:
            self.stream.sendall(json.dumps(request).encode() + b"\n")
            return json.loads(self.line())
        except BaseException:
            self.stream.close()
            self.stream = None
            raise

    def line(self):
        """A line from the store."""
        found = b""
        while not found.endswith(b"\n"):
            piece = self.stream.recv(4096)
            if not piece:
                raise ConnectionError("the store closed the connection")
            found += piece
        return found


def call(client, store, rng):
    """One call of a client, which goes on after one without an answer."""
    key, fate = f"key {rng.randrange(KEYS)}", rng.random()
    try:
        if fate < 0.5:
            client.read(key, lambda: store.ask("r", key))
        elif fate < 0.6:
            client.delete(key, lambda: store.ask("d", key), found=lambda held: held is not None)
        else:
            client.retry(key, lambda value: store.ask("w", key, value), tries=2)
    except OSError:
        pass


def calls(client, store, rng, count):
    for _ in range(count):
        call(client, store, rng)


def main():
    path, log, name, seed, count = sys.argv[1:]
    rng = random.Random(seed)
    with Recorder(pathlib.Path(log)) as recorder:
        clients = [recorder.client(f"{name} {number}") for number in range(CLIENTS)]
        threads = [
            threading.Thread(target=calls, args=(client, Connection(path), random.Random(rng.random()), int(count))) for client in clients
        ]
        for thread in threads:
            thread.start()
        print("begun", flush=True)
        for thread in threads:
            thread.join()


if __name__ == "__main__":
    main()
