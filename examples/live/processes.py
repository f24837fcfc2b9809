"""Servers of an example: child processes on the loopback, each with a folder and ports of its own, and ended in every case.

Whoever starts servers holds `Processes` as a context. At its end, also after an exception or Ctrl-C, it kills them and removes their
folder. Where `setpriv` is there (Debian's util-linux has it), a server also ends with the process that started it, however that one ends.
Servers that refuse to run as root get a user of their own.
"""

from __future__ import annotations

import contextlib
import os
import pathlib
import shutil
import signal
import socket
import subprocess
import tempfile
import time
from collections.abc import Callable, Iterator, Sequence
from typing import Any

HOST = "127.0.0.1"
READY_SECONDS, RUN_SECONDS, END_SECONDS = 30.0, 300.0, 10.0
ASK_SECONDS = 0.02
LAST_LINES = 5


class StartError(RuntimeError):
    """A server is not installed, ended early or did not get ready in time."""


class Server:
    """A server that runs: it can be stopped for a while, in the middle of whatever it does, and it can be killed, by SIGKILL or another
    signal that ends it at once."""

    def __init__(self, name: str, process: subprocess.Popen[bytes], said: pathlib.Path, ending: signal.Signals = signal.SIGKILL) -> None:
        self.name, self.process, self.said, self.ending = name, process, said, ending

    @contextlib.contextmanager
    def paused(self) -> Iterator[None]:
        """Stops the server while the context lasts. Its connections stay, and what comes in waits in the kernel."""
        self.process.send_signal(signal.SIGSTOP)
        try:
            yield
        finally:
            self.process.send_signal(signal.SIGCONT)

    def kill(self) -> None:
        """Ends the server at once, also while it is stopped."""
        self.process.send_signal(self.ending)
        with contextlib.suppress(subprocess.TimeoutExpired):
            self.process.wait(END_SECONDS)
        self.process.kill()
        self.process.wait()

    def wait_until(self, is_ready: Callable[[], bool]) -> None:
        """Asks again and again until the server is ready. Raises StartError where it ends before that, or takes too long."""
        until = time.monotonic() + READY_SECONDS
        while not is_ready():
            if self.process.poll() is not None or time.monotonic() > until:
                raise StartError(f"{self.name} did not get ready\n{_last_lines(self.said)}")
            time.sleep(ASK_SECONDS)


class Processes:
    """The servers of an example, and the temporary folder that they share.

    Where this process is root's and a user is given, the servers run as that user, and their folders belong to it.
    """

    def __init__(self, user: str | None = None) -> None:
        self._ending = contextlib.ExitStack()
        self._user = user if os.geteuid() == 0 else None

    def __enter__(self) -> Processes:
        folder = tempfile.TemporaryDirectory(prefix="live-", ignore_cleanup_errors=True)
        self.folder = pathlib.Path(self._ending.enter_context(folder))
        if self._user:
            self.folder.chmod(0o711)
        return self

    def __exit__(self, *fault: object) -> None:
        self._ending.close()

    def free_port(self) -> int:
        """A port of the loopback that nobody else gets: a bound socket holds it, beside which one server may listen by SO_REUSEADDR."""
        held = self._ending.enter_context(socket.socket())
        held.setsockopt(socket.SOL_SOCKET, socket.SO_REUSEADDR, 1)
        held.bind((HOST, 0))
        return int(held.getsockname()[1])

    def room(self, name: str) -> pathlib.Path:
        """The folder of a server, made where it is not there. Raises StartError where there is no user as whom it is to run."""
        room = self.folder / name
        if not room.exists():
            room.mkdir()
            try:
                shutil.chown(room, self._user or os.geteuid())
            except LookupError as fault:
                raise StartError(f"there is no user {self._user}") from fault
        return room

    def start(self, name: str, words: Sequence[str], ending: signal.Signals = signal.SIGKILL) -> Server:
        """Starts a server in the folder of its name, and has what it says go to a file. Raises StartError where it is not installed."""
        said = self.folder / f"{name}.log"
        with said.open("ab") as log:
            process = subprocess.Popen(_guarded(words, ending), stdout=log, stderr=subprocess.STDOUT, **self._place(name))
        server = Server(name, process, said, ending)
        self._ending.callback(server.kill)
        return server

    def run(self, name: str, words: Sequence[str]) -> None:
        """Runs a command in the folder of a name. Raises StartError where it is not installed, fails, or does not end in time."""
        said = self.folder / f"{name}.log"
        with said.open("ab") as log:
            place = self._place(name)
            try:
                subprocess.run(_guarded(words), check=True, stdout=log, stderr=subprocess.STDOUT, timeout=RUN_SECONDS, **place)
            except subprocess.SubprocessError as fault:
                why = f"did not end within {RUN_SECONDS:.0f} seconds" if isinstance(fault, subprocess.TimeoutExpired) else "failed"
                raise StartError(f"{words[0]} {why}\n{_last_lines(said)}") from fault

    def _place(self, name: str) -> dict[str, Any]:
        """Where the processes of a server run, as whom, and without input."""
        user = {"user": self._user, "group": self._user, "extra_groups": []} if self._user else {}
        return {"cwd": self.room(name), "stdin": subprocess.DEVNULL, **user}


def _guarded(words: Sequence[str], ending: signal.Signals = signal.SIGKILL) -> list[str]:
    """A command that gets a signal when this process ends. Raises StartError where it is not installed."""
    if not shutil.which(words[0]):
        raise StartError(f"{words[0]} is not installed")
    guard = ["setpriv", "--pdeathsig", ending.name.removeprefix("SIG")] if shutil.which("setpriv") else []
    return [*guard, *words]


def _last_lines(said: pathlib.Path) -> str:
    """The last lines of what a server said."""
    return "\n".join(said.read_text(errors="replace").splitlines()[-LAST_LINES:])
