"""Servers that a run of the example starts on the loopback of this machine, each a process with a name."""

import subprocess
import time
from collections.abc import Callable, Sequence
from pathlib import Path
from typing import TypeVar

LOOPBACK = "127.0.0.1"
LOOK_SECONDS = 0.05
Self = TypeVar("Self", bound="Servers")


class ServersMissing(RuntimeError):
    """A server did not start, can't be reached, or is not installed: the message has what it said."""


class Servers:
    """Servers, which a subclass starts and ends. They end with the block, however it ends. ServersMissing where one does not start."""

    def __init__(self, folder: Path, names: Sequence[str]) -> None:
        self.folder = folder
        self.names = names
        self.processes: dict[str, subprocess.Popen[bytes]] = {}

    def start_all(self) -> None:
        """Starts all servers."""
        raise NotImplementedError

    def end(self) -> None:
        """Ends all servers that are left."""
        raise NotImplementedError

    def __enter__(self: Self) -> Self:
        try:
            self.start_all()
        except BaseException:
            self.end()
            raise
        return self

    def __exit__(self, *fault: object) -> None:
        self.end()

    def is_ready(self, name: str, is_there: Callable[[], bool], seconds: float) -> bool:
        """Waits until a server is there, and says whether it is: it may end before that, or take more seconds."""
        until = time.monotonic() + seconds
        while self.processes[name].poll() is None and time.monotonic() < until:
            if is_there():
                return True
            time.sleep(LOOK_SECONDS)
        return False
