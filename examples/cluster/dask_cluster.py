"""A Dask cluster on this machine: a scheduler and some workers, each a process of its own, on free ports of the loopback.

    with DaskCluster(folder, ("one", "two", "three")) as cluster, Client(scheduler_file=cluster.scheduler_file) as client:
        cluster.wait_for_workers(client)

The processes end with the block, however it ends: by SIGTERM, and 10 seconds later by SIGKILL. Where nobody is left to end them, the
scheduler ends after a time without work, and the workers after it. All that they write is in the folder.
"""

# mypy: allow-untyped-calls

import os
import signal
import subprocess
import sys
import time
from collections.abc import Sequence
from pathlib import Path

from distributed import Client, TimeoutError
from servers import LOOPBACK, Servers, ServersMissing

IDLE_SECONDS, DEATH_SECONDS = 300, 30
START_SECONDS, END_SECONDS = 60, 10
SHOWN_LINES = 20


class DaskCluster(Servers):
    """A scheduler, and a worker for each name."""

    def __init__(self, folder: Path, names: Sequence[str]) -> None:
        super().__init__(folder, names)
        self.scheduler_file = str(folder / "scheduler.json")

    def start_all(self) -> None:
        """Starts the scheduler, and the workers once the file with its address is there."""
        self.start("scheduler", "--port", "0", "--idle-timeout", f"{IDLE_SECONDS} seconds")
        if not self.is_ready("scheduler", Path(self.scheduler_file).is_file, START_SECONDS):
            raise ServersMissing(f"the scheduler did not start:\n{self.log_of('scheduler')}")
        for name in self.names:
            words = ["--name", name, "--nthreads", "1", "--no-nanny", "--death-timeout", str(DEATH_SECONDS)]
            self.start("worker", *words, "--local-directory", str(self.folder / name), name=name)

    def start(self, part: str, *words: str, name: str | None = None) -> None:
        """Starts a process of Dask, which writes into the folder alone."""
        room = self.folder / (name or part)
        room.mkdir()
        command = [sys.executable, "-m", f"distributed.cli.dask_{part}", "--scheduler-file", self.scheduler_file]
        command += ["--host", LOOPBACK, "--no-dashboard", "--dashboard-address", f"{LOOPBACK}:0", *words]
        quiet, environment = subprocess.DEVNULL, {**os.environ, "PYTHONDONTWRITEBYTECODE": "1"}
        with (room / "log").open("wb") as log:
            self.processes[name or part] = subprocess.Popen(command, stdin=quiet, stdout=log, stderr=log, cwd=room, env=environment)

    def wait_for_workers(self, client: Client) -> None:
        """Waits until the scheduler knows all workers."""
        try:
            client.wait_for_workers(len(self.names), timeout=START_SECONDS)
        except (OSError, TimeoutError):
            logs = "\n".join(map(self.log_of, self.processes))
            raise ServersMissing(f"not all workers started:\n{logs}") from None

    def log_of(self, name: str) -> str:
        """The last lines that a process wrote."""
        return "\n".join((self.folder / name / "log").read_text(errors="replace").splitlines()[-SHOWN_LINES:])

    def has_workers(self) -> bool:
        """Whether a worker is left."""
        return any(self.processes[name].poll() is None for name in self.names)

    def kill(self, name: str) -> None:
        """Kills a worker by SIGKILL, as a machine that loses its power."""
        self.processes[name].kill()
        self.processes[name].wait()

    def end(self) -> None:
        """Ends all processes that are left."""
        for process in self.processes.values():
            if process.poll() is None:
                process.send_signal(signal.SIGTERM)
        until = time.monotonic() + END_SECONDS
        for process in self.processes.values():
            try:
                process.wait(max(0.0, until - time.monotonic()))
            except subprocess.TimeoutExpired:
                process.kill()
                process.wait()
