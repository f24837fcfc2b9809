#!/usr/bin/env python3
"""Runs clients over three servers of ZooKeeper, records them, and has each run judged.

    python3 examples/zookeeper/run.py MODE [--runs N] [--seed N] [--all] [--logs DIR]

    sessions   a client has a session at each server, and each call goes over any of them; each session is a client of the log
    pool       the same, but the three sessions of a client are one client of the log
    synced     as pool, and a client calls sync before each read
    paused     a client has one session at any server; now and then a server is stopped for longer than clients wait
    elected    the same, and at times for so long that the others elect another leader

In the first three modes a server is stopped for a moment now and then, and lags behind. It needs ZooKeeper and a JDK: apt-get install
libzookeeper-java default-jdk-headless. The series ends after the first run that is not three yes, unless --all is given. That run is
explained, and its log is kept. The status is 0 where each run is three yes, 5 where one is not, and 2 where nothing was judged.
"""

from __future__ import annotations

import functools
import pathlib
import random
import sys
import time
from collections.abc import Sequence

REPOSITORY = pathlib.Path(__file__).resolve().parents[2]
sys.path += [str(REPOSITORY / "python"), str(REPOSITORY / "examples" / "live")]

from runs import series_of_logs, words_for  # noqa: E402
from servers import Ensemble, started  # noqa: E402
from workload import side_by_side  # noqa: E402

MODES = ("sessions", "pool", "synced", "paused", "elected")
RUNNING, SHORT_PAUSES, LONG_PAUSES = (0.01, 0.06), (0.03, 0.12), (0.5, 1.4)
PATIENCE, SHORT_PATIENCE = 100, 8


def pause_one(ensemble: Ensemble, log: pathlib.Path, rng: random.Random, pauses: tuple[float, float]) -> None:
    """Lets all servers run for a while, and then, where the clients have begun their log, stops one of them for a while."""
    time.sleep(rng.uniform(*RUNNING))
    if log.exists():
        with rng.choice(ensemble.nodes).server.paused():
            time.sleep(rng.uniform(*pauses))


def make_run(mode: str, ensemble: Ensemble, log: pathlib.Path, seed: int) -> None:
    """One run of four clients over nodes of its own, which hold a value at its start."""
    pauses = LONG_PAUSES if mode in ("paused", "elected") else SHORT_PAUSES
    ensemble.wait()
    clients = functools.partial(ensemble.run_clients, mode, seed, log)
    side_by_side([clients], functools.partial(pause_one, ensemble, log, random.Random(seed), pauses))


def main(words: Sequence[str] | None = None) -> int:
    """Starts the servers and makes the runs; gives the status."""
    given = words_for(__doc__, MODES).parse_args(words)
    patience = SHORT_PATIENCE if given.mode == "elected" else PATIENCE
    return series_of_logs(given, started(patience), functools.partial(make_run, given.mode))


if __name__ == "__main__":
    sys.exit(main())
