#!/usr/bin/env python3
"""Runs clients over three members of etcd, records them, and has each run judged.

    python3 examples/etcd/run.py MODE [--runs N] [--seed N] [--all] [--logs DIR] [--compare-and-sets]

    linearizable   each call goes to any member; reads are linearizable, as they are unless one asks for less
    serializable   each call goes to any member; reads are serializable, so a member answers from what it has; now and then a member is
                   stopped for a moment, and lags behind
    paused         as linearizable; now and then a member is stopped for longer than clients wait, and at times for so long that the others
                   elect another leader

It needs etcd: apt-get install etcd-server. The series ends after the first run that is not three yes, unless --all is given. That run is
explained, and its log is kept. The status is 0 where each run is three yes, 5 where one is not, and 2 where nothing was judged.
"""

from __future__ import annotations

import argparse
import functools
import pathlib
import random
import sys
import time
from collections.abc import Sequence

REPOSITORY = pathlib.Path(__file__).resolve().parents[2]
sys.path += [str(REPOSITORY / "python"), str(REPOSITORY / "examples" / "live")]

from causal_judge import Recorder  # noqa: E402
from clients import CERTAIN, User  # noqa: E402
from members import Member, prepare, started  # noqa: E402
from runs import series, words_for  # noqa: E402
from workload import CLIENTS, keys_of, side_by_side  # noqa: E402

MODES = ("linearizable", "serializable", "paused")
RUNNING = 0.02, 0.1
PAUSES = {"serializable": (0.03, 0.12), "paused": (0.1, 0.7)}


def pause_one(members: Sequence[Member], rng: random.Random, pauses: tuple[float, float]) -> None:
    """Lets all members run for a while, and then stops one of them for a while."""
    time.sleep(rng.uniform(*RUNNING))
    with rng.choice(members).server.paused():
        time.sleep(rng.uniform(*pauses))


def make_run(given: argparse.Namespace, members: Sequence[Member], recorder: Recorder, seed: int) -> None:
    """One run of four clients over keys of its own, which hold a value at its start."""
    rng, keys, mode = random.Random(seed), keys_of(seed), given.mode
    for key, value in prepare(members, keys).items():
        recorder.start(key, value)
    clients = [recorder.client(name, fails=CERTAIN) for name in CLIENTS]
    how = mode == "serializable", given.compare_and_sets
    users = [User(client, random.Random(rng.random()), members, *how) for client in clients]
    meanwhile = functools.partial(pause_one, members, rng, PAUSES[mode]) if mode in PAUSES else None
    side_by_side([functools.partial(user.run, keys) for user in users], meanwhile)


def main(words: Sequence[str] | None = None) -> int:
    """Starts the members and makes the runs; gives the status."""
    given = words_for(__doc__, MODES).parse_args(words)
    return series(given, started(), functools.partial(make_run, given))


if __name__ == "__main__":
    sys.exit(main())
