#!/usr/bin/python3
"""Runs clients over a primary and two hot standbys of PostgreSQL, records them, and has each run judged.

    /usr/bin/python3 examples/postgresql/run.py MODE [--runs N] [--seed N] [--all] [--logs DIR]

    applied   writes go to the primary, and are answered when both standbys have applied them; each client reads at one standby
    moving    as applied, but each client reads at one standby and then at the other
    broken    as applied; now and then the server ends a client's connection, mostly while a write waits for a standby

In each mode one of the standbys now and then applies nothing for a moment. It needs PostgreSQL and its driver: apt-get install postgresql
python3-psycopg2. The series ends after the first run that is not three yes, unless --all is given. That run is explained, and its log is
kept. The status is 0 where each run is three yes, 5 where one is not, and 2 where nothing was judged.
"""

from __future__ import annotations

import functools
import pathlib
import random
import sys
import time
from collections.abc import Sequence

REPOSITORY = pathlib.Path(__file__).resolve().parents[2]
sys.path += [str(REPOSITORY / "python"), str(REPOSITORY / "examples" / "live")]

from causal_judge import Recorder  # noqa: E402
from clients import User  # noqa: E402
from runs import series, words_for  # noqa: E402
from servers import Stores, prepare, started  # noqa: E402
from store import Store, is_certain  # noqa: E402
from workload import CLIENTS, keys_of, side_by_side  # noqa: E402

MODES = ("applied", "moving", "broken")
RUNNING, PAUSES = (0.005, 0.02), (0.005, 0.03)
END = "select pg_terminate_backend(pid) from pg_stat_activity where application_name = %s"


def hold_one(stores: Stores, rng: random.Random, ends_one: bool) -> None:
    """Lets all run for a while, and then has a standby apply nothing for a while. Meanwhile a client may lose its connection."""
    time.sleep(rng.uniform(*RUNNING))
    with Store(rng.choice(stores.standbys).port) as standby, Store(stores.primary.port) as primary:
        standby.ask("select pg_wal_replay_pause()")
        time.sleep(rng.uniform(*PAUSES))
        if ends_one:
            primary.ask(END, rng.choice(CLIENTS))
        standby.ask("select pg_wal_replay_resume()")


def make_run(mode: str, stores: Stores, recorder: Recorder, seed: int) -> None:
    """One run of four clients over keys of its own, which hold a value at its start."""
    rng, keys = random.Random(seed), keys_of(seed)
    for key, value in prepare(stores, keys).items():
        recorder.start(key, value)
    users = []
    for number, name in enumerate(CLIENTS):
        ports = [standby.port for standby in stores.standbys]
        reads_at = ports if mode == "moving" else [ports[number % len(ports)]]
        users.append(User(recorder.client(name, fails=is_certain), random.Random(rng.random()), stores.primary.port, reads_at))
    meanwhile = functools.partial(hold_one, stores, rng, mode == "broken")
    side_by_side([functools.partial(user.run, keys) for user in users], meanwhile)


def main(words: Sequence[str] | None = None) -> int:
    """Starts the servers and makes the runs; gives the status."""
    given = words_for(__doc__, MODES).parse_args(words)
    return series(given, started(), functools.partial(make_run, given.mode))


if __name__ == "__main__":
    sys.exit(main())
