#!/usr/bin/python3
"""Runs clients over a primary and two replicas of redis, records them, and has each run judged.

    /usr/bin/python3 examples/redis/run.py MODE [--runs N] [--seed N] [--all] [--logs DIR] [--compare-and-sets] [--delay MILLISECONDS]
                                                [--driver-retries N]

    primary    all calls go to the primary
    replicas   writes go to the primary, and each read to one of the replicas, which lag behind by the delay of their relays
    paused     all calls go to the primary, and a write waits for both replicas; now and then a server or a relay is stopped for longer than
               clients wait

It needs redis-server and its client library: apt-get install redis-server python3-redis. The series ends after the first run that is not
three yes, unless --all is given. That run is explained, and its log is kept. The status is 0 where each run is three yes, 5 where one is
not, and 2 where nothing was judged.
"""

from __future__ import annotations

import argparse
import functools
import pathlib
import random
import sys
import time
from collections.abc import Sequence

REPOSITORY = pathlib.Path(__file__).resolve().parents[2]
sys.path += [str(REPOSITORY / "python"), str(REPOSITORY / "examples" / "live")]

from causal_judge import Recorder  # noqa: E402
from clients import CERTAIN, Place, User  # noqa: E402
from runs import series, words_for  # noqa: E402
from servers import Stores, prepare, started  # noqa: E402
from workload import CLIENTS, keys_of, side_by_side  # noqa: E402

MODES = ("primary", "replicas", "paused")
DELAY, SHORT_DELAY = 2.0, 0.5
RUNNING, PAUSES = (0.02, 0.06), (0.04, 0.1)


def pause_one(stores: Stores, rng: random.Random) -> None:
    """Lets all run for a while, and then stops a server or a relay for a while."""
    time.sleep(rng.uniform(*RUNNING))
    replica, relay = rng.choice(stores.replicas), rng.choice(stores.relays)
    with rng.choice([stores.primary.server.paused, stores.front.paused, replica.server.paused, relay.paused])():
        time.sleep(rng.uniform(*PAUSES))


def make_run(given: argparse.Namespace, stores: Stores, recorder: Recorder, seed: int) -> None:
    """One run of four clients over keys of its own, which hold a value at its start."""
    rng, keys, is_paused = random.Random(seed), keys_of(seed), given.mode == "paused"
    for key, value in prepare(stores, keys).items():
        recorder.start(key, value)
    primary = stores.behind_front() if is_paused else stores.primary
    reads_at = stores.replicas if given.mode == "replicas" else (primary,)
    place = Place(primary, reads_at, len(stores.replicas) if is_paused else 0, given.driver_retries, given.compare_and_sets)
    users = [User(recorder.client(name, fails=CERTAIN), random.Random(rng.random()), place) for name in CLIENTS]
    side_by_side([functools.partial(user.run, keys) for user in users], functools.partial(pause_one, stores, rng) if is_paused else None)


def main(words: Sequence[str] | None = None) -> int:
    """Starts the servers and makes the runs; gives the status."""
    parser = words_for(__doc__, MODES)
    delays = f"replicas: the delay of the relay of the first one ({DELAY:.0f}); that of the second is twice as long"
    parser.add_argument("--delay", type=float, default=DELAY, metavar="MILLISECONDS", help=delays)
    retries = "how often the driver tries again by itself (0): more than that is a wrong way to record, which blames redis now and then"
    parser.add_argument("--driver-retries", type=int, default=0, metavar="N", help=retries)
    given = parser.parse_args(words)
    delay = (given.delay if given.mode == "replicas" else SHORT_DELAY) / 1000
    return series(given, started((delay, 2 * delay)), functools.partial(make_run, given))


if __name__ == "__main__":
    sys.exit(main())
