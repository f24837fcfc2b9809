#!/usr/bin/env python3
"""Runs clients over the small replicated store, records them, and has the log judged.

    python3 examples/replicated_store/try_store.py [--eager] [--seed N]

With `--eager` the store has its fault. Another seed gives another run. The log is written to out/run.jsonl beside this script. The three
lines that the program writes about it are shown, and the status is 0; where one is no yes, what shows that is shown with them, and the
status is 1. It is 2 where nothing was judged. The package causal_judge finds the program: CAUSAL_JUDGE names it, or it is on PATH.
"""

import argparse
import contextlib
import pathlib
import random
import sys

from causal_judge import AsyncClient, ProgramMissing, Recorder, assert_met
from simulation import Simulation, Sleep
from store import Refused, Store, TimedOut

REPLICAS, CLIENTS, CALLS = 3, 6, 100
KEYS = ("user:0", "user:1", "user:2", "user:3", "cart:4", "cart:5")
LOSS = 0.02
PAUSES = (0.0, 2.0)
WRITTEN = pathlib.Path(__file__).resolve().parent / "out" / "run.jsonl"


async def call(client: AsyncClient, store: Store, at: int, rng: random.Random) -> None:
    """One call of a client: a read, a write that is tried three times, or a delete of a cart."""
    key, fate = rng.choice(KEYS), rng.random()
    if fate < 0.5:
        await client.read(key, lambda: store.read(at, key))
    elif fate < 0.6 and key.startswith("cart"):
        await client.delete(key, lambda: store.delete(at, key), found=bool)
    else:
        await client.retry(key, lambda value: store.write(at, key, value), tries=3)


async def calls(client: AsyncClient, store: Store, at: int, rng: random.Random) -> None:
    """The calls of a client of one replica. It goes on after a call that was refused, and after one without an answer."""
    for _ in range(CALLS):
        await Sleep(rng.uniform(*PAUSES))
        with contextlib.suppress(Refused, TimedOut):
            await call(client, store, at, rng)


def record(path: pathlib.Path, is_eager: bool, seed: int) -> Store:
    """Records one run of the store and its clients, and gives the store as it is at the end."""
    rng, simulation = random.Random(seed), Simulation()
    store = Store(REPLICAS, is_eager, LOSS, simulation, rng)
    path.parent.mkdir(exist_ok=True)
    path.unlink(missing_ok=True)
    with Recorder(path, fails=Refused) as recorder:
        for number in range(CLIENTS):
            client = recorder.async_client(f"client {number}")
            simulation.start(calls(client, store, number % REPLICAS, rng))
        simulation.run()
    return store


def main() -> int:
    """Runs, records and judges; gives the status."""
    parser = argparse.ArgumentParser(description=__doc__, formatter_class=argparse.RawDescriptionHelpFormatter)
    parser.add_argument("--eager", action="store_true", help="apply each message as it comes")
    parser.add_argument("--seed", type=int, default=1, help="1 unless given")
    given = parser.parse_args()
    try:
        record(WRITTEN, given.eager, given.seed)
        print(assert_met(WRITTEN))
    except AssertionError as fault:
        print(fault)
        return 1
    except (OSError, ProgramMissing, RuntimeError, ValueError) as fault:
        print(f"not judged: {fault}", file=sys.stderr)
        return 2
    return 0


if __name__ == "__main__":
    sys.exit(main())
