"""What the clients of an example do: a few of them read, write and delete a few keys, and compare and set them, by a seed."""

from __future__ import annotations

import random
from collections.abc import Callable, Iterator, Sequence
from concurrent.futures import ThreadPoolExecutor, wait
from typing import NamedTuple

CLIENTS = ("alice", "bob", "carol", "dave")
FRUITS = ("apples", "pears", "plums", "figs")
FIRST_VALUE = "from before"
CALLS = 40
LONGEST_PAUSE = 0.004
WRITE_SHARE, DELETE_SHARE = 0.4, 0.1
COMPARE_SHARE = 0.2


class Step(NamedTuple):
    """A call that a client makes after a pause in seconds: "write", "compare and set", "read" or "delete", and the key."""

    pause: float
    word: str
    key: str


def keys_of(seed: int) -> tuple[str, ...]:
    """The keys of a run. Each run has its own, so that many runs can use the same servers. Clients delete the last key alone."""
    return tuple(f"run{seed}:{fruit}" for fruit in FRUITS)


def steps(rng: random.Random, keys: Sequence[str], compares: bool = False) -> Iterator[Step]:
    """The calls of one client. If told so, half of what would be writes are compare-and-sets."""
    for _ in range(CALLS):
        pause, fate, key = rng.uniform(0, LONGEST_PAUSE), rng.random(), rng.choice(keys)
        if fate < DELETE_SHARE:
            yield Step(pause, "delete", keys[-1])
        elif compares and fate < DELETE_SHARE + COMPARE_SHARE:
            yield Step(pause, "compare and set", key)
        else:
            yield Step(pause, "write" if fate < DELETE_SHARE + WRITE_SHARE else "read", key)


def side_by_side(bodies: Sequence[Callable[[], None]], meanwhile: Callable[[], None] | None = None) -> None:
    """Runs each of these in a thread, and waits for all. What one of them raises is raised here.

    Until they ended, `meanwhile` is called again and again.
    """
    with ThreadPoolExecutor(len(bodies)) as pool:
        running = [pool.submit(body) for body in bodies]
        while meanwhile and wait(running, timeout=0).not_done:
            meanwhile()
        for one in running:
            one.result()
