"""The clients of a run: each call of redis goes through the recorder's client, which notes it before it is made and when it ended.

Which faults are certain: a reply that is an error (`ResponseError`), as of a replica that takes no writes or of a primary without memory,
means that the server did not do it. Every other fault leaves that open, as a time-out and a broken connection do, and the recorder says
`lost`.
"""

from __future__ import annotations

import contextlib
import random
import time
from collections.abc import Sequence
from typing import NamedTuple

import redis
from causal_judge import Client
from servers import Node, connect
from workload import Step, steps

WAIT_MILLISECONDS = 20
CERTAIN = redis.ResponseError
# Writes ARGV[1] if the key holds ARGV[2], or nothing where there is no such argument. It writes last, so an error means that it did not.
COMPARE_AND_SET = """
    if redis.call('GET', KEYS[1]) ~= (ARGV[2] or false) then return 0 end
    redis.call('SET', KEYS[1], ARGV[1])
    return 1
"""


class NotConfirmed(Exception):
    """Fewer replicas than were asked for said in time that they have the write."""


def write(store: redis.Redis[str], key: str, value: str, replicas: int) -> None:
    """Writes at a server, and waits until so many of its replicas have the write. Raises NotConfirmed where they do not say so."""
    store.set(key, value)
    confirm(store, replicas)


def compare_and_set(store: redis.Redis[str], key: str, expected: str | None, value: str, replicas: int) -> bool:
    """Writes at a server if the key holds what is expected, None for nothing, and waits as `write` does; gives whether it wrote."""
    is_done = bool(store.eval(COMPARE_AND_SET, 1, key, value, *([] if expected is None else [expected])))
    if is_done:
        confirm(store, replicas)
    return is_done


def confirm(store: redis.Redis[str], replicas: int) -> None:
    """Waits until so many replicas have the last write of this connection. Raises NotConfirmed where they do not say so.

    When the wait begins, the write is done. So an error that answers the wait is raised as NotConfirmed too: as a ResponseError it would be
    recorded as a write that was not done.
    """
    if not replicas:
        return
    try:
        confirmed = store.wait(replicas, WAIT_MILLISECONDS)
    except redis.ResponseError as fault:
        raise NotConfirmed(str(fault)) from fault
    if confirmed < replicas:
        raise NotConfirmed(f"{confirmed} of {replicas}")


class Place(NamedTuple):
    """Where clients call: the server that takes their writes, those at which they read, how many replicas have to confirm a write; how often
    the driver tries again by itself; and whether some writes are compare-and-sets."""

    writes_at: Node
    reads_at: Sequence[Node]
    replicas: int
    driver_retries: int
    compares: bool


class User:
    """A client of a run, which makes each read at any of the servers that its place names. It knows what it saw last of each key."""

    def __init__(self, client: Client, rng: random.Random, place: Place) -> None:
        self.client, self.rng, self.place = client, rng, place
        self.seen: dict[str, str | None] = {}

    def run(self, keys: Sequence[str]) -> None:
        """Makes all calls of the client, one after the other, over connections of its own."""
        with contextlib.ExitStack() as ending:
            nodes = [self.place.writes_at, *self.place.reads_at]
            writer, *readers = [ending.enter_context(connect(node, driver_retries=self.place.driver_retries)) for node in nodes]
            for step in steps(self.rng, keys, self.place.compares):
                time.sleep(step.pause)
                with contextlib.suppress(redis.RedisError, NotConfirmed):
                    self.call(step, writer, self.rng.choice(readers))

    def call(self, step: Step, writer: redis.Redis[str], reader: redis.Redis[str]) -> None:
        """Makes one call, recorded. What it raises was recorded as well.

        A delete at the primary that finds nothing changes nothing there, and no replica is told of it: it fails.
        """
        key, replicas = step.key, self.place.replicas
        if step.word == "read":
            self.seen[key] = self.client.read(key, lambda: reader.get(key))
        elif step.word == "delete":
            self.client.delete(key, lambda: writer.delete(key), found=bool)
        elif step.word == "write":
            value = self.client.new_value()
            self.client.write(key, value, lambda: write(writer, key, value, replicas))
            self.seen[key] = value
        else:
            value, expected = self.client.new_value(), self.seen.get(key)
            self.client.compare_and_set(key, value, lambda: compare_and_set(writer, key, expected, value, replicas))
