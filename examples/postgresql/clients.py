"""The clients of a run: each call of PostgreSQL goes through the recorder's client, which notes it before it is made and when it ended."""

from __future__ import annotations

import contextlib
import random
import time
from collections.abc import Sequence

import psycopg2
from causal_judge import Client
from store import NotSent, Store
from workload import Step, steps


class User:
    """A client of a run, which writes at one server, and makes each read at all of some others, one after the other."""

    def __init__(self, client: Client, rng: random.Random, writes_at: int, reads_at: Sequence[int]) -> None:
        self.client, self.rng, self.writes_at, self.reads_at = client, rng, writes_at, reads_at

    def run(self, keys: Sequence[str]) -> None:
        """Makes all calls of the client, one after the other, over connections of its own."""
        with contextlib.ExitStack() as ending:
            writer, *readers = [ending.enter_context(Store(port, str(self.client.name))) for port in (self.writes_at, *self.reads_at)]
            for step in steps(self.rng, keys):
                time.sleep(step.pause)
                with contextlib.suppress(psycopg2.Error, NotSent):
                    self.call(step, writer, self.rng.sample(readers, len(readers)))

    def call(self, step: Step, writer: Store, readers: Sequence[Store]) -> None:
        """Makes one call, or a read at each of these servers, recorded. What it raises was recorded as well."""
        key = step.key
        if step.word == "read":
            for reader in readers:
                self.client.read(key, lambda: reader.get(key))
        elif step.word == "delete":
            self.client.delete(key, lambda: writer.delete(key), found=bool)
        else:
            value = self.client.new_value()
            self.client.write(key, value, lambda: writer.put(key, value))
