"""The clients of a run: each call of etcd goes through the recorder's client, which notes it before it is made and when it ended.

Which faults are certain: `NotDone`, where no connection could be made, or where the member says by code 3 (`InvalidArgument`) that the
request has no right form. Every other fault leaves open what happened, and the recorder says `lost`: a time-out, a broken connection, and
also the errors of a member that lost its leader, waited too long or has no space. The last one answers, too, writes that were made all the
same.
"""

from __future__ import annotations

import contextlib
import random
import time
from collections.abc import Sequence

from causal_judge import Client
from gateway import Gateway, NotDone, NotKnown
from members import Member
from workload import Step, steps

CERTAIN = NotDone


class User:
    """A client of a run, which makes each call at any of the members. It knows what it saw last of each key."""

    def __init__(self, client: Client, rng: random.Random, members: Sequence[Member], is_serializable: bool, compares: bool) -> None:
        self.client, self.rng, self.members, self.is_serializable, self.compares = client, rng, members, is_serializable, compares
        self.seen: dict[str, str | None] = {}

    def run(self, keys: Sequence[str]) -> None:
        """Makes all calls of the client, one after the other, over connections of its own."""
        with contextlib.ExitStack() as ending:
            gateways = [ending.enter_context(Gateway(member.port)) for member in self.members]
            for step in steps(self.rng, keys, self.compares):
                time.sleep(step.pause)
                with contextlib.suppress(NotDone, NotKnown):
                    self.call(step, self.rng.choice(gateways))

    def call(self, step: Step, gateway: Gateway) -> None:
        """Makes one call, recorded. What it raises was recorded as well.

        All members make deletes in one order, and one that finds nothing changes nothing at any of them: it fails.
        """
        key = step.key
        if step.word == "read":
            self.seen[key] = self.client.read(key, lambda: gateway.get(key, self.is_serializable))
        elif step.word == "delete":
            self.client.delete(key, lambda: gateway.delete(key), found=bool)
        elif step.word == "write":
            value = self.client.new_value()
            self.client.write(key, value, lambda: gateway.put(key, value))
            self.seen[key] = value
        else:
            value, expected = self.client.new_value(), self.seen.get(key)
            self.client.compare_and_set(key, value, lambda: gateway.compare_and_set(key, expected, value))
