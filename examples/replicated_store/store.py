"""A small replicated store in simulated time, with a fault to find.

Every replica holds all keys, and answers a read from what it holds. Of each key one replica takes the writes and the deletes, and the
others refuse them. What it takes goes to the other replicas in messages, each of which takes a time of its own.

A causal replica holds a message back until it has applied all that its sender had applied before. An eager one applies each message as it
comes. That is the fault: a replica may show a write without one that its writer had read, and an older value may replace a newer one.
"""

import math
import random
from collections.abc import Callable
from dataclasses import dataclass, field
from typing import TypeVar

from simulation import Simulation, Sleep

T = TypeVar("T")
TRAVEL_TIMES = (0.1, 1.0)
LATE_TIMES = (4.0, 30.0)
MESSAGE_TIMES = (0.1, 20.0)
TIME_OUT = 5.0


class Refused(Exception):
    """The replica did not take the write or the delete."""


class TimedOut(Exception):
    """No answer came in time. The client can't know whether the request came to the replica, or still will."""


@dataclass(frozen=True)
class Update:
    """A write, or a delete where there is no value: the replica that took it, and how many updates of each one that had applied before."""

    sender: int
    before: tuple[int, ...]
    key: str
    value: str | None


@dataclass
class Replica:
    """One replica: how many updates of each replica it has applied, these in order, the values, and the messages held back."""

    seen: list[int]
    is_eager: bool
    applied: list[Update] = field(default_factory=list)
    values: dict[str, str | None] = field(default_factory=dict)
    held: list[Update] = field(default_factory=list)

    def is_ready(self, update: Update) -> bool:
        """Whether a message may be applied now."""
        return self.is_eager or all(have >= want for have, want in zip(self.seen, update.before))

    def apply(self, update: Update) -> None:
        """An update takes effect here."""
        self.values[update.key] = update.value
        self.seen[update.sender] += 1
        self.applied.append(update)

    def receive(self, update: Update) -> None:
        """A message comes, and it and those held back are applied as far as they are ready."""
        self.held.append(update)
        while ready := next(filter(self.is_ready, self.held), None):
            self.held.remove(ready)
            self.apply(ready)


class Store:
    """The replicas, and the network between them and to their clients. Of requests and answers this share is lost, and as many are late."""

    def __init__(self, replicas: int, is_eager: bool, loss: float, simulation: Simulation, rng: random.Random) -> None:
        self.replicas = [Replica([0] * replicas, is_eager) for _ in range(replicas)]
        self.loss, self.simulation, self.rng = loss, simulation, rng

    async def write(self, at: int, key: str, value: str) -> None:
        """A client's write at a replica. Raises Refused or TimedOut."""
        await self.ask_owner(at, key, lambda: self.update(at, key, value))

    async def delete(self, at: int, key: str) -> bool:
        """A client's delete at a replica: whether there was something to delete. Raises Refused or TimedOut."""
        return await self.ask_owner(at, key, lambda: self.replicas[at].values.get(key) is not None and self.update(at, key, None))

    async def read(self, at: int, key: str) -> str | None:
        """A client's read at a replica: the value, or None where it holds nothing under the key. Raises TimedOut."""
        return await self.ask(lambda: self.replicas[at].values.get(key))

    async def ask_owner(self, at: int, key: str, action: Callable[[], T]) -> T:
        """A request that one replica takes. Another one answers that it refuses."""
        if owner_of(key, len(self.replicas)) == at:
            return await self.ask(action)
        await self.ask(lambda: None)
        raise Refused

    async def ask(self, action: Callable[[], T]) -> T:
        """A request comes to a replica, which acts and answers. A late one does so after the client gave up."""
        there, back = self.travel_time(), self.travel_time()
        answers: list[T] = []
        if there < math.inf:
            self.simulation.after(there, lambda: answers.append(action()))
        if there + back > TIME_OUT:
            await Sleep(TIME_OUT)
            raise TimedOut
        await Sleep(there + back)
        return answers[0]

    def travel_time(self) -> float:
        """How long a request or an answer is on its way: for ever, where it gets lost."""
        fate = self.rng.random()
        if fate < self.loss:
            return math.inf
        return self.rng.uniform(*(LATE_TIMES if fate < 2 * self.loss else TRAVEL_TIMES))

    def update(self, at: int, key: str, value: str | None) -> bool:
        """A replica applies an update, and sends it to the others."""
        update = Update(at, tuple(self.replicas[at].seen), key, value)
        for number, replica in enumerate(self.replicas):
            if number == at:
                replica.apply(update)
            else:
                self.send(update, replica)
        return True

    def send(self, update: Update, replica: Replica) -> None:
        """A message goes to one replica, and may overtake others."""
        self.simulation.after(self.rng.uniform(*MESSAGE_TIMES), lambda: replica.receive(update))


def owner_of(key: str, replicas: int) -> int:
    """The replica that takes the updates of a key."""
    return sum(key.encode()) % replicas

