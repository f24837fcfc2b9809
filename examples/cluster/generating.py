"""Makes what the example judges: small histories, one a line, and long logs of events. A seed gives the same ones each time.

Each is a run of a simulated store of three replicas. A replica answers its clients at once, and sends each write to the others, which take
it in later, after the writes that it depends on; of two writes of a key the one with the greater stamp of a Lamport clock counts. Such a
store is causal, and its replicas converge: it promises `cc` and `ccv`. In some runs there is a fault: now and then a replica answers a read
from a stale cache.
"""

import json
import random
from collections import deque
from collections.abc import Iterator
from pathlib import Path
from typing import NamedTuple

REPLICAS = 3
LEAST_CLIENTS, MOST_CLIENTS = 3, 6
LEAST_CALLS, MOST_CALLS = 8, 30
WRITES = 0.35
SLOW, QUICK = 0.3, 0.9
LOST = 0.002
FAULTY_HISTORIES, FAULTY_LOGS = 0.1, 0.2
STALE_OF_HISTORY, STALE_OF_LOG = 0.2, 0.001
Stamp = tuple[int, int]
FIRST: Stamp = (0, 0)


class Shape(NamedTuple):
    """How many clients a run has, calls and keys, and how many of its reads are answered from a stale cache."""

    clients: int
    calls: int
    keys: int
    stale: float


class Write(NamedTuple):
    """A write as a replica sends it: its key, its value, its stamp, and how many writes of each replica come before it."""

    key: int
    value: int
    stamp: Stamp
    after: tuple[int, ...]


class Call(NamedTuple):
    """A call of a client: `w` or `r`, the key, the value (none where a read found nothing), and whether its answer was lost."""

    client: int
    kind: str
    key: int
    value: int | None
    is_lost: bool


class Replica:
    """A replica: of each key the value with the greatest stamp and the one before it, and the writes that it has not taken in yet."""

    def __init__(self, number: int) -> None:
        self.number = number
        self.clock = 0
        self.held: dict[int, tuple[Stamp, int]] = {}
        self.stale: dict[int, int | None] = {}
        self.taken = [0] * REPLICAS
        self.waiting: list[deque[Write]] = [deque() for _ in range(REPLICAS)]

    def apply(self, sender: int, write: Write) -> None:
        """Takes a write in, of this replica or of another one."""
        self.taken[sender] += 1
        self.clock = max(self.clock, write.stamp[0])
        stamp, value = self.held.get(write.key, (FIRST, None))
        if stamp < write.stamp:
            self.held[write.key] = write.stamp, write.value
            self.stale[write.key] = value

    def write(self, key: int, value: int) -> Write:
        """Answers a write of a client, and returns what the others are sent."""
        made = Write(key, value, (self.clock + 1, self.number), tuple(self.taken))
        self.apply(self.number, made)
        return made

    def read(self, key: int, is_stale: bool) -> int | None:
        """Answers a read of a client."""
        if is_stale:
            return self.stale.get(key)
        return self.held[key][1] if key in self.held else None

    def take_in(self, sender: int) -> bool:
        """Takes in the next write of another replica, and says whether it did: it waits for the writes before it."""
        waiting = self.waiting[sender]
        if not waiting or any(have < need for have, need in zip(self.taken, waiting[0].after)):
            return False
        self.apply(sender, waiting.popleft())
        return True


def run_of(rng: random.Random, shape: Shape) -> Iterator[Call]:
    """The calls of a run, in the order of time."""
    replicas = [Replica(number) for number in range(REPLICAS)]
    paces = [[rng.choice((SLOW, QUICK)) for _ in replicas] for _ in replicas]
    for value in range(1, shape.calls + 1):
        client, key = rng.randrange(shape.clients), rng.randrange(shape.keys)
        replica = replicas[client % REPLICAS]
        for sender in range(REPLICAS):
            while rng.random() < paces[replica.number][sender] and replica.take_in(sender):
                pass
        if rng.random() < WRITES:
            write = replica.write(key, value)
            for other in replicas:
                if other is not replica:
                    other.waiting[replica.number].append(write)
            yield Call(client, "w", key, value, rng.random() < LOST)
        else:
            yield Call(client, "r", key, replica.read(key, rng.random() < shape.stale), False)


def history_of(calls: Iterator[Call], clients: int) -> str:
    """The history of a run as a line of `judge --lines`: an unread key holds 0. A lost answer is written as an answer here."""
    sessions: list[list[list[str | int]]] = [[] for _ in range(clients)]
    for call in calls:
        sessions[call.client].append([call.kind, call.key, call.value or 0])
    return json.dumps(["memory", sessions], separators=(",", ":"))


def events_of(call: Call) -> Iterator[list[object]]:
    """The events of a call: its begin, and how it ended."""
    client, key = f"client {call.client}", f"key {call.key}"
    yield ["begin", client, ["w", key, f"v{call.value}"] if call.kind == "w" else ["r", key]]
    if call.is_lost:
        yield ["lost", client]
    else:
        yield ["end", client, "ok" if call.kind == "w" else call.value and f"v{call.value}"]


def histories(seed: int, many: int) -> list[str]:
    """So many small histories, each as a line."""
    rng, made = random.Random(f"histories {seed}"), []
    for _ in range(many):
        clients, calls = rng.randint(LEAST_CLIENTS, MOST_CLIENTS), rng.randint(LEAST_CALLS, MOST_CALLS)
        stale = STALE_OF_HISTORY if rng.random() < FAULTY_HISTORIES else 0.0
        made.append(history_of(run_of(rng, Shape(clients, calls, 3, stale)), clients))
    return made


def write_logs(seed: int, many: int, least: int, most: int, folder: Path) -> list[Path]:
    """Writes so many logs of `least` to `most` operations each into a folder, and returns their paths."""
    rng, paths = random.Random(f"logs {seed}"), []
    for number in range(many):
        shape = Shape(rng.randint(4, 16), rng.randint(least, most), 50, STALE_OF_LOG if rng.random() < FAULTY_LOGS else 0.0)
        paths.append(folder / f"log-{number:03}.jsonl")
        with paths[-1].open("w", encoding="utf-8") as log:
            for call in run_of(rng, shape):
                log.writelines(json.dumps(event, separators=(",", ":")) + "\n" for event in events_of(call))
    return paths
