"""A small replicated store and its clients, for the tests of importers: a seed gives a run, whose calls are told as they begin and end.

A request takes effect between its begin and its end. Some are refused. Some get no answer: these take effect in time, or late, or never.
After such a one the client connects to any replica, which knows nothing of what the client has seen.
"""

import itertools
import random
import unittest
from dataclasses import dataclass
from typing import NamedTuple

CLIENTS, CALLS, KEYS = 4, 14, (0, 1, "k")
REFUSED, UNHEARD, LATE, NEVER = 0.05, 0.05, 0.06, 0.04
STOPPED, DROPPED = 0.3, 0.4


class Kind(NamedTuple):
    """A kind of store: how many replicas it has, whether stamps settle concurrent writes, and which criteria it promises."""

    replicas: int
    is_by_stamp: bool
    promised: tuple


KINDS = (Kind(1, False, ("cc", "cm", "ccv")), Kind(3, False, ("cc", "cm")), Kind(3, True, ("cc", "ccv")))


@dataclass
class Call:
    """A call: "r", "w" (of a value, or of nothing), "d" (a delete, which fails where nothing is there), or "c", a compare-and-set.

    Its outcome is "ok", "fail" or "lost"; none while it is pending. The times are counts of steps.
    """

    client: int
    at: int
    word: str
    key: object
    value: object
    old: object
    start: int
    end: int | None = None
    outcome: str | None = None
    found: object = None


class Update(NamedTuple):
    """A write as replicas tell it: its sender, what that had taken in of each replica, its stamp, the key, and the value or nothing."""

    sender: int
    before: tuple
    stamp: tuple
    key: object
    value: object


class Replica:
    """What one replica holds, and which updates wait for those that they depend on."""

    def __init__(self, kind):
        self.is_by_stamp, self.clock, self.seen, self.waiting, self.held = kind.is_by_stamp, 0, [0] * kind.replicas, [], {}

    def take(self, update):
        self.clock = max(self.clock, update.stamp[0])
        self.seen[update.sender] += 1
        if not self.is_by_stamp or update.key not in self.held or update.stamp > self.held[update.key][0]:
            self.held[update.key] = update.stamp, update.value

    def deliver(self, rng):
        """One of the updates whose dependencies are all here is taken in."""
        ready = [update for update in self.waiting if all(map(int.__ge__, self.seen, update.before))]
        if ready:
            update = rng.choice(ready)
            self.waiting.remove(update)
            self.take(update)

    def read(self, key):
        return self.held.get(key, (None, None))[1]


class Store:
    """The replicas. A store with the fault answers some writes that it drops."""

    def __init__(self, kind, rng, has_fault):
        self.replicas, self.rng, self.has_fault = [Replica(kind) for _ in range(kind.replicas)], rng, has_fault

    def write(self, at, key, value):
        if self.has_fault and self.rng.random() < DROPPED:
            return
        sender = self.replicas[at]
        update = Update(at, tuple(sender.seen), (sender.clock + 1, at), key, value)
        sender.take(update)
        for replica in self.replicas:
            if replica is not sender:
                replica.waiting.append(update)

    def answer(self, call):
        """The call takes effect at its client's replica: its outcome."""
        at = call.at
        held = self.replicas[at].read(call.key)
        if call.word == "r":
            call.found = held
        elif (call.word == "c" and held != call.old) or (call.word == "d" and held is None):
            return "fail"
        else:
            self.write(at, call.key, call.value)
        return "ok"


class Run:
    """A run of the store: its calls, and what is told of them, as pairs of "begin" or "end" and a call."""

    def __init__(self, seed, words, has_fault=False):
        self.rng, self.kind = random.Random(seed), KINDS[seed % len(KINDS)]
        self.store = Store(self.kind, self.rng, has_fault)
        self.words, self.told, self.late, self.now = words, [], [], 0
        self.numbers = {client: itertools.count(1) for client in range(CLIENTS)}
        self.places = {client: client % self.kind.replicas for client in range(CLIENTS)}
        self.steps = {client: self.client(client) for client in range(CLIENTS)}
        while self.steps:
            self.step()

    def step(self):
        """One thing happens: a client goes on, a replica takes in an update, or a late request takes effect."""
        self.now += 1
        chance = self.rng.random()
        if chance < 0.6:
            client = self.rng.choice(list(self.steps))
            if next(self.steps[client], None) is None:
                del self.steps[client]
        elif chance < 0.9:
            self.rng.choice(self.store.replicas).deliver(self.rng)
        elif self.late:
            self.store.answer(self.late.pop(self.rng.randrange(len(self.late))))

    def client(self, client):
        """A client calls, and pauses where it yields. It may stop while a call is pending."""
        for number in range(CALLS):
            call = self.new_call(client)
            self.told.append(("begin", call))
            yield True
            outcome = self.outcome_of(call)
            yield True
            if number == CALLS - 1 and self.rng.random() < STOPPED:
                return
            call.end, call.outcome = self.now, outcome
            self.told.append(("end", call))
            if outcome == "lost":
                self.places[client] = self.rng.randrange(self.kind.replicas)
            yield True

    def new_call(self, client):
        """A call of any word, with a value that nobody else writes. A compare-and-set often knows what is there."""
        word, key, number = self.rng.choice(self.words), self.rng.choice(KEYS), next(self.numbers[client])
        value = f"v{client}.{number}" if number % 2 else 1_000 * client + number
        if word == "d" or (word == "w" and self.rng.random() < 0.1):
            value = None
        at = self.places[client]
        old = self.store.replicas[at].read(key) if self.rng.random() < 0.8 else "no such value"
        return Call(client, at, word, key, value, old, self.now)

    def outcome_of(self, call):
        """What becomes of a call."""
        chance = self.rng.random()
        for fate, share in (("fail", REFUSED), ("unheard", UNHEARD), ("late", LATE), ("never", NEVER)):
            if chance < share:
                break
            chance -= share
        else:
            return self.store.answer(call)
        if fate == "unheard":
            self.store.answer(call)
        elif fate == "late":
            self.late.append(call)
        return "fail" if fate == "fail" else "lost"


class Runs(unittest.TestCase):
    def test_a_run_has_calls_of_each_outcome(self):
        for words in ("rw", "rwd", "rwc"):
            for seed in range(len(KINDS)):
                calls = [call for kind, call in Run(seed, words).told if kind == "begin"]
                self.assertEqual(len(calls), CLIENTS * CALLS)
                self.assertLessEqual({"ok", "fail", "lost"}, {call.outcome for call in calls})
                self.assertTrue(all(call.start < call.end for call in calls if call.outcome))

    def test_a_seed_gives_one_run(self):
        self.assertEqual(Run(1, "rwd").told, Run(1, "rwd").told)
        self.assertNotEqual(Run(1, "rwd").told, Run(4, "rwd").told)


if __name__ == "__main__":
    unittest.main()
