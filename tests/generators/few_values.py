"""Makes logs of events of runs in which values repeat: each write is of one of a few values, as of a flag that is switched on and off.

The stores are the correct ones of deleting_stores.py, in simulated time, a seed a run. Tiny logs are of anything at all, or of a store that may
be faulty.
"""

import random
from typing import NamedTuple

import deleting_stores
from deleting_stores import Anything, Setting
from recorded_stores import KINDS, Log

DELETES = (0.0, 0.05, 0.2)


class Size(NamedTuple):
    """How large a run is: its clients, how often each of them calls, of how many keys, and how many values there are."""

    clients: int
    calls: int
    keys: int
    values: int


SIZES = (Size(4, 25, 4, 2), Size(8, 60, 4, 2), Size(8, 60, 20, 2))


class FewValues(Log):
    """A log whose clients write values of a few, by chance."""

    def __init__(self, rng, values):
        super().__init__()
        self.rng, self.many = rng, values

    def new_value(self):
        return self.rng.randrange(self.many)


class AnythingOfFew(Anything):
    """A log of anything at all, whose writes are of one of two values."""

    def begin(self, client, value):
        super().begin(client, self.rng.randrange(2))


def store_log(seed):
    """The log of the run of a correct store of a seed, and what the store promises."""
    kind, rest = KINDS[seed % len(KINDS)], seed // len(KINDS)
    size, deletes = SIZES[rest % len(SIZES)], DELETES[rest // len(SIZES) % len(DELETES)]
    rng = random.Random(f"few values {seed}")
    text, _ = deleting_stores.run_of(Setting(kind, size.clients, size.calls, size.keys, deletes), rng, FewValues(rng, size.values))
    return text, kind.promised


def tiny_log(rng):
    """A log of few calls and two values, of anything or of a store."""
    return AnythingOfFew(rng).text(rng.randint(8, 14)) if rng.random() < 0.5 else deleting_stores.small_log(rng, FewValues(rng, 2))
