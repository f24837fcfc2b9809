"""Makes logs of events of runs in which keys are deleted: of anything at all, of correct stores, and of stores with a planted fault.

The stores are those of recorded_stores.py, in simulated time, a seed a run, with requests and answers that get lost or come late. Each
client has a replica. A fault shows at a replica by chance:

    lost write        a write of a key that the replica holds as deleted is answered and has no effect
    evicted key       a value that the replica holds is gone when it is read
    resurrected value a value that was deleted at the replica is there again when it is read
    any replica       a read is answered by any replica

None is a fault that a client has to be able to see: a run of a faulty store can be one of a correct store.
"""

import json
import random
from typing import NamedTuple

from recorded_stores import KINDS, PAUSES, Kind, Log, Store, User
from simulation import Simulation

FAULTS = ("lost write", "evicted key", "resurrected value", "any replica")
DELETES = (0.05, 0.2, 0.4)
RATES = {"lost write": 1.0, "evicted key": 0.05, "resurrected value": 0.2, "any replica": 0.2}


class Setting(NamedTuple):
    """A run: the kind of its store, how many clients call how often, of how many keys, the share of deletes among writes, and the fault
    with the chance that it shows where it can."""

    kind: Kind
    clients: int
    calls: int
    keys: int
    deletes: float
    fault: str = ""
    rate: float = 0.0


class FaultyReplicas(Store):
    """A store in which a fault shows at a replica by chance, and how often it did."""

    def __init__(self, setting, simulation, rng):
        super().__init__(setting.kind, simulation, rng)
        self.fault, self.rate, self.shown, self.deleted = setting.fault, setting.rate, 0, {}

    def shows(self, fault, can_show):
        """Whether a fault shows, where it can."""
        is_shown = self.fault == fault and can_show and self.rng.random() < self.rate
        self.shown += is_shown
        return is_shown

    def write(self, at, key, value, refused=0.03):
        """A replica is asked to write, or to delete where there is no value: whether it says that it did."""
        stamp, held = self.replicas[at].entries.get(key, (None, None))
        if value is not None and self.shows("lost write", stamp is not None and held is None):
            return True
        if value is None and held is not None:
            self.deleted[at, key] = held
        return super().write(at, key, value, refused)

    def read(self, at, key):
        """What a replica holds under a key, if anything."""
        if self.shows("any replica", len(self.replicas) > 1):
            at = self.rng.randrange(len(self.replicas))
        entries = self.replicas[at].entries
        stamp, held = entries.get(key, (None, None))
        if self.shows("evicted key", held is not None):
            entries[key] = stamp, None
        if self.shows("resurrected value", stamp is not None and held is None and (at, key) in self.deleted):
            entries[key] = stamp, self.deleted[at, key]
        return super().read(at, key)


def delete(user, key):
    """A call of a delete."""
    at = user.at
    call = user.session.begin("d", key)
    is_answered, is_taken = yield from user.ask(call, lambda: user.store.write(at, key, None))
    if is_answered:
        (call.end if is_taken else call.drop)()


def client(user, setting):
    """A client, which calls, waits and pauses."""
    rng = user.store.rng
    for _ in range(setting.calls):
        yield rng.uniform(*PAUSES)
        key = rng.randrange(setting.keys)
        if rng.random() < 0.5:
            yield from user.read(key)
        else:
            yield from (delete(user, key) if rng.random() < setting.deletes else user.write(key))


def run_of(setting, rng, log=None):
    """The log of a run, and how often the fault showed. The log that is given chooses the values."""
    simulation, log = Simulation(), log or Log()
    store = FaultyReplicas(setting, simulation, rng)
    for number in range(setting.clients):
        simulation.start(client(User(store, log, number % setting.kind.replicas, ""), setting))
    simulation.run()
    return log.text(), store.shown


def setting_of(seed, fault=""):
    """The setting of a seed: four clients call 25 times each, of four keys. Of one replica alone each client has the same."""
    kinds = KINDS[1:] if fault == "any replica" else KINDS
    return Setting(kinds[seed % len(kinds)], 4, 25, 4, DELETES[seed // len(kinds) % len(DELETES)], fault, RATES.get(fault, 0.0))


def store_log(seed, fault=""):
    """The log of the run of a seed, in which the fault showed, if there is one: the first such run of the seed. And what the store
    promises."""
    setting = setting_of(seed, fault)
    for number in range(100):
        text, shown = run_of(setting, random.Random(f"{fault} {seed} {number}"))
        if shown or not fault:
            return text, setting.kind.promised
    raise SystemExit(f"no run of seed {seed} shows {fault}")


def small_log(rng, log=None):
    """The log of a small run of a store, which may be faulty, with few calls. The log that is given chooses the values."""
    fault = rng.choice(("", *FAULTS))
    setting = Setting(rng.choice(KINDS), rng.randint(2, 4), rng.randint(2, 4), rng.randint(1, 2), rng.choice((0.2, 0.4, 0.6)), fault, 0.5)
    return run_of(setting, rng, log)[0]


class Anything:
    """A log of anything at all: each call ends as it likes, and a read finds nothing or some value that was written."""

    def __init__(self, rng):
        self.rng, self.pending, self.written, self.events = rng, {}, {}, []
        self.clients, self.keys, self.deletes = rng.randint(2, 4), rng.randint(1, 2), rng.choice((0.2, 0.35, 0.5))
        for key in range(self.keys):
            if rng.random() < 0.1:
                self.events.append(["start", key, 0])
                self.written[key] = [0]

    def begin(self, client, value):
        """A client calls. A value is new."""
        key, word = self.rng.randrange(self.keys), "r" if self.rng.random() < 0.5 else "d" if self.rng.random() < self.deletes else "w"
        self.events.append(["begin", client, [word, key, value] if word == "w" else [word, key]])
        self.pending[client] = word, key, value

    def end(self, client):
        """The call of a client ends."""
        (word, key, value), chance = self.pending.pop(client), self.rng.random()
        if word == "w" and chance > 0.06:
            self.written.setdefault(key, []).append(value)
        if chance < 0.16:
            self.events.append(["fail" if chance < 0.06 else "lost", client])
            return
        found = self.rng.choice(self.written[key]) if key in self.written and self.rng.random() < 0.5 else None
        self.events.append(["end", client, found if word == "r" else "ok"])

    def text(self, calls):
        """The log of so many calls, some of which stay open."""
        begun = 0
        while begun < calls or self.pending and self.rng.random() < 0.9:
            client = self.rng.randrange(self.clients)
            if client in self.pending:
                self.end(client)
            elif begun < calls:
                begun += 1
                self.begin(client, begun)
        return "".join(f"{json.dumps(event)}\n" for event in self.events)


def tiny_log(rng):
    """A log of few calls, of anything or of a store."""
    return Anything(rng).text(rng.randint(4, 9)) if rng.random() < 0.5 else small_log(rng)
