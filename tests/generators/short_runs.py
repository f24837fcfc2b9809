"""Makes memory histories of 16 sessions of up to 256 operations, healthy and with one fault, the same ones each time.

Each history is a run of a replicated store: every session has a replica that takes in the writes of the other sessions
at random times, a write only after all that is before it, and a read returns what its replica wrote or took in last
under its key. So the history is causally consistent, and its values are distinct.

Shapes: keys1 and keys64 write and read 1 and 64 keys at random; mutual has every session write its own key and read
that of another session in turn, with all the writes taken in before each read.

Faults: stale, a read of a value that was overwritten before the read; thin, a read of a value that nobody wrote; init, a
read of the initial value after a write; swap, two reads of one session that return each other's value.
"""

import json
import random
from dataclasses import dataclass, field

SESSIONS = 16
SIZES = (16, 64, 256)
SHAPES = ("keys1", "keys64", "mutual")
FAULTS = ("stale", "thin", "init", "swap")


@dataclass(frozen=True)
class Operation:
    """A write of a value or a read that returned it; 0 is the initial value."""

    kind: str
    key: int
    value: int

    def form(self):
        return [self.kind, self.key, self.value]


@dataclass
class Replica:
    """What one session sees: how many writes of each session it has taken in, and the last value under each key."""

    seen: list
    values: dict = field(default_factory=dict)


class Run:
    """A run of the store. `writes[s]` lists the writes of a session, each with what its session had seen before it."""

    def __init__(self, sessions, rng):
        self.rng = rng
        self.operations = [[] for _ in range(sessions)]
        self.writes = [[] for _ in range(sessions)]
        self.replicas = [Replica([0] * sessions) for _ in range(sessions)]
        self.order = []
        self.next_value = 1

    def record(self, session, operation):
        self.order.append((session, len(self.operations[session])))
        self.operations[session].append(operation)

    def write(self, session, key):
        replica = self.replicas[session]
        self.writes[session].append((key, self.next_value, list(replica.seen)))
        replica.seen[session] += 1
        replica.values[key] = self.next_value
        self.record(session, Operation("w", key, self.next_value))
        self.next_value += 1

    def read(self, session, key):
        self.record(session, Operation("r", key, self.replicas[session].values.get(key, 0)))

    def ready(self, session):
        """The sessions whose next write the replica may take in."""
        seen = self.replicas[session].seen
        for other, writes in enumerate(self.writes):
            if other != session and seen[other] < len(writes):
                before = writes[seen[other]][2]
                if all(have >= want for have, want in zip(seen, before)):
                    yield other

    def take_in(self, session, most):
        """Takes in up to `most` writes of other sessions."""
        replica = self.replicas[session]
        for _ in range(most):
            ready = list(self.ready(session))
            if not ready:
                return
            other = self.rng.choice(ready)
            key, value, _ = self.writes[other][replica.seen[other]]
            replica.values[key] = value
            replica.seen[other] += 1


def random_run(operations, keys, rng):
    """Half writes, half reads; each session takes in a few writes now and then."""
    run = Run(SESSIONS, rng)
    turns = [s for s in range(SESSIONS) for _ in range(operations)]
    rng.shuffle(turns)
    for session in turns:
        run.take_in(session, rng.randrange(24))
        key = rng.randrange(keys)
        if rng.random() < 0.5:
            run.write(session, key)
        else:
            run.read(session, key)
    return run


def mutual_run(operations, rng):
    """Each session writes its own key and reads another session's, in turn."""
    run = Run(SESSIONS, rng)
    for index in range(operations):
        sessions = list(range(SESSIONS))
        rng.shuffle(sessions)
        for session in sessions:
            if index % 2 == 0:
                run.write(session, session)
            else:
                run.take_in(session, operations * SESSIONS)
                other = rng.randrange(SESSIONS - 1)
                run.read(session, other + (other >= session))
    return run


def make_run(shape, operations, rng):
    if shape == "mutual":
        return mutual_run(operations, rng)
    return random_run(operations, int(shape.removeprefix("keys")), rng)


class Past:
    """The causal order of a run: vectors that count, for each operation, what is before it, itself among them."""

    def __init__(self, run):
        self.operations = run.operations
        self.writer = {}
        self.vectors = [[] for _ in run.operations]
        for session, index in run.order:
            operation = run.operations[session][index]
            vector = list(self.vectors[session][-1]) if index else [0] * len(run.operations)
            if operation.kind == "w":
                self.writer[operation.value] = (session, index)
            elif operation.value:
                source = self.vector(self.writer[operation.value])
                vector = [max(pair) for pair in zip(vector, source)]
            vector[session] = index + 1
            self.vectors[session].append(vector)

    def vector(self, op):
        return self.vectors[op[0]][op[1]]

    def is_before(self, a, b):
        return a != b and self.vector(b)[a[0]] > a[1]

    def writes_before(self, op):
        """The writes to the key of an operation that come before the operation before it in its session."""
        session, index = op
        if index == 0:
            return []
        key = self.operations[session][index].key
        counts = self.vectors[session][index - 1]
        return [
            (s, i)
            for s, count in enumerate(counts)
            for i, other in enumerate(self.operations[s][:count])
            if other.kind == "w" and other.key == key
        ]

    def value(self, op):
        return self.operations[op[0]][op[1]].value

    def reads(self):
        """The reads of the second half of each session, those nearest to three quarters of it first."""
        ops = [
            (s, i)
            for s, operations in enumerate(self.operations)
            for i, operation in enumerate(operations)
            if operation.kind == "r" and 2 * i >= len(operations)
        ]
        middle = len(self.operations) // 2
        return sorted(ops, key=lambda op: (abs(4 * op[1] - 3 * len(self.operations[op[0]])), abs(op[0] - middle)))


def stale(past):
    for read in past.reads():
        writes = past.writes_before(read)
        for old in writes:
            if any(past.is_before(old, new) for new in writes):
                return {read: past.value(old)}
    return None


def thin(past):
    for read in past.reads():
        return {read: max(past.writer, default=0) + 1}
    return None


def init(past):
    for read in past.reads():
        if past.writes_before(read):
            return {read: 0}
    return None


def swap(past):
    for second in past.reads():
        session, index = second
        operation = past.operations[session][index]
        for earlier in range(index - 1, -1, -1):
            first = past.operations[session][earlier]
            if (first.kind, first.key) != ("r", operation.key) or first.value in (0, operation.value):
                continue
            old, new = past.writer[first.value], past.writer[operation.value]
            if past.is_before(old, new) and not past.is_before((session, earlier), new):
                return {(session, earlier): operation.value, second: first.value}
    return None


PLANTS = {"stale": stale, "thin": thin, "init": init, "swap": swap}


def text_of(operations):
    sessions = [[operation.form() for operation in session] for session in operations]
    return json.dumps(["memory", sessions], separators=(",", ":")) + "\n"


def with_values(operations, changes):
    """The operations, with some reads returning other values."""
    changed = [list(session) for session in operations]
    for (session, index), value in changes.items():
        before = changed[session][index]
        changed[session][index] = Operation(before.kind, before.key, value)
    return changed


def histories_of(shape, operations):
    """The first run, by its seed, in which each fault can be planted, healthy and with each fault."""
    for seed in range(1000):
        run = make_run(shape, operations, random.Random(f"{shape} {operations} {seed}"))
        past = Past(run)
        changes = {fault: PLANTS[fault](past) for fault in FAULTS}
        if all(changes.values()):
            yield "healthy", run.operations
            for fault in FAULTS:
                yield fault, with_values(run.operations, changes[fault])
            return
    raise SystemExit(f"no run of {shape} with {operations} operations takes every fault")
