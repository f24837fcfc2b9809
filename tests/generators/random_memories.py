"""Makes random memory histories for the tests of `judge --long`: of stores and of none, healthy, planted and spoilt.

Sessions are lists of operations in their form. What these histories show is known to the plain judges alone, but for the kinds that are
planted (planted.py).
"""

from typing import NamedTuple

import planted
import store_runs
from objects import MOST_KEY, MOST_NUMBER, UNKNOWN

THIN = 10**6
RECENT = 12
MOST_WILD = 20


class Shape(NamedTuple):
    """How many sessions a history has, operations each of them at most, and keys."""

    sessions: int
    operations: int
    keys: int


def lengths(rng, shape):
    """How many operations each session has; one has as many as the shape says."""
    found = [rng.randint(0, shape.operations) for _ in range(shape.sessions)]
    found[rng.randrange(shape.sessions)] = shape.operations
    return found


class Write(NamedTuple):
    """A write, and the set of the writes before it, in which a bit stands for each."""

    value: int
    past: int


class Weak:
    """Sessions of which each knows a set of writes, with all that is before them. A read returns one that no other write of its key
    overwrites in what it then knows: so the history is causally consistent, and often nothing more."""

    def __init__(self, sessions):
        self.writes = []
        self.of_key = {}
        self.known = [0] * sessions

    def write(self, session, key):
        value = len(self.writes) + 1
        self.of_key[key] = self.of_key.get(key, 0) | 1 << len(self.writes)
        self.writes.append(Write(value, self.known[session]))
        self.known[session] |= 1 << value - 1
        return value

    def with_all_before(self, session, value):
        """What a session knows once it has read a value."""
        return self.known[session] | self.writes[value - 1].past | 1 << value - 1

    def is_overwritten(self, session, key, value):
        """Whether a session that reads a value knows a write of the key behind it; 0 is behind no write."""
        if value == 0:
            return self.known[session] & self.of_key.get(key, 0) != 0
        rivals = self.with_all_before(session, value) & self.of_key[key] & ~(1 << value - 1)
        return any(rivals >> i & 1 and self.writes[i].past >> value - 1 & 1 for i in range(value, rivals.bit_length()))

    def read(self, rng, session, key, daring):
        """The value that a session reads, and now and then, as it is daring, an overwritten one."""
        some = self.of_key.get(key, 0)
        values = [0] + [i + 1 for i in range(some.bit_length()) if some >> i & 1][-RECENT:]
        value = rng.choice(values)
        if rng.random() >= daring:
            good = [value for value in values if not self.is_overwritten(session, key, value)]
            value = rng.choice(good) if good else (self.known[session] & some).bit_length()
        if value:
            self.known[session] = self.with_all_before(session, value)
        return value


def weak(rng, shape, daring):
    """A history of weak sessions."""
    run, sessions = Weak(shape.sessions), [[] for _ in range(shape.sessions)]
    turns = [s for s, many in enumerate(lengths(rng, shape)) for _ in range(many)]
    rng.shuffle(turns)
    writes = rng.choice((0.3, 0.5, 0.7))
    for s in turns:
        key = rng.randrange(shape.keys)
        if rng.random() < writes:
            sessions[s].append(["w", key, run.write(s, key)])
        else:
            sessions[s].append(["r", key, run.read(rng, s, key, daring)])
    return sessions


def wild(rng, shape):
    """Sessions in which a read returns any value of its key, which may be written later."""
    sessions = [[[rng.choice("wr"), rng.randrange(shape.keys), 0] for _ in range(many)] for many in lengths(rng, shape)]
    values = {key: [] for key in range(shape.keys)}
    for number, operation in enumerate((operation for session in sessions for operation in session if operation[0] == "w"), 1):
        operation[2] = number
        values[operation[1]].append(number)
    for operation in (operation for session in sessions for operation in session if operation[0] == "r"):
        written = values[operation[1]]
        operation[2] = rng.choice(written) if written and rng.random() < 0.8 else 0
    return sessions


def of_store(rng, shape):
    """A run of a store of store_runs.py."""
    store, writes, gap = rng.choice(list(store_runs.STORES)), rng.choice((20, 50, 70)), rng.choice((1, 2, 8, 30))
    run = store_runs.run_of(store, shape.sessions, shape.sessions * shape.operations, shape.keys, rng, writes, gap)
    return [list(map(list, session)) for session in run]


def places(sessions, word):
    """The places of the operations of a word."""
    return [(s, i) for s, session in enumerate(sessions) for i, operation in enumerate(session) if operation[0] == word]


def spoil(rng, sessions):
    """Lets a read return an older value of its key, any other one, the initial one, one that nobody wrote, or what its session writes
    later. Where values rise in the order of writing, a lower one is older."""
    reads = places(sessions, "r")
    if not reads:
        return
    s, i = rng.choice(reads)
    _, key, value = sessions[s][i]
    others = [sessions[t][j][2] for t, j in places(sessions, "w") if sessions[t][j][1] == key]
    later = [operation[1:] for operation in sessions[s][i:] if operation[0] == "w"]
    found = rng.choice((
        [[key, other] for other in others if other < value],
        [[key, other] for other in others if other < value],
        [[key, other] for other in others],
        [[key, 0]],
        [[key, THIN]],
        later,
    ))
    if found:
        sessions[s][i][1:] = rng.choice(found)


def plant(rng, sessions, key, widest):
    """Plants up to two faults, and returns their names."""
    found = []
    for _ in range(rng.choice((1, 1, 1, 2))):
        fault = rng.choice(list(planted.FAULTS))
        many = planted.plant(sessions, fault, rng.randint(1, widest), key, rng)
        key += many
        found += [fault] if many else []
    for session in sessions:
        session[:] = map(list, session)
    return found


def fork(rng, sessions, most):
    """Lets up to so many writes that were read get no answer: each forks off into a session of its own."""
    store_runs.lose(sessions, min(most, len(store_runs.read_writes(sessions))), rng)
    for session in sessions:
        session[:] = map(list, session)


def hide_returns(rng, sessions):
    """Leaves the last operations of some sessions without an answer."""
    for session in sessions:
        if session and rng.random() < 0.2:
            for operation in session[-rng.randint(1, 3) :]:
                operation[2 + (operation[0] == "w") :] = [UNKNOWN]


def fresh_numbers(rng, many, most):
    """So many different numbers from 0 to a greatest one, small ones and large ones."""
    found = set()
    while len(found) < many:
        found.add(min(most, rng.choice((rng.randrange(2 * many + 2), rng.randint(0, most), most - rng.randrange(many + 2)))))
    return rng.sample(sorted(found), many)


def rename(rng, sessions):
    """Puts other keys and values in the place of those that are there, 0 among them, and returns the table of initial values."""
    pairs = {(operation[1], operation[2]) for session in sessions for operation in session if operation[2] != UNKNOWN}
    keys = sorted({operation[1] for session in sessions for operation in session})
    key_names, names, table = dict(zip(keys, fresh_numbers(rng, len(keys), MOST_KEY))), {}, []
    for key in keys:
        values = sorted({value for x, value in pairs if x == key} | {0})
        names.update(zip([(key, value) for value in values], fresh_numbers(rng, len(values), MOST_NUMBER)))
        if rng.random() < 0.5:
            swapped = next((value for value in values if names[key, value] == 0), None)
            if swapped is not None:
                names[key, swapped] = names[key, 0]
            names[key, 0] = 0
        if names[key, 0] != 0:
            table.append([key_names[key], names[key, 0]])
    for session in sessions:
        for operation in session:
            if operation[2] != UNKNOWN:
                operation[2] = names[operation[1], operation[2]]
            operation[1] = key_names[operation[1]]
    unused = [key for key in fresh_numbers(rng, 3, MOST_KEY) if key not in key_names.values()]
    return sorted(table + [[key, rng.randint(1, MOST_NUMBER)] for key in unused if rng.random() < 0.3])


def double(rng, sessions):
    """Writes a value twice, or the initial one."""
    writes = places(sessions, "w")
    if writes:
        s, i = rng.choice(writes)
        t, j = rng.choice(writes)
        key, value = sessions[t][j][1:3] if rng.random() < 0.7 and (s, i) != (t, j) else (sessions[s][i][1], 0)
        sessions[s][i][1:3] = key, value


def memory(rng, shape, widest=1, lost=0):
    """The form of a memory, of which up to so many writes were lost, and the faults that were planted."""
    how = rng.random()
    if how < 0.1 and shape.operations <= MOST_WILD:
        sessions = wild(rng, shape)
    elif how < 0.6:
        sessions = weak(rng, shape, rng.choice((0, 0, 1, 4)) / (shape.sessions * shape.operations))
    else:
        sessions = of_store(rng, shape)
    faults = plant(rng, sessions, shape.keys, widest) if rng.random() < 0.4 else []
    if rng.random() < 0.3:
        spoil(rng, sessions)
    fork(rng, sessions, lost)
    if rng.random() < 0.3:
        hide_returns(rng, sessions)
    if rng.random() < 0.03:
        double(rng, sessions)
    table = rename(rng, sessions) if rng.random() < 0.3 else []
    return ["memory", sessions, *([table] if table else [])], faults


def small(rng):
    """A memory of few sessions and operations."""
    return memory(rng, Shape(rng.randint(1, 6), rng.randint(1, 8), rng.randint(1, 4)))[0]


def wide(rng):
    """A memory of 17 to 40 sessions, and of one more for each write that was lost."""
    lost = rng.choice((0, 0, 5, 100))
    return memory(rng, Shape(rng.randint(17, 40), rng.choice((2, 4, 8, 20)), rng.choice((1, 2, 4, 8, 30))), 6, lost)


def tall(rng):
    """A memory of some sessions, of which one has more than 256 operations and none many more than 400."""
    return memory(rng, Shape(rng.randint(1, 3), rng.randint(257, 400), rng.choice((1, 2, 8, 60))))
