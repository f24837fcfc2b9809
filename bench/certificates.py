#!/usr/bin/env python3
"""Makes inputs of full size for the command `check`: a history of memory, and a certificate that it meets a criterion.

    python3 bench/certificates.py OUTDIR

Each session writes and reads in turn. A write puts a fresh value at one of the keys. A read asks for the key that
another session wrote last, the other sessions one after the other. All operations run one at a time on one memory, in
an order drawn from a fixed seed. So the history is causal, and that order explains it: the vector of an operation
counts what comes before it in its session and what it read from, and what comes before those; its schedule, like the
list of causal convergence, has the order of the run.

One file for each size and criterion: OUTDIR/memory-SESSIONSxOPERATIONS-CRITERION.json, with `[history, certificate]`.

Beside them stand OUTDIR/apart-SESSIONSxOPERATIONS-CRITERION.json for causal consistency and causal memory: sessions that write and
read a key of their own, where each operation counts all earlier ones, and whose schedules go round the sessions up and down in turn,
so that no two neighbours begin alike. Of those in OUTDIR/turned-SESSIONSxOPERATIONS-CRITERION.json each goes round from the next
session, so that of any so many schedules of a session in a row as there are sessions no two begin alike, whichever workers take them.
"""

import argparse
import json
import random
from pathlib import Path
from typing import NamedTuple

SIZES = [(16, 256), (16, 64), (16, 16)]
KEYS = 24
SEED = 2017


class Operation(NamedTuple):
    """An operation of a run, in the order of the run."""

    session: int
    index: int
    form: list
    read_from: int | None


def session_order(sessions, operations, rng):
    """Session numbers, each as often as it has operations, in an order drawn at random."""
    order = [session for session in range(sessions) for _ in range(operations)]
    rng.shuffle(order)
    return order


def run(sessions, operations, rng):
    """The operations of a run on one memory, one at a time.

    `read_from` is the place in the run of the write that a read sees, or `None` for the initial value 0 and for a write.
    """
    memory = {}
    last_key = list(range(sessions))
    performed = []
    done = [0] * sessions
    for session in session_order(sessions, operations, rng):
        index = done[session]
        done[session] += 1
        if index % 2 == 0:
            key, value = rng.randrange(KEYS), len(performed) + 1
            performed.append(Operation(session, index, ["w", key, value], None))
            memory[key] = value, len(performed) - 1
            last_key[session] = key
        else:
            other = (session + 1 + index // 2 % (sessions - 1)) % sessions
            key = last_key[other]
            value, writer = memory.get(key, (0, None))
            performed.append(Operation(session, index, ["r", key, value], writer))
    return performed


def vectors_of(performed, sessions):
    """For each operation of the run, how many operations of each session are in its past, itself among them."""
    vectors = []
    latest = [[0] * sessions for _ in range(sessions)]
    for operation in performed:
        vector = list(latest[operation.session])
        if operation.read_from is not None:
            vector = list(map(max, vector, vectors[operation.read_from]))
        vector[operation.session] = operation.index + 1
        vectors.append(vector)
        latest[operation.session] = vector
    return vectors


def schedules_of(performed, vectors):
    """For each operation of the run, the sessions of its past in the order of the run."""
    return [
        [earlier.session for earlier in performed[: place + 1] if earlier.index < vector[earlier.session]]
        for place, vector in enumerate(vectors)
    ]


def by_session(performed, items, sessions):
    """What belongs to each operation, as one list for each session."""
    lists = [[] for _ in range(sessions)]
    for operation, item in zip(performed, items):
        lists[operation.session].append(item)
    return lists


def inputs(sessions, operations):
    """The history, and a certificate for each criterion."""
    performed = run(sessions, operations, random.Random(SEED))
    history = ["memory", by_session(performed, [operation.form for operation in performed], sessions)]
    past = vectors_of(performed, sessions)
    vectors = by_session(performed, past, sessions)
    schedules = by_session(performed, schedules_of(performed, past), sessions)
    arbitration = [operation.session for operation in performed]
    return history, [["cc", vectors, schedules], ["cm", vectors, schedules], ["ccv", vectors, arbitration]]


def up_and_down(sessions):
    """The sessions in order, and in the order turned back."""
    return list(range(sessions)), list(range(sessions - 1, -1, -1))


def turned(sessions):
    """The sessions in order from each of them on."""
    return [[(first + place) % sessions for place in range(sessions)] for first in range(sessions)]


def apart(sessions, operations, rounds):
    """A history, and certificates of it whose schedules go round the sessions in these rounds, one after the other."""
    indices = range(operations)
    forms = [
        [["r" if index % 2 else "w", session, 1 + index // 2 * sessions + session] for index in indices]
        for session in range(sessions)
    ]
    vectors = [
        [[index + (other == session) for other in range(sessions)] for index in indices] for session in range(sessions)
    ]
    schedules = [[rounds[index % len(rounds)] * index + [session] for index in indices] for session in range(sessions)]
    return ["memory", forms], [["cc", vectors, schedules], ["cm", vectors, schedules]]


def write(folder, name, sessions, operations, made):
    """Writes a history with each of its certificates."""
    history, certificates = made
    for certificate in certificates:
        path = folder / f"{name}-{sessions}x{operations}-{certificate[0]}.json"
        path.write_text(json.dumps([history, certificate], separators=(",", ":")))
        print(path, path.stat().st_size, "bytes")


def main():
    parser = argparse.ArgumentParser(description=__doc__, formatter_class=argparse.RawDescriptionHelpFormatter)
    parser.add_argument("folder", metavar="OUTDIR", type=Path)
    folder = parser.parse_args().folder
    folder.mkdir(parents=True, exist_ok=True)
    for sessions, operations in SIZES:
        write(folder, "memory", sessions, operations, inputs(sessions, operations))
        write(folder, "apart", sessions, operations, apart(sessions, operations, up_and_down(sessions)))
        write(folder, "turned", sessions, operations, apart(sessions, operations, turned(sessions)))


if __name__ == "__main__":
    main()
