#!/usr/bin/env python3
"""Checks the inputs of the command `check` by the rules of certificates, written down plainly and apart from the program.

    python3 tests/plain/recheck.py FILE..

For each file it prints whether every piece of the certificate explains its operation, and ends with status 1 where one
does not.
"""

import json
import sys
from operator import le

from objects import OBJECTS, UNKNOWN, State, split


class Unexplained(Exception):
    """A piece, or the shape of the whole, breaks a rule."""


def demand(holds, rule):
    if not holds:
        raise Unexplained(rule)


def check_shape(sessions, vectors, kind, explained):
    """One vector for each operation, with a count for each session; one schedule for each, or one list of all."""
    lengths = [len(session) for session in sessions]
    demand([len(session) for session in vectors] == lengths, "a vector for each operation")
    demand(all(len(vector) == len(sessions) for session in vectors for vector in session), "a count for each session")
    if kind == "ccv":
        demand([explained.count(s) for s in range(len(sessions))] == lengths, "each operation once in the list")
        demand(len(explained) == sum(lengths), "no other number in the list")
    else:
        demand([len(session) for session in explained] == lengths, "a schedule for each operation")


def check_vector(sessions, vectors, s, i):
    """A vector counts itself as the last of its session, what is there, and what its predecessors count."""
    vector = vectors[s][i]
    demand(vector[s] == i + 1, "a vector counts its own operation as the last of its session")
    demand(all(count <= len(session) for count, session in zip(vector, sessions)), "what is counted is there")
    if i > 0:
        demand(all(map(le, vectors[s][i - 1], vector)), "a vector counts what its predecessor counts")
    for other, count in enumerate(vector):
        if other != s and count > 0:
            last = vectors[other][count - 1]
            demand(all(map(le, last, vector)), "a vector counts what the last of each session counts")
            demand(last[s] <= i, "the last of another session does not count the operation")


def named(order):
    """The operations that a list of session numbers names."""
    seen = {}
    for s in order:
        yield s, seen.get(s, 0)
        seen[s] = seen.get(s, 0) + 1


def check_schedule(sessions, vectors, schedule, vector):
    """What a schedule names is there, comes after all that it counts, and is what the vector counts."""
    seen = [0] * len(sessions)
    for s in schedule:
        demand(s < len(sessions) and seen[s] < len(sessions[s]), "a named operation is there")
        counted = vectors[s][seen[s]]
        seen[s] += 1
        demand(all(map(le, counted, seen)), "a named operation comes after those that it counts")
    demand(seen == vector, "a schedule names what the vector counts")


def check_returns(state, sessions, operations, kept):
    """In this order the object answers the known returns that are kept."""
    for s, i in operations:
        call, ret = sessions[s][i]
        answer = state.apply(call)
        if kept(s, i) and ret != UNKNOWN:
            demand(answer == ret, f"the return of {s}.{i} is the answer of the object")


def check_piece(state, sessions, vectors, kind, explained, s, i):
    """The piece of an operation explains it. The sessions are lists of a call and a return each, and the state is the start.

    `explained` is the list of schedules, or for causal convergence what `counts_in_order` makes of the one list.
    """
    check_vector(sessions, vectors, s, i)
    vector = vectors[s][i]
    if kind == "ccv":
        order = explained
        demand(all(map(le, vector, order[s, i])), "in the list an operation comes after those that it counts")
        operations = [(t, j) for t, j in order if j < vector[t]]
        check_returns(state, sessions, operations, lambda t, j: (t, j) == (s, i))
    else:
        schedule = explained[s][i]
        check_schedule(sessions, vectors, schedule, vector)
        kept = (lambda t, j: (t, j) == (s, i)) if kind == "cc" else (lambda t, j: t == s and j <= i)
        check_returns(state, sessions, named(schedule), kept)


def counts_in_order(order, sessions):
    """For each operation of a list, in its order, how many of each session stand up to it."""
    seen = [0] * len(sessions)
    counts = {}
    for s, i in named(order):
        seen[s] += 1
        counts[s, i] = list(seen)
    return counts


def check(history, certificate):
    name, sessions, *start = history
    kind, vectors, explained = certificate
    demand(name in OBJECTS and kind in ("cc", "cm", "ccv"), "a history of an object and a criterion")
    sessions = [[split(name, form) for form in session] for session in sessions]
    check_shape(sessions, vectors, kind, explained)
    if kind == "ccv":
        explained = counts_in_order(explained, sessions)
    for s, session in enumerate(sessions):
        for i in range(len(session)):
            check_piece(State(name, start[0] if start else []), sessions, vectors, kind, explained, s, i)


def main():
    failed = False
    for path in sys.argv[1:]:
        with open(path, encoding="ascii") as file:
            history, certificate = json.load(file)
        try:
            check(history, certificate)
            print(path, "explained")
        except Unexplained as rule:
            failed = True
            print(path, "breaks the rule:", rule)
    sys.exit(1 if failed else 0)


if __name__ == "__main__":
    main()
