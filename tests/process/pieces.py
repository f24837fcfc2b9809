#!/usr/bin/env python3
"""Compares what a program says of random certificates, most of them broken, with what `recheck.py` says of their pieces.

    python3 tests/process/pieces.py SEED COUNT [MOST] -- PROGRAM

Each certificate is of a history of one of the eight objects, of at most MOST operations (14 by default, and 400 at the most), and of
one of the three criteria. The history is a run of the
object, one call at a time. Each operation counts what its session counted and some operations of others; its schedule, like the
one list of causal convergence, has the order of the run. Then up to three counts, numbers of a schedule or returns are changed,
or the schedules of neighbours are swapped. `PROGRAM check` has to say `yes` where every piece explains its operation, and else to
name the first one that does not; a certificate of another shape it has to refuse. A line is printed for each on which they differ,
then how many certificates were explained, unexplained at the first operation of a session or at a later one, and of another shape,
and it ends with status 1 where they differ.
"""

import json
import random
import subprocess
import sys
from collections import Counter

import folders  # noqa: F401
from counting import end
from objects import KEYED, OBJECTS, State, operation
from objects import split as call_and_return
from recheck import Unexplained, check_piece, check_shape, counts_in_order

CRITERIA = ("cc", "cm", "ccv")
FEW, MOST = 14, 400  # how many operations a history has at most, by default and whatever is asked for
OTHER_SHAPE = (21, 1)  # the status of the program, and that of the library


def random_call(name, rng):
    word = rng.choice(list(OBJECTS[name].arguments))
    key = [rng.randrange(2)] if name in KEYED else []
    return [word, *key, *(rng.randrange(1, 4) for _ in range(OBJECTS[name].arguments[word]))]


def run(name, start, most, rng):
    """A run of the object: the session of each call in order, and the sessions with their calls and returns."""
    order = [rng.randrange(rng.randint(1, 4)) for _ in range(rng.randint(1, most))]
    sessions = [[] for _ in range(max(order) + 1)]
    state = State(name, start)
    for session in order:
        call = random_call(name, rng)
        sessions[session].append(operation(call, state.apply(call)))
    return order, sessions


def joined(left, right):
    return [max(counts) for counts in zip(left, right)]


def vectors_of(order, sessions, rng):
    """For each operation what it counts: all before it in the run, or what some of these count."""
    is_whole = rng.random() < 0.6
    vectors, latest = [[] for _ in sessions], [[0] * len(sessions) for _ in sessions]
    seen = [0] * len(sessions)
    for session in order:
        vector = latest[session]
        for other in range(len(sessions)):
            if is_whole or rng.random() < 0.4:
                vector = joined(vector, seen if is_whole else latest[other])
        seen[session] += 1
        vector = [*vector[:session], seen[session], *vector[session + 1 :]]
        vectors[session].append(vector)
        latest[session] = vector
    return vectors


def schedule_of(order, vector):
    """The order of the run, cut to what a vector counts."""
    left = list(vector)
    kept = []
    for session in order:
        if left[session] > 0:
            left[session] -= 1
            kept.append(session)
    return kept


def certificate_of(criterion, order, sessions, rng):
    vectors = vectors_of(order, sessions, rng)
    if criterion == "ccv":
        return [criterion, vectors, list(order)]
    return [criterion, vectors, [[schedule_of(order, vector) for vector in session] for session in vectors]]


def change_number(numbers, most, rng):
    if numbers:
        numbers[rng.randrange(len(numbers))] = rng.randrange(most)


def damage(history, certificate, rng):
    """Changes something in place."""
    (_, sessions, *_), (criterion, vectors, explained) = history, certificate
    session = rng.choice([number for number, operations in enumerate(sessions) if operations])
    index = rng.randrange(len(sessions[session]))
    kind = rng.choice(("count", "number", "swap", "cut", "return"))
    numbers = explained if criterion == "ccv" else explained[session][index]
    if kind == "count":
        change_number(vectors[session][index], len(sessions[session]) + 2, rng)
    elif kind == "number":
        change_number(numbers, len(sessions), rng)
    elif kind == "swap" and len(numbers) > 1:
        place = rng.randrange(len(numbers) - 1)
        numbers[place], numbers[place + 1] = numbers[place + 1], numbers[place]
    elif kind == "cut" and criterion != "ccv" and index > 0:
        explained[session][index] = list(explained[session][index - 1])
    elif kind == "return" and type(sessions[session][index][-1]) is int and OBJECTS[history[0]].arguments[sessions[session][index][0]] == 0:
        sessions[session][index][-1] += 1


def case(most, rng):
    name = rng.choice(list(OBJECTS))
    start = [[0, 7]] if name == "memory" and rng.random() < 0.3 else []
    order, sessions = run(name, start, most, rng)
    history = [name, sessions, *([start] if start else [])]
    certificate = certificate_of(rng.choice(CRITERIA), order, sessions, rng)
    for _ in range(rng.randint(0, 3)):
        damage(history, certificate, rng)
    return history, certificate


def wanted(history, certificate):
    """The line that `check` has to write, or none for another shape."""
    name, sessions, *start = history
    criterion, vectors, explained = certificate
    sessions = [[call_and_return(name, form) for form in session] for session in sessions]
    try:
        check_shape(sessions, vectors, criterion, explained)
    except Unexplained:
        return None
    if criterion == "ccv":
        explained = counts_in_order(explained, sessions)
    for s, session in enumerate(sessions):
        for i in range(len(session)):
            try:
                check_piece(State(name, start[0] if start else []), sessions, vectors, criterion, explained, s, i)
            except Unexplained:
                return f"{criterion} unknown {s}.{i}\n"
    return f"{criterion} yes\n"


def told(program, history, certificate):
    ran = subprocess.run([*program, "check"], input=json.dumps([history, certificate]), capture_output=True, text=True)
    return None if ran.returncode in OTHER_SHAPE else ran.stdout


def main():
    split = sys.argv.index("--")
    seed, count, *given = (int(word) for word in sys.argv[1:split])
    most = min(given[0], MOST) if given else FEW
    program, rng, outcomes, differ = sys.argv[split + 1 :], random.Random(seed), Counter(), 0
    for _ in range(count):
        history, certificate = case(most, rng)
        line, said = wanted(history, certificate), told(program, history, certificate)
        if line != said:
            print(f"{json.dumps([history, certificate])}: {said!r}, and not {line!r}")
            differ += 1
        outcomes["of another shape" if line is None else "explained" if line.endswith("yes\n") else "unexplained"] += 1
    print(", ".join(f"{times} {what}" for what, times in sorted(outcomes.items())))
    end(count - differ, differ)


if __name__ == "__main__":
    main()
