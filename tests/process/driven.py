#!/usr/bin/env python3
"""Runs clients over the stores by a program's command `drive`, checks what is written, and counts the verdicts.

    python3 tests/process/driven.py SEED RUNS [--full] [--object NAME] [--store STORE] [--delivery DELIVERY] -- PROGRAM

Each run drives a random history of an object, with random options; with `--full` each has 16 sessions of 256 operations. What is
written has to be the histories of the seals that were asked for and one more, each with three lines of a report. Each session of
the last one has to be the input's calls, in order and with known returns, but for the last call of a session that stops. No seal
may have more than the last. Of a memory with distinct values the lines have to be those that `judge` writes for the history. With
causal delivery no line that the store's order explains may be a `no`: causal consistency, and causal memory for the causal store,
causal convergence for Lamport's. Where all returns are known, so that the store told of each operation, these lines have to be `yes`: the
certificates that are made of what was told explain each operation. The reason:

- Whatever the store, the vector of an operation counts what its replica had taken in, and with causal delivery also what the writers
  of these updates had taken in.
- The order that the causal store tells of an operation begins with those of the earlier operations of its session, so its schedule
  explains all that the session was answered. Causal convergence may fail: a replica answers in the order in which updates came to it,
  and the one list goes by stamps.
- In the store of Lamport's clocks an operation is answered by the stamps of what was taken in, and so go its schedule and the one list,
  where its own stamp is the last. Causal memory may fail: an update may come in whose stamp is below that of an earlier operation of
  the session, which was answered without it.

With 1,000 runs or more, what may fail has to fail in some run with causal delivery. It ends with status 1 where something is wrong.
"""

import argparse
import collections
import json
import random
import subprocess
import time

import folders  # noqa: F401
from command_words import STORES, order_of, with_program
from counting import end
from objects import KEYED, OBJECTS, UNKNOWN
from patterns import MemoryHistory
from reading import REPORT, read_driven
from replay import Refused

SHOWN = {"causal": ("cc", "cm"), "lamport": ("cc", "ccv")}
MAY_FAIL = (("causal", "ccv"), ("lamport", "cm"))
MANY_RUNS = 1_000
UNKNOWN_TEXT = json.dumps(UNKNOWN)


def random_input(rng, name, full):
    """A history whose returns are not known."""
    sessions = []
    fresh = 0
    many = 16 if full else rng.choice((1, 2, 3, 3, 4, 16))
    keys = rng.choice((1, 2, 8))
    is_distinct = full or rng.random() < 0.6
    for _ in range(many):
        session = []
        for _ in range(256 if full else rng.choice((0, 1, 4, 12))):
            word, arguments = rng.choice(sorted(OBJECTS[name].arguments.items()))
            fresh += 1
            key = [rng.randrange(keys)] if name in KEYED else []
            value = [fresh if is_distinct and word in ("w", "push") else rng.randrange(3)] if arguments else []
            session.append([word, *key, *value, UNKNOWN])
        sessions.append(session)
    table = [[0, 1 << 40]] if name == "memory" and rng.random() < 0.3 else []
    return [name, sessions, *([table] if table else [])]


def random_words(rng, store, eager, sessions):
    """The words of a command line that drives so many sessions."""
    words = ["drive", store, *(["--eager"] if eager else []), "--seals", str(rng.choice((0, 0, 1, 4, 8)))]
    return [*words, "--stop", str(rng.randrange(sessions))] if rng.random() < 0.25 else words


def compact(history):
    return json.dumps(history, separators=(",", ":"))


def taken_apart(text, seals):
    """The texts of the histories that were written, each with its lines; nothing where the text is not of that form."""
    lines = text.split("\n")
    if lines.pop() != "" or len(lines) != 4 * (seals + 1):
        return None
    reports = ["".join(f"{line}\n" for line in lines[at + 1 : at + 4]) for at in range(0, len(lines), 4)]
    return list(zip(lines[::4], reports)) if all(map(REPORT.fullmatch, reports)) else None


def read_written(text):
    """The history in a text that was written; nothing where it is not the compact text of one."""
    try:
        history = read_driven(text.encode())
    except Refused:
        return None
    return history if compact(json.loads(text)) == text else None


def repeats(asked, sealed, stop):
    """Whether each session of a history is the input's calls, with known returns but for the one that stays open."""
    for s, (wanted, found) in enumerate(zip(asked[2], sealed[2])):
        if [call for call, _ in wanted] != [call for call, _ in found]:
            return False
        if any((ret == UNKNOWN) != (s == stop and i + 1 == len(found)) for i, (_, ret) in enumerate(found)):
            return False
    return True


def is_last_greatest(histories):
    """Whether no seal has more of a session than the last: of two others, taken at the same time, each may have more than the other."""
    *lengths, last = [[len(session) for session in history[2]] for history in histories]
    return all(all(map(int.__le__, early, last)) for early in lengths)


def has_distinct_values(history):
    """Whether the history is one of a memory whose values are distinct."""
    name, start, sessions = history
    return name == "memory" and MemoryHistory(sessions, start).is_differentiated()


def judged(program, text):
    return subprocess.run([*program, "judge"], input=text, capture_output=True, check=True, text=True).stdout


def is_wrong(order, written, report):
    """Whether a line is not what causal delivery makes it: no `no`, and a `yes` where all returns are known."""
    if "--eager" in order:
        return False
    verdicts = dict(line.split(" ", 1) for line in report.splitlines())
    lines = [verdicts[criterion] for criterion in SHOWN[order["store"]]]
    return any(line.startswith("no") for line in lines) or (UNKNOWN_TEXT not in written and set(lines) != {"yes"})


def faults_of_histories(order, asked, histories):
    """What is wrong with the histories that were written for an input."""
    if None in histories:
        return ["what is written is no history"]
    wrong = []
    if any((one[0], one[1], len(one[2])) != (asked[0], asked[1], len(asked[2])) for one in histories):
        wrong.append("another object or start, or another number of sessions")
    elif not repeats(asked, histories[-1], order.get("--stop")):
        wrong.append("the last history is not the input's calls")
    if not is_last_greatest(histories):
        wrong.append("a seal has more than the last")
    return wrong


def faults(program, order, asked, text):
    """What is wrong with what a drive wrote for a history, which is given as it is read."""
    found = taken_apart(text, order.get("--seals", 0))
    if found is None:
        return ["what is written is not of the form"]
    histories = [read_written(history) for history, _ in found]
    wrong = faults_of_histories(order, asked, histories)
    for history, (written, report) in zip(histories, found):
        if is_wrong(order, written, report):
            wrong.append(f"not as causal delivery makes it: {report!r} of {written}")
        if history and has_distinct_values(history) and report != judged(program, written):
            wrong.append("judge writes other lines")
    return wrong


def fails(seen, store, criterion):
    """Whether a run of a store with causal delivery was seen that is not shown to meet a criterion."""
    return any(kind[:2] == (store, "causal") and kind[3] == criterion and kind[4] != "yes" for kind in seen)


def main():
    parser = argparse.ArgumentParser(description=__doc__, formatter_class=argparse.RawDescriptionHelpFormatter)
    parser.add_argument("seed", type=int)
    parser.add_argument("runs", type=int)
    parser.add_argument("--full", action="store_true")
    parser.add_argument("--object", choices=list(OBJECTS))
    parser.add_argument("--store", choices=STORES)
    parser.add_argument("--delivery", choices=("causal", "eager"))
    given = with_program(parser)
    rng = random.Random(given.seed)
    seen, wrong, seconds, calls = collections.Counter(), 0, 0.0, 0
    for _ in range(given.runs):
        name = given.object or rng.choice(list(OBJECTS))
        store = given.store or rng.choice(STORES)
        eager = (given.delivery or rng.choice(("causal", "eager"))) == "eager"
        history = random_input(rng, name, given.full)
        words = random_words(rng, store, eager, len(history[1]))
        begun = time.monotonic()
        done = subprocess.run([*given.program, *words], input=json.dumps(history), capture_output=True, check=False, text=True)
        seconds += time.monotonic() - begun
        calls += sum(map(len, history[1]))
        asked = read_driven(json.dumps(history).encode())
        found = faults(given.program, order_of(words), asked, done.stdout) if done.returncode == 0 else [done.stderr]
        wrong += bool(found)
        for fault in found:
            print(f"{' '.join(words)} < {json.dumps(history)[:200]}: {fault}", flush=True)
        for line in done.stdout.splitlines()[-3:]:
            criterion, verdict = line.split(" ")[:2]
            seen[store, "eager" if eager else "causal", name, criterion, verdict] += 1
    for kind, many in sorted(seen.items()):
        print(f"{many:7} {' '.join(kind)}")
    print(f"{calls} calls, {seconds:.1f} seconds")
    missing = [pair for pair in MAY_FAIL if not fails(seen, *pair)] if given.runs >= MANY_RUNS else []
    for store, criterion in missing:
        print(f"no run of the {store} store with causal delivery lacks {criterion}")
    end(given.runs - wrong, wrong + len(missing))


if __name__ == "__main__":
    main()
