#!/usr/bin/env python3
"""Measures `judge --long --events` beside `judge --long` on the history of the same log, written by `causal_judge events`.

    python3 bench/events_speed.py [--folder DIR] [--rounds N] [--percent N] [--only WORD] -- PROGRAM

The logs are those of RUNS below, or N percent of them: runs of the stores of tests/generators/store_runs.py, in which a client's call ends at its
next turn. A log with lost writes is the one before it, in which so many writes, each of them read, end as `lost`. The logs and their
histories are kept in the folder that is named, and made where they are not there.

Of each log the table has its lines and megabytes; the processor time of the whole process, user and system, by one worker, for the log
and for its history, the least of N rounds (4 unless given) in which the two take turns, and by how many times the log takes longer; and
the most memory that was resident, in megabytes. The lines below it say what lost writes add. The status is 1 where a run does not keep to
the bounds of `faults`, which tests/process/events.py asks for too.
"""

import argparse
import pathlib
import random
import subprocess
import sys
import tempfile
from typing import NamedTuple

sys.path.insert(0, str(pathlib.Path(__file__).resolve().parent.parent / "tests"))
import folders  # noqa: E402, F401
import store_runs  # noqa: E402
from command_words import with_program  # noqa: E402
from compare import lines_of  # noqa: E402
from long_speed import run  # noqa: E402
from running import made, print_table  # noqa: E402

MOST_TIMES, MOST_TIMES_OF_LOST, MOST_BYTES = 1.5, 2, 200_000_000
ROUNDS = 4


class Log(NamedTuple):
    """A log: how it is made."""

    store: str
    clients: int
    operations: int
    keys: int
    lost: int

    def name(self):
        return f"{self.operations}x{self.clients} {self.store} keys{self.keys}" + f" lost{self.lost}" * (self.lost > 0)


class Taken(NamedTuple):
    """What a log takes: its lines and bytes, processor seconds for it and for its history, the bytes that were resident at most, and the
    lines of the report."""

    lines: int
    bytes: int
    seconds: float
    history_seconds: float
    most: int
    report: dict


RUNS = (
    Log("arrival", 16, 1_000_000, 64, 0),
    Log("arrival", 64, 1_000_000, 64, 0),
    Log("arrival", 64, 1_000_000, 64, 5_000),
    Log("copy", 1_000, 100_000, 1_000, 0),
)


def calls(log, rng):
    """The calls of a run in the order of time, each a client, a word, a key and a value."""
    run, keys = store_runs.STORES[log.store](log.clients), log.keys
    for client in store_runs.turns(log.clients, log.operations, rng):
        if rng.random() < 1 / 8:
            other = rng.randrange(log.clients - 1)
            run.take_in(client, other + (other >= client))
        key = rng.randrange(keys)
        if rng.random() < 0.5:
            yield client, "w", key, run.write(client, key)
        else:
            yield client, "r", key, run.read(client, key)


def lines(log):
    """The lines of a log. A client's call ends at its next turn, or at the end of the run."""
    run = list(calls(log, random.Random(f"{log.store} {log.clients} {log.operations} {log.keys}")))
    read = {(key, value) for _, word, key, value in run if word == "r"}
    forked = [(key, value) for _, word, key, value in run if word == "w" and (key, value) in read]
    lost, pending = set(random.Random(1).sample(forked, min(log.lost, len(forked)))), {}
    for client, word, key, value in run:
        yield pending.pop(client, "")
        name, answer = f'"client {client}"', f'"v{value}"' if value else "null"
        if word == "w":
            yield f'["begin",{name},["w","user:{key}/name",{answer}]]\n'
            pending[client] = f'["lost",{name}]\n' if (key, value) in lost else f'["end",{name},"ok"]\n'
        else:
            yield f'["begin",{name},["r","user:{key}/name"]]\n'
            pending[client] = f'["end",{name},{answer}]\n'
    yield from pending.values()


def files_of(program, log, folder):
    """The log and its history, as files."""
    name = log.name().replace(" ", "-")
    text = made(folder / f"{name}.jsonl", lambda file: file.writelines(line.encode() for line in lines(log)))
    with open(text, "rb") as data:
        write = lambda file: subprocess.run([*program, "events"], stdin=data, stdout=file, check=True)
        return text, made(folder / f"{name}.json", write)


def in_turn(runs, output, rounds):
    """What each of some commands over a file takes, run in turn: its processor seconds, the least of some rounds, the most memory, and the
    lines that it writes."""
    turns = [[(*run(command, path, output), lines_of(output)) for command, path in runs] for _ in range(rounds)]
    for found in zip(*turns):
        yield min(one[0] for one in found), max(one[1] for one in found), found[-1][3] if all(one[2] for one in found) else {}


def measured(program, log, folder, rounds):
    """What a log takes."""
    text, history = files_of(program, log, folder)
    words, output = [*program, "judge", "--long", "--workers", "1"], folder / "output"
    runs = ([*words, "--events"], text), (words, history)
    (seconds, most, report), (history_seconds, _, lines_of_history) = in_turn(runs, output, rounds)
    many = sum(1 for _ in open(text, "rb"))
    return Taken(many, text.stat().st_size, seconds, history_seconds, most, report if report == lines_of_history else {})


def faults_of(log, taken):
    """What is wrong with what a log takes."""
    if any(taken.report.get(criterion) != line for criterion, line in store_runs.sure_lines(log.store).items()):
        yield f"{log.name()}: {taken.report}"
    if taken.seconds > MOST_TIMES * taken.history_seconds:
        yield f"{log.name()}: {taken.seconds:.2f} seconds, and {taken.history_seconds:.2f} for its history"
    if taken.most > MOST_BYTES:
        yield f"{log.name()}: {taken.most / 1e6:.0f} megabytes"


def times_of_lost(everything):
    """For each log with lost writes, how many times as long it takes as the same log without them."""
    for log, taken in everything.items():
        healthy = everything.get(log._replace(lost=0))
        if log.lost and healthy:
            yield log, taken.seconds / healthy.seconds


def all_measured(program, logs, folder, rounds):
    """What each log takes."""
    return {log: measured(program, log, folder, rounds) for log in logs}


def wrong_in(everything):
    """All that is wrong: lists of lines, one for each bound, which are empty where it is kept."""
    for log, taken in everything.items():
        yield list(faults_of(log, taken))
    for log, times in times_of_lost(everything):
        yield [f"{log.name()}: {times:.2f} times as long as without lost writes"] if times > MOST_TIMES_OF_LOST else []


def faults(program):
    """What is wrong with a program, a list for each bound, which is empty where it is kept."""
    with tempfile.TemporaryDirectory() as name:
        yield from wrong_in(all_measured(program, RUNS, pathlib.Path(name), ROUNDS))


def row(log, taken):
    times = [f"{taken.seconds:.2f}", f"{taken.history_seconds:.2f}", f"{taken.seconds / taken.history_seconds:.2f}"]
    report = "; ".join(f"{criterion} {line}" for criterion, line in taken.report.items())
    return [log.name(), str(taken.lines), f"{taken.bytes / 1e6:.0f}", *times, f"{taken.most / 1e6:.0f}", report]


def arguments():
    parser = argparse.ArgumentParser(description=__doc__, formatter_class=argparse.RawDescriptionHelpFormatter)
    parser.add_argument("--folder", type=pathlib.Path)
    parser.add_argument("--rounds", type=int, default=ROUNDS)
    parser.add_argument("--percent", type=int, default=100)
    parser.add_argument("--only", default="")
    return with_program(parser)


def main():
    given = arguments()
    sized = [log._replace(operations=log.operations * given.percent // 100, lost=log.lost * given.percent // 100) for log in RUNS]
    with tempfile.TemporaryDirectory() as name:
        folder = given.folder or pathlib.Path(name)
        folder.mkdir(parents=True, exist_ok=True)
        everything = all_measured(given.program, [log for log in sized if given.only in log.name()], folder, given.rounds)
    head = ["log", "lines", "MB", "seconds", "its history", "times", "resident MB", "report"]
    print_table(head, [row(log, taken) for log, taken in everything.items()])
    for log, times in times_of_lost(everything):
        print(f"{log.name()} takes {times:.2f} times as long as without lost writes.")
    wrong = [line for found in wrong_in(everything) for line in found]
    print(*wrong, sep="\n")
    sys.exit(1 if wrong else 0)


if __name__ == "__main__":
    main()
