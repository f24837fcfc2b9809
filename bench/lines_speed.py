#!/usr/bin/env python3
"""Measures `judge --lines` by several workers beside as many single processes, on the same lines in the same run.

    python3 bench/lines_speed.py HISTORIES [--full N] [--small N] [--rounds N] -- PROGRAM

HISTORIES is a folder that histories.py made. Two inputs are measured: N lines (96 by default) that are its healthy histories of 16 sessions of
256 operations in turn, and N small histories (200,000 by default) as those of tests/process/lines.py. For k of 1 to 4 one run has `judge --lines
--workers k` judge all lines; beside it, k processes with one worker each judge a k-th of the lines, all at the same time. Both are done in turn,
N rounds (7 by default), and the table has the medians of the rounds:

- the milliseconds of the run by k workers, and what a line takes of that, in microseconds;
- by how many times k workers, and k processes, are faster than one;
- how fast the workers are beside the processes: 1.00 where they are as fast;
- the part of k processors that the run by workers has used: what it took of a processor over k times the clock.

Nothing else may run beside it. The status is 1 where the answers differ.
"""

import argparse
import itertools
import os
import pathlib
import random
import statistics
import sys
import tempfile
import time

sys.path.insert(0, str(pathlib.Path(__file__).resolve().parent.parent / "tests"))
import folders  # noqa: E402, F401
from command_words import with_program  # noqa: E402
from lines import small_history  # noqa: E402
from running import print_table, started  # noqa: E402

WORKERS = (1, 2, 3, 4)
SEED = 7


def full_lines(folder, many):
    """So many lines that are healthy histories of full size, in turn."""
    texts = [path.read_text("ascii").strip() for path in sorted(folder.glob("16x256-*-healthy.json"))]
    if not texts:
        raise SystemExit(f"{folder} has no history of 16 sessions of 256 operations")
    return list(itertools.islice(itertools.cycle(texts), many))


def small_lines(many):
    rng = random.Random(SEED)
    return [small_history(rng) for _ in range(many)]


class Input:
    """The lines of an input: whole, and dealt out among so many processes."""

    def __init__(self, room, name, lines):
        self.name, self.lines, self.room = name, lines, room
        self.files = {k: [self.written(lines[i::k], f"{k}.{i}") for i in range(k)] for k in WORKERS}

    def written(self, lines, name):
        path = self.room / f"{self.name}.{name}"
        path.write_text("".join(f"{line}\n" for line in lines), encoding="ascii")
        return path


def run(commands):
    """The seconds on the clock until all of some commands over a file and an open output have ended, and what they took of a processor."""
    begin = time.perf_counter()
    processes = [started(command, path, output.fileno()) for command, path, output in commands]
    used = 0.0
    for process in processes:
        _, status, resources = os.wait4(process, 0)
        used += resources.ru_utime + resources.ru_stime
        if status:
            raise SystemExit(f"status {os.waitstatus_to_exitcode(status)}")
    return time.perf_counter() - begin, used


def answers_of(outputs):
    """The lines that were written to some files, in the order of the lines that were dealt out among them."""
    texts = []
    for output in outputs:
        output.seek(0)
        texts.append(output.read().splitlines())
    return [line for turn in itertools.zip_longest(*texts) for line in turn if line is not None]


def judged(program, workers, files):
    """What a run by so many workers over each file took, all at the same time, and the answers."""
    outputs = [tempfile.TemporaryFile() for _ in files]
    command = [*program, "judge", "--lines", "--workers", str(workers)]
    taken = run([(command, path, output) for path, output in zip(files, outputs)])
    answers = answers_of(outputs)
    for output in outputs:
        output.close()
    return taken, answers


def measured(program, given, rounds):
    """The rows of an input, and whether all answers were the same."""
    by_workers, by_processes = {k: [] for k in WORKERS}, {k: [] for k in WORKERS}
    answers, same = None, True
    for _ in range(rounds):
        for k in WORKERS:
            for times, found in (
                (by_workers[k], judged(program, k, given.files[1])),
                (by_processes[k], judged(program, 1, given.files[k])),
            ):
                times.append(found[0])
                answers = answers or found[1]
                same = same and found[1] == answers
    one = statistics.median(clock for clock, _ in by_workers[1] + by_processes[1])
    rows = []
    for k in WORKERS:
        clock = statistics.median(clock for clock, _ in by_workers[k])
        beside = statistics.median(clock for clock, _ in by_processes[k])
        busy = statistics.median(used / (k * clock) for clock, used in by_workers[k])
        line = 1_000_000 * clock / len(given.lines)
        rows.append([given.name, str(k), f"{1000 * clock:.0f}", f"{line:,.1f}", f"{one / clock:.2f}", f"{one / beside:.2f}", f"{beside / clock:.2f}", f"{busy:.2f}"])
    return rows, same


def main():
    parser = argparse.ArgumentParser(description=__doc__, formatter_class=argparse.RawDescriptionHelpFormatter)
    parser.add_argument("histories", type=pathlib.Path)
    parser.add_argument("--full", type=int, default=96)
    parser.add_argument("--small", type=int, default=200_000)
    parser.add_argument("--rounds", type=int, default=7)
    given = with_program(parser)
    rows, same = [], True
    with tempfile.TemporaryDirectory() as folder:
        room = pathlib.Path(folder)
        for name, lines in (("full", full_lines(given.histories, given.full)), ("small", small_lines(given.small))):
            found, alike = measured(given.program, Input(room, name, lines), given.rounds)
            rows += found
            same = same and alike
    head = ["lines", "k", "ms", "us a line", "workers faster", "processes faster", "workers beside processes", "busy"]
    print_table(head, rows)
    print("all answers are the same" if same else "answers differ")
    sys.exit(0 if same else 1)


if __name__ == "__main__":
    main()
