#!/usr/bin/env python3
"""Measures by how much several workers shorten `check` and `judge`, on healthy inputs of full size.

    python3 bench/workers.py CERTIFICATES HISTORIES [--rounds N] -- PROGRAM

CERTIFICATES is a folder that certificates.py made, and HISTORIES one that histories.py made. The program is run with 1, 2
and 4 workers in turn, N rounds (5 by default), and the time is that on the clock, from the start of the process to its end,
the least of the rounds. So nothing else may run beside it.

The first table has a row for each certificate of 16 sessions of 256 operations that certificates.py calls `memory`, and for those
that it calls `turned`, whose schedules share nothing with any near them. Reading the input takes one thread, and so
does writing the line, so each certificate is also checked with vectors that count nothing: then each piece is refused at its
first test, and what is left is the reading, the starting of the workers and the board, with its lock. What the whole run takes
more than that is the time that the pieces take. Both are given as ratios: the time by one worker over the time by so many.

The second table has a row for each healthy history of that size, in which one value is written twice: so nothing decides it,
and `judge` makes certificates and checks them. Making takes one thread, and is not told apart.

The third table tells what a piece takes at the desk, and so by how much the board's lock may bind. A worker holds the lock twice
for a piece, once where it takes it and once where it puts the verdict, and tests it outside; at the end the calling thread holds
it once more for each piece, where it looks whether its row is filled. What the run with vectors that count nothing takes more than
one that is refused before a case is filed, since the certificate has one session too many, is all that happens at the desk: these
lock sections, the first tests and the starting of the workers. By one worker nobody waits for the lock, so that the time of a
piece there is a bound of the time for which it is held. Its part in the whole run of a piece by one worker is the last column: as
long as that is below one by the number of workers, the lock does not bind.
"""

import argparse
import json
import os
import pathlib
import sys
import tempfile
import time

sys.path.insert(0, str(pathlib.Path(__file__).resolve().parent.parent / "tests"))
import folders  # noqa: E402, F401
from command_words import with_program  # noqa: E402
from running import print_table, started  # noqa: E402

WORKERS = (1, 2, 4)
SIZE = "16x256"
KINDS = ("memory", "turned")


def run_once(command, path, wanted):
    """The time on the clock of one run in seconds, and what it wrote. It ends with the wanted status."""
    with tempfile.TemporaryFile() as output:
        begin = time.perf_counter()
        _, status = os.waitpid(started(command, path, output.fileno(), output.fileno()), 0)
        taken = time.perf_counter() - begin
        ended = os.waitstatus_to_exitcode(status)
        if ended != wanted:
            raise SystemExit(f"{' '.join(command)} on {path}: status {ended}")
        output.seek(0)
        return taken, output.read().decode()


def measure(program, word, path, rounds, wanted=0):
    """For each number of workers the least time of some rounds in seconds, and what all wrote."""
    least = {}
    written = set()
    for _ in range(rounds):
        for workers in WORKERS:
            taken, lines = run_once([*program, word, "--workers", str(workers)], path, wanted)
            least[workers] = min(taken, least.get(workers, taken))
            written.add(lines)
    if len(written) != 1:
        raise SystemExit(f"{path}: not the same lines by each number of workers")
    return least, written.pop().replace("\n", "; ").strip("; ")


def refused_at_once(pair):
    """The same pair with vectors that count nothing."""
    history, (criterion, vectors, rest) = pair
    nothing = [[[0] * len(vector) for vector in session] for session in vectors]
    return [history, [criterion, nothing, rest]]


def of_another_shape(pair):
    """The same pair with one session more in its vectors: it is read, and refused before a case is filed."""
    history, (criterion, vectors, rest) = pair
    return [history, [criterion, [*vectors, []], rest]]


def operations_in(pair):
    """How many operations its history has, and so how many pieces its certificate."""
    return sum(len(session) for session in pair[0][1])


def undecided(history):
    """The same history, in which the last operations of the first two sessions write one value."""
    name, sessions = history
    changed = [list(session) for session in sessions]
    for session in changed[:2]:
        session[-1] = ["w", 4_000_000_000, 1]
    return [name, changed]


def milliseconds(seconds):
    return f"{1000 * seconds:.1f}"


def microseconds(seconds):
    return f"{1_000_000 * seconds:.2f}"


def ratios(times):
    """The time by one worker over that by 2 and by 4."""
    return [f"{times[1] / times[workers]:.2f}" if times[workers] > 0 else "-" for workers in WORKERS[1:]]


def write_json(path, value):
    path.write_text(json.dumps(value, separators=(",", ":")), encoding="ascii")
    return path


def measure_changed(program, pair, path, rounds, wanted=0):
    """The times of `check` on a pair that is written to a path."""
    times, _ = measure(program, "check", write_json(path, pair), rounds, wanted)
    return times


def check_rows(program, files, room, rounds):
    """For each certificate a row of its runs, and one of what a piece takes at the desk."""
    rows, desk_rows = [], []
    for path in files:
        pair = json.loads(path.read_text())
        with_tests, said = measure(program, "check", path, rounds)
        counting_nothing = refused_at_once(pair)
        refused = measure_changed(program, counting_nothing, room / path.name, rounds)
        shapeless = measure_changed(program, of_another_shape(counting_nothing), room / path.name, rounds, wanted=1)
        pieces = {workers: with_tests[workers] - refused[workers] for workers in WORKERS}
        whole = [milliseconds(with_tests[workers]) for workers in WORKERS]
        tests = [milliseconds(pieces[workers]) for workers in WORKERS]
        rows.append([path.stem, *whole, *ratios(with_tests), *tests, *ratios(pieces), said])
        desk_rows.append([path.stem, *desk_times(with_tests, refused, shapeless, operations_in(pair))])
    return rows, desk_rows


def desk_times(with_tests, refused, shapeless, pieces):
    """What a piece takes at the desk by each number of workers and with its test by one, and the part of the first in that."""
    at_desk = {workers: (refused[workers] - shapeless[workers]) / pieces for workers in WORKERS}
    tested = (with_tests[1] - shapeless[1]) / pieces
    return [*(microseconds(at_desk[workers]) for workers in WORKERS), microseconds(tested), f"{at_desk[1] / tested:.3f}"]


def judge_rows(program, files, room, rounds):
    """A row for each history in which one value is written twice."""
    rows = []
    for path in files:
        twice = write_json(room / path.name, undecided(json.loads(path.read_text())))
        times, said = measure(program, "judge", twice, rounds)
        rows.append([path.stem, *(milliseconds(times[workers]) for workers in WORKERS), *ratios(times), said])
    return rows


def arguments():
    parser = argparse.ArgumentParser(description=__doc__, formatter_class=argparse.RawDescriptionHelpFormatter)
    parser.add_argument("certificates", type=pathlib.Path)
    parser.add_argument("histories", type=pathlib.Path)
    parser.add_argument("--rounds", type=int, default=5)
    return with_program(parser)


def main():
    given = arguments()
    certificates = [path for kind in KINDS for path in sorted(given.certificates.glob(f"{kind}-{SIZE}-*.json"))]
    histories = sorted(given.histories.glob(f"{SIZE}-*-healthy.json"))
    if not certificates or not histories:
        raise SystemExit(f"no certificates or no histories of {SIZE} there")
    with tempfile.TemporaryDirectory() as name:
        room = pathlib.Path(name)
        rows, desk_rows = check_rows(given.program, certificates, room, given.rounds)
        head = ["check", *(f"{workers}: ms" for workers in WORKERS), "1/2", "1/4"]
        print_table([*head, *(f"pieces {workers}: ms" for workers in WORKERS), "1/2", "1/4", "lines"], rows)
        rows = judge_rows(given.program, histories, room, given.rounds)
        print_table(["judge", *(f"{workers}: ms" for workers in WORKERS), "1/2", "1/4", "lines"], rows)
        head = [*(f"at the desk {workers}: us" for workers in WORKERS), "with its test 1: us", "desk 1 / test 1"]
        print_table(["a piece", *head], desk_rows)


if __name__ == "__main__":
    main()
