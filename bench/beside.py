#!/usr/bin/env python3
"""Measures what certificates take, by one program beside another.

    python3 bench/beside.py CERTIFICATES HISTORIES [--count] [--rounds N] [--only WORD] -- BEFORE NOW

CERTIFICATES is a folder that certificates.py made, and HISTORIES one that histories.py made; BEFORE and NOW are programs. A table has a
row for each input whose name has the word, by size:

- `make` is `explain --json --certificates` of a healthy history, which makes the certificates and writes them;
- `judge` is that of a history in which a value is written twice, so that nothing decides it, and three certificates are made and
  checked; and so of one path through all operations;
- `check` is that of a certificate of each criterion, of such as have no neighbouring schedules that begin alike, and of such as
  have none near each other.

The columns are what it was and what it is: the milliseconds from the start of the process to its end by 1, 2 and 4 workers, the least
of N rounds (3 by default), or with --count the million instructions by one worker (callgrind), which no other program changes. Both
programs have to write the same.
"""

import argparse
import json
import pathlib
import re
import subprocess
import tempfile

from costly_inputs import chain, memory, with_a_value_twice
from workers import WORKERS, milliseconds, run_once, undecided

SIZES = ("16x16", "16x64", "16x256")
SHAPES = ("keys1", "keys64", "mutual")


def instructions(command, path):
    """How many million instructions a run takes."""
    with open(path, "rb") as text:
        how = {"stdin": text, "stdout": subprocess.DEVNULL, "stderr": subprocess.PIPE}
        valgrind = ["valgrind", "--tool=callgrind", "--callgrind-out-file=/dev/null"]
        said = subprocess.run([*valgrind, *command], check=False, **how).stderr.decode()
    return f"{int(re.search(r'Collected : ([0-9]+)', said).group(1)) / 1e6:.1f}"


def words(word, workers):
    """The words of a command, by so many workers where it takes workers."""
    if word == "make":
        return ["explain", "--json", "--certificates"]
    return [word, "--workers", str(workers)]


def times(programs, word, path, rounds):
    """The milliseconds by each number of workers, what it was and what it is."""
    row, written = [], set()
    for workers in WORKERS if word != "make" else (1,):
        for program in programs:
            runs = [run_once([program, *words(word, workers)], path, 0) for _ in range(rounds)]
            written |= {lines for _, lines in runs}
            row.append(milliseconds(min(taken for taken, _ in runs)))
    if len(written) != 1:
        raise SystemExit(f"{path}: not the same lines")
    return row


def inputs(certificates, histories, room):
    """The command and the file of each row."""
    for size in SIZES:
        for shape in SHAPES:
            healthy = histories / f"{size}-{shape}-healthy.json"
            yield "make", healthy
            twice = room / f"{size}-{shape}-twice.json"
            twice.write_text(json.dumps(undecided(json.loads(healthy.read_text()))))
            yield "judge", twice
        for criterion in ("cc", "cm", "ccv"):
            yield "check", certificates / f"memory-{size}-{criterion}.json"
        for shape in ("apart", "turned"):
            for criterion in ("cc", "cm"):
                yield "check", certificates / f"{shape}-{size}-{criterion}.json"
    for name, sessions in (("chain-twice", chain()), ("chain-one-key-twice", chain(1))):
        path = room / f"{name}.json"
        path.write_text("".join(memory(with_a_value_twice(sessions))))
        yield "judge", path


def main():
    parser = argparse.ArgumentParser()
    parser.add_argument("certificates", type=pathlib.Path)
    parser.add_argument("histories", type=pathlib.Path)
    parser.add_argument("--count", action="store_true")
    parser.add_argument("--rounds", type=int, default=3)
    parser.add_argument("--only", default="")
    parser.add_argument("programs", nargs=2)
    given = parser.parse_args()
    names = ["instructions"] if given.count else [f"by {workers}" for workers in WORKERS]
    head = ["command", "input", *(cell for name in names for cell in (name, "now"))]
    print("| " + " | ".join(head) + " |")
    print("|" + "---|" * len(head))
    with tempfile.TemporaryDirectory() as room:
        for word, path in inputs(given.certificates, given.histories, pathlib.Path(room)):
            if given.only not in path.stem:
                continue
            if given.count:
                row = [instructions([program, *words(word, 1)], path) for program in given.programs]
            else:
                row = times(given.programs, word, path, given.rounds)
            print("| " + " | ".join([word, path.stem, *row]) + " |", flush=True)


if __name__ == "__main__":
    main()
