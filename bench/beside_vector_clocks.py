#!/usr/bin/env python3
"""Measures `judge --long` beside a plain program that goes by vectors, on the same files in the same run.

    python3 bench/beside_vector_clocks.py [--folder DIR] [--rounds N] [--operations N].. [--sessions N].. [--only WORD] -- PROGRAM

The plain program is vector_clocks.cpp, which is built in a temporary folder. It keeps a vector of k counts for each operation, as the
literature's checkers do, and decides cc and ccv; `judge --long` keeps none, and decides cm too. The histories are healthy runs of RUNS
below, by long_runs.py, of 10,000 to a million operations in 10 to 1,000 sessions unless others are named. They are kept in the folder that
is named, and made where they are not there.

Both programs read each history by one thread, in turn, N times each (2 unless given). A run is ended after 600 seconds of a processor, or
where it asks for more than 8 gigabytes, and then the table says so. It has of each history:

- the processor time of the whole process, user and system, the least of the rounds;
- the most memory that was resident, in megabytes;
- the lines of cc and ccv that both write, or where they differ. The status is 1 where they do.
"""

import argparse
import pathlib
import subprocess
import sys
import tempfile
from typing import NamedTuple

sys.path.insert(0, str(pathlib.Path(__file__).resolve().parent.parent / "tests"))
import folders  # noqa: E402, F401
from compare import lines_of  # noqa: E402
from long_speed import chosen, run  # noqa: E402
from running import print_table  # noqa: E402

SOURCE = pathlib.Path(__file__).with_name("vector_clocks.cpp")
BUILD = ("g++", "-std=c++20", "-O3", "-march=x86-64-v2")
RUNS = (("arrival", 64, None), ("stamps", 10_000, None))
OPERATIONS, SESSIONS = (10_000, 100_000, 1_000_000), (10, 100, 1_000)
DECIDED = ("cc", "ccv")
MOST_SECONDS, MOST_BYTES = 600, 8 << 30
LIMITS = ["prlimit", f"--cpu={MOST_SECONDS}", f"--as={MOST_BYTES}"]


class Taken(NamedTuple):
    """What a program took: processor seconds and the bytes that were resident at most; and its lines of cc and ccv, none where its run
    was ended."""

    seconds: float
    most: int
    lines: dict

    def cells(self):
        """What the table has of it."""
        if self.lines:
            return [f"{self.seconds:.2f}", f"{self.most / 1e6:.0f}"]
        return [f"over {MOST_SECONDS}", "-"] if self.seconds >= MOST_SECONDS else ["-", f"over {MOST_BYTES >> 30} GB"]


def built(folder):
    """The command of the plain program."""
    program = folder / SOURCE.stem
    subprocess.run([*BUILD, "-o", program, SOURCE], check=True)
    return [str(program)]


def measured(commands, path, output, rounds):
    """What each program takes of a history, in turn; one whose run was ended is not run again."""
    found = {}
    for _ in range(rounds):
        for who, command in commands.items():
            before = found.get(who)
            if before is None or before.lines:
                seconds, most, well = run([*LIMITS, *command], path, output)
                lines = {criterion: line for criterion, line in lines_of(output).items() if criterion in DECIDED} if well else {}
                found[who] = Taken(min(seconds, before.seconds), max(most, before.most), lines) if before else Taken(seconds, most, lines)
    return found


def apart(found):
    """Where both programs say something, and not the same."""
    ours, theirs = (taken.lines for taken in found.values())
    return [f"{name} {ours.get(name)} / {theirs.get(name)}" for name in DECIDED if ours and theirs and ours.get(name) != theirs.get(name)]


def row(history, found):
    lines = next((taken.lines for taken in found.values() if taken.lines), {})
    shown = apart(found) or [f"{name} {line}" for name, line in lines.items()]
    cells = [cell for taken in found.values() for cell in taken.cells()]
    return [f"{history.operations:,}", f"{history.sessions:,}", f"{history.store} keys{history.keys}", *cells, "; ".join(shown)]


def main():
    parser = argparse.ArgumentParser(description=__doc__, formatter_class=argparse.RawDescriptionHelpFormatter)
    given, histories = chosen(parser, 2, OPERATIONS, SESSIONS, RUNS)
    everything = {}
    with tempfile.TemporaryDirectory() as name:
        room = pathlib.Path(name)
        folder, output = given.folder or room, room / "output"
        folder.mkdir(parents=True, exist_ok=True)
        commands = {"program": [*given.program, "judge", "--long", "--workers", "1"], "vectors": built(room)}
        for history in histories:
            everything[history] = measured(commands, history.path(folder), output, given.rounds)
            print(" ".join(row(history, everything[history])), file=sys.stderr, flush=True)
    head = ["operations", "sessions", "history", "`judge --long` s", "MB", "vectors s", "MB", "cc and ccv"]
    print_table(head, [row(history, found) for history, found in everything.items()])
    sys.exit(1 if any(map(apart, everything.values())) else 0)


if __name__ == "__main__":
    main()
