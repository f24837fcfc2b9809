#!/usr/bin/env python3
"""Measures `judge --long` beside the plain prototype, on the same files in the same run.

    python3 bench/long_speed.py PROTOTYPE [--folder DIR] [--rounds N] [--operations N].. [--sessions N].. [--only WORD] -- PROGRAM

PROTOTYPE is the program of the prototype, or the folder of its source: a Cargo package, which is copied and built in a temporary folder
with the packages beside it that it names. The histories are those of RUNS below, by long_runs.py, of 100,000 and of a million
operations in 16 and in 100 sessions unless others are named. They are kept in the folder that is named, and made where they are not there.

Both programs read each history by one thread, in turn, N times each (3 unless given, and fewer where it takes long). The first table has of
each history:

- the processor time of the whole process, user and system, the least of the rounds, and by how many times the program takes longer;
- the most memory that was resident, in megabytes, and what of it is left for an operation, in bytes. The program holds its text, which is
  not counted; the prototype holds none. What an empty history takes is counted, some megabytes;
- whether both write the same lines. The prototype doesn't name the kind of a `cm no` beyond the four that are against all criteria.

The second table says by what the time grows from one number of operations to the next, and the last lines name the worst of each. The
status is 1 where lines differ.
"""

import argparse
import os
import pathlib
import re
import shutil
import subprocess
import sys
import tempfile
import time
from typing import NamedTuple

sys.path.insert(0, str(pathlib.Path(__file__).resolve().parent.parent / "tests"))
import folders  # noqa: E402, F401
from command_words import CRITERIA, with_program  # noqa: E402
from compare import lines_of  # noqa: E402
from running import made, print_table, started  # noqa: E402

RUNS = (
    ("arrival", 64, None),
    ("arrival", 10_000, None),
    ("stamps", 64, None),
    ("stamps", 10_000, None),
    ("copy", 64, None),
    ("copy", 10_000, "CyclicHB"),
    ("arrival", 64, "WriteCORead"),
)
WIDTH = 8
OPERATIONS, SESSIONS = (100_000, 1_000_000), (16, 100)
MOST_SECONDS, LOOK_SECONDS = 120, 0.002
SAID = re.compile(r" cc (\S+) cm (\S+) ccv (\S+) ")
NAMED = {"Yes": "yes", "Unknown": "unknown", "Cf": "no CyclicCF", "Stuck": "no"}


class History(NamedTuple):
    """A history: how it is made."""

    operations: int
    sessions: int
    store: str
    keys: int
    fault: str | None

    def shape(self):
        return f"{self.store} keys{self.keys} {self.fault or 'healthy'}"

    def name(self):
        return f"{self.operations}x{self.sessions} {self.shape()}"

    def path(self, folder):
        """Its file in a folder, which is made where it is not there."""
        return made(folder / f"{self.name().replace(' ', '-')}.json", self.write)

    def write(self, file):
        """Writes it to a file, in a process of its own."""
        fault = ["--fault", self.fault, "--width", str(WIDTH)] if self.fault else []
        words = [pathlib.Path(__file__).with_name("long_runs.py"), *fault, self.store, self.sessions, self.operations, self.keys, 1]
        subprocess.run([sys.executable, *map(str, words)], stdout=file, check=True)


class Taken(NamedTuple):
    """What a program took: processor seconds, the bytes that were resident at most, and those that its text has there; and its lines."""

    seconds: float
    most: int
    text: int
    lines: dict


def built(prototype, folder):
    """The command of the prototype, which is built where its source is named."""
    if prototype.is_file():
        return [str(prototype.resolve()), "judge"]
    needed = re.findall(r'path *= *"\.\./([^/"]+)"', (prototype / "Cargo.toml").read_text("utf-8"))
    for name in (prototype.name, *needed):
        shutil.copytree(prototype.parent / name, folder / name, ignore=shutil.ignore_patterns("target"))
    for path in folder.rglob("*"):
        path.chmod(path.stat().st_mode | 0o200)
    subprocess.run(["cargo", "build", "--release", "--offline", "--quiet"], cwd=folder / prototype.name, check=True)
    programs = folder / prototype.name / "target" / "release"
    return [str(next(path for path in sorted(programs.iterdir()) if path.is_file() and os.access(path, os.X_OK))), "judge"]


def most_resident(process):
    """The most memory of a running process that was resident so far, in bytes; 0 where it has none any more."""
    try:
        status = pathlib.Path(f"/proc/{process}/status").read_text("ascii", "replace")
    except OSError:
        return 0
    found = re.search(r"VmHWM:\s+(\d+) kB", status)
    return int(found.group(1)) * 1024 if found else 0


def run(command, path, output):
    """The processor seconds of a run, the most memory that was resident, and whether it ended well. It is looked at again and again:
    what the system says at its end counts the process that started it too."""
    with open(output, "wb") as written:
        process, most = started(command, path, written.fileno()), 0
    while True:
        ended, status, used = os.wait4(process, os.WNOHANG)
        if ended:
            return used.ru_utime + used.ru_stime, most or used.ru_maxrss * 1024, os.waitstatus_to_exitcode(status) == 0
        most = max(most, most_resident(process))
        time.sleep(LOOK_SECONDS)


def prototype_lines(output):
    """The lines that the prototype's words stand for."""
    found = SAID.search(output.read_text("utf-8", "replace"))
    kinds = [re.sub(r"Kind\((\w+)\)", r"no \1", word) for word in found.groups()] if found else []
    return {criterion: NAMED.get(kind, kind) for criterion, kind in zip(CRITERIA, kinds)}


def measured(commands, path, output, rounds):
    """What each program takes of a history, in turn."""
    found, spent = {}, 0
    for number in range(rounds):
        for who, command in commands.items():
            seconds, most, well = run(command, path, output)
            lines = (lines_of if who == "program" else prototype_lines)(output) if well else {}
            before = found.get(who, Taken(seconds, most, 0, lines))
            text = path.stat().st_size if who == "program" else 0
            found[who] = Taken(min(seconds, before.seconds), max(most, before.most), text, lines)
            spent += seconds
        if spent * (number + 2) / (number + 1) > MOST_SECONDS:
            break
    return found


def for_one(taken, operations):
    """The bytes of memory for an operation, beside the text."""
    return (taken.most - taken.text) / operations


def apart(found):
    """The lines in which the programs differ."""
    ours, theirs = found["program"].lines, found["prototype"].lines
    pairs = [(name, ours.get(name, "none"), theirs.get(name, "none")) for name in CRITERIA]
    return [f"{name} {our} / {their}" for name, our, their in pairs if our != their and not (their == "no" and our.startswith("no "))]


def lines_shown(found):
    """What both say, or where they differ."""
    different = apart(found)
    return "; ".join(different) if different else "; ".join(f"{name} {line}" for name, line in found["program"].lines.items())


def row(history, found):
    ours, theirs = found["program"], found["prototype"]
    memory = [word for taken in (ours, theirs) for word in (f"{taken.most / 1e6:.0f}", f"{for_one(taken, history.operations):.0f}")]
    times = [f"{ours.seconds:.2f}", f"{theirs.seconds:.2f}", f"{ours.seconds / theirs.seconds:.1f}"]
    return [history.name(), *times, *memory, lines_shown(found)]


def growths(everything):
    """By what the time of each shape grows from a number of operations to the next, by both programs."""
    for history, found in everything.items():
        larger = [other for other in everything if other[1:] == history[1:] and other.operations > history.operations]
        if larger:
            more = min(larger)
            times = [everything[more][who].seconds / found[who].seconds for who in ("program", "prototype")]
            yield [f"{history.sessions} {history.shape()}", f"{history.operations} to {more.operations}"], times


def print_growths(everything):
    """Prints the table of growths, and what is worst in all."""
    found = list(growths(everything))
    rows = [[*names, *(f"{grown:.1f}" for grown in times), f"{times[0] / times[1]:.2f}"] for names, times in found]
    if rows:
        print_table(["sessions", "operations", "program", "prototype", "ratio"], rows)
    slowest = max((both["program"].seconds / both["prototype"].seconds, history.name()) for history, both in everything.items())
    widest = max((for_one(both["program"], history.operations), history.name()) for history, both in everything.items())
    print(f"At most {slowest[0]:.1f} times the prototype's time ({slowest[1]}), and {widest[0]:.0f} bytes an operation ({widest[1]}).")
    if found:
        most, names = max((times[0] / times[1], names) for names, times in found)
        print(f"The time grows at most {most:.2f} times as much as the prototype's ({', '.join(names)}).")


def chosen(parser, rounds, operations, sessions, runs):
    """What the words ask for, and the histories that they name, each of which has operations, sessions and the rest of a run."""
    parser.add_argument("--folder", type=pathlib.Path)
    parser.add_argument("--rounds", type=int, default=rounds)
    parser.add_argument("--operations", type=int, action="append")
    parser.add_argument("--sessions", type=int, action="append")
    parser.add_argument("--only", default="")
    given = with_program(parser)
    sizes = [(n, k) for n in given.operations or operations for k in given.sessions or sessions]
    return given, [history for size in sizes for how in runs if given.only in (history := History(*size, *how)).name()]


def main():
    parser = argparse.ArgumentParser(description=__doc__, formatter_class=argparse.RawDescriptionHelpFormatter)
    parser.add_argument("prototype", type=pathlib.Path)
    given, histories = chosen(parser, 3, OPERATIONS, SESSIONS, RUNS)
    everything = {}
    with tempfile.TemporaryDirectory() as name:
        room = pathlib.Path(name)
        folder, output = given.folder or room, room / "output"
        folder.mkdir(parents=True, exist_ok=True)
        commands = {"program": [*given.program, "judge", "--long", "--workers", "1"], "prototype": built(given.prototype, room)}
        for history in histories:
            everything[history] = measured(commands, history.path(folder), output, given.rounds)
            print(" ".join(row(history, everything[history])), file=sys.stderr, flush=True)
    head = ["history", "program s", "prototype s", "ratio", "program MB", "B/op", "prototype MB", "B/op", "lines"]
    print_table(head, [row(history, found) for history, found in everything.items()])
    print_growths(everything)
    sys.exit(1 if any(map(apart, everything.values())) else 0)


if __name__ == "__main__":
    main()
