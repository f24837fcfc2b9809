#!/usr/bin/env python3
"""Measures a judge of memory histories beside the plain program, on the same files.

    python3 bench/compare.py PEER HISTORIES [--rounds N] -- PROGRAM ARGUMENT..

PEER is the folder of the plain program's source, a Cargo package that is copied and built in a temporary folder.
HISTORIES is a folder of files named SIZE-SHAPE-STATE.json, as histories.py makes them. Each program reads a history from
its standard input and writes a line for each criterion, its name first. The time is the processor time of the whole
process, user and system, the least of N rounds (20 by default, and fewer where a program takes long).

The first table has a row for each file: both times, how many times longer the program takes, and whether the lines that
both write agree. The second has a row for each shape and state: by what the time beyond that for an empty history grows
from one size to the next, where it is long enough to be told from that.
"""

import argparse
import os
import pathlib
import shutil
import subprocess
import sys
import tempfile

sys.path.insert(0, str(pathlib.Path(__file__).resolve().parent.parent / "tests"))
import folders  # noqa: E402, F401
from command_words import CRITERIA, with_program  # noqa: E402
from running import print_table, started  # noqa: E402

MOST_SECONDS = 20
LEAST_SECONDS = 0.0003


def build_peer(source, folder):
    """Builds a copy of the plain program, and gives its command."""
    copy = folder / "peer"
    shutil.copytree(source, copy, ignore=shutil.ignore_patterns("target"))
    for path in [copy, *copy.rglob("*")]:
        path.chmod(path.stat().st_mode | 0o200)
    subprocess.run(["cargo", "build", "--release", "--quiet"], cwd=copy, check=True)
    return [str(copy / "target" / "release" / "peer"), "judge"]


def run_once(command, history, output):
    """The processor time of one run, and whether it ended well. Its standard output goes to a file."""
    with open(output, "wb") as written:
        _, status, used = os.wait4(started(command, history, written.fileno()), 0)
    return used.ru_utime + used.ru_stime, os.waitstatus_to_exitcode(status) == 0


def lines_of(output):
    """What a program wrote for each criterion."""
    words = (line.split(maxsplit=1) for line in output.read_text("utf-8", "replace").splitlines())
    return {pair[0]: pair[1].strip() for pair in words if len(pair) == 2 and pair[0] in CRITERIA}


def measure(command, history, output, rounds):
    """The least time of some rounds in seconds, and the lines; no line where the program failed."""
    least, well = run_once(command, history, output)
    lines, spent = lines_of(output) if well else {}, least
    for _ in range(rounds - 1):
        if spent > MOST_SECONDS:
            break
        taken, _ = run_once(command, history, output)
        least, spent = min(least, taken), spent + taken
    return least, lines


def agreement(ours, theirs):
    both = [name for name in CRITERIA if name in ours and name in theirs]
    if not both:
        return "no common line"
    apart = [f"{name}: {ours[name]} / {theirs[name]}" for name in both if ours[name] != theirs[name]]
    return "; ".join(apart) if apart else "agree on " + " ".join(both)


def parts_of(path):
    size, shape, state = path.stem.split("-")
    return tuple(int(number) for number in size.split("x")), shape, state


def milliseconds(seconds):
    return f"{1000 * seconds:.2f}"


def growth(before, after, empty):
    """By what the time beyond that for an empty history grows, or nothing where it is too short."""
    if before is None or after is None or before - empty < LEAST_SECONDS:
        return "-"
    return f"{(after - empty) / (before - empty):.1f}"


def print_growth(times, empty):
    """By what each time grows from a size to the next, for each shape and state."""
    sizes = sorted({size for size, _, _ in times})
    steps = list(zip(sizes, sizes[1:]))
    names = [f"{before[0]}x{before[1]} to {after[0]}x{after[1]}" for before, after in steps]
    head = ["histories", *(f"{who}, {name}" for who in empty for name in names)]
    rows = []
    for shape, state in sorted({(shape, state) for _, shape, state in times}):
        row = [f"{shape} {state}"]
        for who in empty:
            for pair in steps:
                before, after = (times.get((size, shape, state), {}).get(who) for size in pair)
                row.append(growth(before, after, empty[who]))
        rows.append(row)
    print_table(head, rows)


def arguments():
    parser = argparse.ArgumentParser(description=__doc__, formatter_class=argparse.RawDescriptionHelpFormatter)
    parser.add_argument("peer", type=pathlib.Path)
    parser.add_argument("histories", type=pathlib.Path)
    parser.add_argument("--rounds", type=int, default=20)
    return with_program(parser)


def main():
    given = arguments()
    files = sorted(given.histories.glob("*.json"), key=parts_of)
    if not files:
        raise SystemExit("no histories there")
    times, rows, apart = {}, [], 0
    with tempfile.TemporaryDirectory() as name:
        folder = pathlib.Path(name)
        output, nothing = folder / "output", folder / "empty"
        nothing.write_text('["memory",[]]\n', encoding="ascii")
        commands = {"program": given.program, "peer": build_peer(given.peer, folder)}
        empty = {who: measure(command, nothing, output, given.rounds)[0] for who, command in commands.items()}
        for path in files:
            found = {who: measure(command, path, output, given.rounds) for who, command in commands.items()}
            taken = {who: least for who, (least, _) in found.items()}
            verdict = agreement(found["program"][1], found["peer"][1])
            apart += not verdict.startswith("agree")
            times[parts_of(path)] = taken
            ratio = f"{taken['program'] / taken['peer']:.1f}"
            rows.append([path.stem, *(milliseconds(taken[who]) for who in commands), ratio, verdict])
    print_table(["file", "program ms", "peer ms", "ratio", "lines"], rows)
    print(f"Of these, {milliseconds(empty['program'])} ms and {milliseconds(empty['peer'])} ms are for an empty history.\n")
    print_growth(times, empty)
    print(f"{len(rows)} files, {apart} where no common lines agree")
    raise SystemExit(1 if apart else 0)


if __name__ == "__main__":
    main()
