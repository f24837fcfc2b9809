#!/usr/bin/env python3
"""Prints one table of what judging takes, beside the plain programs, all in one run.

    python3 bench/speed.py PEER PROTOTYPE [--folder DIR] [--rounds N] [--long N] -- PROGRAM

PEER is the folder of the source of a plain judge of short histories, and PROTOTYPE that of one of long histories, as compare.py and
long_speed.py take them: both are built in a temporary folder. The histories are kept in the folder that is named. A row has what is
measured, what the program takes, what the plain program takes, and by how many times that is more:

- `judge` on healthy histories of 16 sessions (histories.py): million instructions, counted by callgrind, where the plain program's are
  counted beyond those of an empty history;
- `judge` on histories of full size in which a value is written twice, so that three certificates are made and checked, and on the longest
  path through as many operations: milliseconds of a processor, the least of N rounds (5 by default);
- `judge --lines` by k workers beside k processes (lines_speed.py): microseconds a line;
- `judge --long` on 1,000,000 operations, or as many as `--long` says, in 16 and in 100 sessions, by one thread and by four: seconds of a
  processor by one, and seconds on the clock by one and by four.

Nothing else may run beside it.
"""

import argparse
import json
import pathlib
import sys
import tempfile
import time

sys.path.insert(0, str(pathlib.Path(__file__).resolve().parent.parent / "tests"))
import folders  # noqa: E402, F401
from beside import SHAPES, SIZES, instructions  # noqa: E402
from command_words import with_program  # noqa: E402
from compare import build_peer, run_once  # noqa: E402
from costly_inputs import chain, memory, with_a_value_twice  # noqa: E402
from lines_speed import Input, full_lines, measured as lines_measured, small_lines  # noqa: E402
from long_speed import History, built  # noqa: E402
from running import made, print_table  # noqa: E402
from short_runs import SESSIONS, histories_of, text_of  # noqa: E402
from workers import undecided  # noqa: E402

EMPTY = '["memory",[]]'


def healthy(folder, size, shape):
    """The file of a healthy history."""
    def write(file):
        file.write(text_of(next(sessions for state, sessions in histories_of(shape, int(size.split("x")[1])) if state == "healthy")).encode())

    return made(folder / f"{size}-{shape}-healthy.json", write)


def text_file(folder, name, text):
    return made(folder / name, lambda file: file.write(text.encode()))


def least(command, path, rounds, output):
    """The least seconds of a processor, and the least on the clock, of some rounds."""
    runs = []
    for _ in range(rounds):
        begin = time.perf_counter()
        used, well = run_once(command, path, output)
        if not well:
            raise SystemExit(f"{' '.join(command)} on {path} failed")
        runs.append((used, time.perf_counter() - begin))
    return min(used for used, _ in runs), min(clock for _, clock in runs)


def ratio(ours, theirs):
    return f"{ours / theirs:.2f}"


def short_rows(program, peer, folder):
    """What healthy histories take, in instructions."""
    start = float(instructions(peer, text_file(folder, "empty.json", EMPTY)))
    for size in SIZES:
        for shape in SHAPES:
            path = healthy(folder, size, shape)
            ours, theirs = (float(instructions(command, path)) for command in ([*program, "judge", "--workers", "1"], peer))
            beyond = max(theirs - start, 0)
            yield [f"judge {size} {shape}", "million instructions", f"{ours:.1f}", f"{beyond:.1f}", ratio(ours, beyond) if beyond >= 1 else ""]


def undecided_rows(program, folder, rounds, output):
    """What histories take of which certificates are made and checked."""
    inputs = [(f"16x256 {shape}", json.dumps(undecided(json.loads(healthy(folder, "16x256", shape).read_text())))) for shape in SHAPES]
    inputs += [(f"the longest path, {name}", "".join(memory(with_a_value_twice(sessions)))) for name, sessions in (("4,096 variables", chain()), ("one", chain(1)))]
    for name, text in inputs:
        path = text_file(folder, f"twice-{name.replace(' ', '-')}.json", text)
        used, _ = least([*program, "judge", "--workers", "1"], path, rounds, output)
        yield [f"judge {name}, a value twice", "milliseconds", f"{1000 * used:.1f}", "", ""]


def line_rows(program, folder, room, rounds):
    """What lines take, by workers and by as many processes."""
    for shape in SHAPES:
        healthy(folder, "16x256", shape)
    for name, lines in (("full", full_lines(folder, 96)), ("small", small_lines(200_000))):
        rows, same = lines_measured(program, Input(room, name, lines), rounds)
        if not same:
            raise SystemExit(f"{name} lines: answers differ")
        one = float(rows[0][3].replace(",", ""))
        for _, workers, _, line, _, by_processes, beside, _ in rows:
            words = [f"judge --lines, {name}, {workers} workers", "microseconds a line"]
            yield [*words, line, f"{one / float(by_processes):,.1f} by processes", f"{1 / float(beside):.2f}"]


def long_rows(program, prototype, folder, operations, rounds, output):
    """What long histories take, by one thread and by four."""
    for sessions in (SESSIONS, 100):
        path = History(operations, sessions, "arrival", 64, None).path(folder)
        theirs = least(prototype, path, rounds, output)
        one = least([*program, "judge", "--long", "--workers", "1"], path, rounds, output)
        four = least([*program, "judge", "--long", "--workers", "4"], path, rounds, output)
        name = f"judge --long {operations:,} x {sessions}"
        yield [f"{name}, 1 thread", "seconds of a processor", f"{one[0]:.2f}", f"{theirs[0]:.2f}", ratio(one[0], theirs[0])]
        yield [f"{name}, 4 threads", "seconds on the clock", f"{four[1]:.2f}", f"{one[1]:.2f} by 1 thread", ratio(four[1], one[1])]


def main():
    parser = argparse.ArgumentParser(description=__doc__, formatter_class=argparse.RawDescriptionHelpFormatter)
    parser.add_argument("peer", type=pathlib.Path)
    parser.add_argument("prototype", type=pathlib.Path)
    parser.add_argument("--folder", type=pathlib.Path)
    parser.add_argument("--rounds", type=int, default=5)
    parser.add_argument("--long", type=int, default=1_000_000)
    given = with_program(parser)
    with tempfile.TemporaryDirectory() as name:
        room = pathlib.Path(name)
        folder, output = given.folder or room / "histories", room / "output"
        folder.mkdir(parents=True, exist_ok=True)
        for part in ("peer", "prototype"):
            (room / part).mkdir()
        peer, prototype = build_peer(given.peer, room / "peer"), built(given.prototype, room / "prototype")
        rows = [
            *short_rows(given.program, peer, folder),
            *undecided_rows(given.program, folder, given.rounds, output),
            *line_rows(given.program, folder, room, given.rounds),
            *long_rows(given.program, prototype, folder, given.long, given.rounds, output),
        ]
    print_table(["what", "unit", "program", "plain", "times"], rows)


if __name__ == "__main__":
    main()
