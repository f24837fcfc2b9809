#!/usr/bin/env python3
"""Compares what the library says of random inputs, half of them mangled, with what the program says of them.

    python3 embed/compare.py SEED COUNT [--threads N]

The inputs are those of tests/process/mangled.py, as many whole ones, memory histories over the limits among them, and four that are very
long. Each is put to the library three times, by N threads side by side (4 by default): as a caller does, with a buffer of just as many bytes
as the text has, and with a smaller one, which has to stay as it was. embed/run.py builds what this needs. It prints how many inputs came to
which status, and ends with status 1 where there is a difference.
"""

import argparse
import collections
import json
import os
import pathlib
import random
import subprocess
import sys
import tempfile
from concurrent.futures import ThreadPoolExecutor
from typing import NamedTuple

HERE = pathlib.Path(__file__).resolve().parent
sys.path.insert(0, str(HERE.parent / "tests"))

import causal_judge  # noqa: E402
import folders  # noqa: E402, F401
import random_logs  # noqa: E402
import random_memories  # noqa: E402
from counting import end  # noqa: E402
from mangled import data_for, input_of, shown_in  # noqa: E402
from patterns import AGAINST  # noqa: E402

PROGRAM = os.environ.get("CAUSAL_JUDGE") or HERE.parent / "crates" / "causal_judge" / "out" / "causal_judge"
MOST_BYTES = 67_108_864
THREADS = 4


class Case(NamedTuple):
    """An input, and how much of the room that its text needs a smaller buffer has."""

    command: str
    data: bytes
    part: float


def of_program(command, data):
    """The status and the text of the program: the answer, or what it writes to standard error of a refusal.

    Of a history that is refused a call says one line, where the program may say a second one. Of a log it says all that the program says.
    """
    words = [PROGRAM, *causal_judge.COMMANDS[command].split()]
    done = subprocess.run(words, input=data, capture_output=True, check=False, timeout=120)
    if done.returncode == causal_judge.ANSWERED:
        return done.returncode, done.stdout
    is_of_line = command.startswith("log_") and not done.stderr.startswith(b"refused 9\n")
    return done.returncode, done.stderr if is_of_line else done.stderr.splitlines(keepends=True)[0]


def is_room_told(case, status, text):
    """Whether a buffer that has just room for the text takes it, and a smaller one stays as it was."""
    exact, needed, answer = causal_judge.ask_once(case.command, case.data, len(text))
    room = int(case.part * len(text))
    small, too, same = causal_judge.ask_once(case.command, case.data, room)
    told = (exact, needed, answer.raw) == (status, len(text), text)
    return told and (small, too, same.raw) == (causal_judge.TOO_SMALL, len(text), bytes(max(room, 1)))


def compared(case):
    """What the library says, what the program says, and whether both are the same and buffers are told of rightly."""
    found, due = causal_judge.ask(case.command, case.data), of_program(case.command, case.data)
    return found, due, found == due and is_room_told(case, *found)


def over_the_limits(rng):
    """A memory of many sessions, or of some with many operations."""
    return rng.choice((random_memories.wide, random_memories.tall))(rng)[0]


def claim(rng):
    """A memory history, a criterion and a pattern that shows that the history does not meet it, where some history is found that shows one."""
    for _ in range(20):
        history = random_memories.small(rng)
        if shown := shown_in(history):
            pattern = rng.choice(shown)
            return [history, rng.choice(AGAINST[pattern[0]]), pattern]
    return input_of(rng, "refute")


def data_of(rng, command):
    """An input for a call, mangled or whole; for a call on any length a memory that may be over the limits."""
    words = causal_judge.COMMANDS[command].split()
    if rng.random() < 0.5:
        return data_for(rng, words[0], words)
    if command.startswith("log_"):
        return random_logs.log(rng)
    if words[0] == "refute":
        return json.dumps(claim(rng)).encode()
    if command.startswith("long_"):
        return json.dumps(rng.choice((random_memories.small, over_the_limits))(rng)).encode()
    return json.dumps(input_of(rng, words[0])).encode()


def cases(rng, count):
    for command in ("judge", "log_explain_page"):
        yield Case(command, b" " * (MOST_BYTES + 1), 0.5)
    for command in ("long_judge", "log_judge"):
        yield Case(command, b"\n" * (MOST_BYTES + 1), 0.5)
    for _ in range(count):
        command = rng.choice(tuple(causal_judge.COMMANDS))
        yield Case(command, data_of(rng, command), rng.random())


def kept(case):
    """The name of a file with the input of a case, which stays."""
    with tempfile.NamedTemporaryFile(prefix=f"compared-{case.command}-", suffix=".json", delete=False) as file:
        file.write(case.data)
    return file.name


def compare(seed, count, threads):
    """How many answers of the library are the program's, and how many are others, each of which is printed."""
    asked = list(cases(random.Random(seed), count))
    seen, wrong = collections.Counter(), 0
    with ThreadPoolExecutor(threads) as pool:
        for case, (found, due, is_right) in zip(asked, pool.map(compared, asked)):
            seen[case.command, found[0]] += 1
            if not is_right:
                wrong += 1
                print(f"{case.command} < {kept(case)}: {found!r}, the program {due!r}", flush=True)
    for (command, status), many in sorted(seen.items()):
        print(f"{many:8} {command}, status {status}")
    return len(asked) - wrong, wrong


def main():
    parser = argparse.ArgumentParser(description=__doc__, formatter_class=argparse.RawDescriptionHelpFormatter)
    parser.add_argument("seed", type=int)
    parser.add_argument("count", type=int)
    parser.add_argument("--threads", type=int, default=THREADS)
    given = parser.parse_args()
    end(*compare(given.seed, given.count, given.threads))


if __name__ == "__main__":
    main()
