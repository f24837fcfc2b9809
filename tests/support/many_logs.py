"""Has a program answer many logs, some of them in each run."""

import pathlib
import subprocess
import tempfile
from typing import NamedTuple

SECONDS, TOGETHER = 300, 100


class Said(NamedTuple):
    """What a program wrote of a log: to standard output, and to standard error."""

    text: str
    errors: str


def parted(written, names):
    """Of each name the lines that begin with it, without it."""
    found = dict.fromkeys(names, "")
    for line in written.decode(errors="replace").splitlines(keepends=True):
        name, mark, text = line.partition(": ")
        if mark and name in found:
            found[name] += text
    return [found[name] for name in names]


def said_of_some(program, words, folder, logs):
    """What the program writes of each log of one run."""
    names = [str(folder / f"{number}.jsonl") for number in range(len(logs))]
    for name, log in zip(names, logs):
        pathlib.Path(name).write_bytes(log)
    done = subprocess.run([*program, *words, *names], capture_output=True, check=False, timeout=SECONDS)
    return map(Said, parted(done.stdout, names), parted(done.stderr, names))


def said_of(program, words, logs, together=TOGETHER):
    """What the program writes of each log, by these words of a command. An empty log is beside those of a run: one log alone would have no
    name before its lines."""
    with tempfile.TemporaryDirectory(prefix="logs-") as folder:
        for first in range(0, len(logs), together):
            some = [*logs[first : first + together], b""]
            yield from list(said_of_some(program, words, pathlib.Path(folder), some))[:-1]


def answers_of(text):
    """What a text says of each criterion."""
    lines = (line.partition(" ") for line in text.splitlines() if line[:1] != " ")
    return {criterion: answer for criterion, _, answer in lines}


def kept(log):
    """The name of a file with a log, which stays."""
    with tempfile.NamedTemporaryFile(prefix="logs-", suffix=".jsonl", delete=False) as file:
        file.write(log)
    return file.name
