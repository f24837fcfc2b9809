#!/usr/bin/env python3
"""Runs a program on the costliest inputs within the limits, and prints what each takes as a table.

    python3 bench/costliest.py [--only NAME] [--gigabytes N] [--seconds N] DIR PROGRAM

DIR is the folder of the inputs; those that are not there yet are made first, as costly_inputs.py does. Each is run once, by one
worker, with N gigabytes of memory (8 by default), and stopped after N seconds (600 by default). The time is that on the clock,
from the start of the process to its end, and beside it the processor time. What is written is read and counted, and not kept. The
memory is the most that was resident at a time; less than what Python takes itself, some 20 megabytes, can't be told.

The table goes to standard output, and can stand in a document as it is; how far it has come goes to standard error.
"""

import argparse
import os
import pathlib
import resource
import select
import signal
import subprocess
import sys
import tempfile
import time
from typing import NamedTuple

from costly_inputs import INPUTS
from running import print_table, started

HEAD = ["input", "megabytes", "command", "seconds", "processor", "memory: MB", "outcome"]
CHUNK = 1 << 20
SHOWN = 100


class Ended(NamedTuple):
    """How a run ended: its status, what it took, and what it wrote, of which the first bytes and their number are kept."""

    status: int
    seconds: float
    usage: resource.struct_rusage
    first: bytes
    written: int
    said: str


def make_missing(folder, inputs):
    """Makes the inputs that are not in the folder, in a process of its own: what that takes would be counted with a run."""
    missing = [costly.name for costly in inputs if not (folder / f"{costly.name}.json").exists()]
    if missing:
        maker = pathlib.Path(__file__).with_name("costly_inputs.py")
        subprocess.run([sys.executable, str(maker), str(folder), *missing], check=True, stdout=sys.stderr)


def drained(reading, process, end):
    """The first bytes that are written and how many these are in all; a process that goes on at the end of its time is stopped."""
    first, written = b"", 0
    while True:
        left = end - time.monotonic()
        if left <= 0 or not select.select([reading], [], [], left)[0]:
            os.kill(process, signal.SIGKILL)
            return first, written
        chunk = os.read(reading, CHUNK)
        if not chunk:
            return first, written
        first = (first + chunk)[:SHOWN]
        written += len(chunk)


def run(command, path, most):
    """Runs a command on a file, for so many seconds at most."""
    reading, writing = os.pipe()
    with tempfile.TemporaryFile() as errors:
        begin = time.monotonic()
        process = started(command, path, writing, errors.fileno())
        os.close(writing)
        first, written = drained(reading, process, begin + most)
        _, status, usage = os.wait4(process, 0)
        seconds = time.monotonic() - begin
        os.close(reading)
        errors.seek(0)
        said = errors.read().decode(errors="replace").strip()
    return Ended(os.waitstatus_to_exitcode(status), seconds, usage, first, written, said)


def outcome(ended, most):
    """What came of a run, in short."""
    if ended.status == -signal.SIGKILL:
        return f"stopped after {ended.seconds:.0f} seconds" if ended.seconds >= most else "killed"
    if ended.status != 0:
        return ended.said.partition("\n")[0][:SHOWN] or f"status {ended.status}"
    if ended.written > SHOWN:
        return f"{ended.written:,} bytes"
    return "; ".join(ended.first.decode().splitlines())


def row(costly, path, ended, most):
    processor = ended.usage.ru_utime + ended.usage.ru_stime
    size = f"{path.stat().st_size / 1e6:.1f}"
    memory = f"{ended.usage.ru_maxrss * 1024 / 1e6:.0f}"
    return [costly.name, size, " ".join(costly.words), f"{ended.seconds:.2f}", f"{processor:.2f}", memory, outcome(ended, most)]


def arguments():
    parser = argparse.ArgumentParser(description=__doc__, formatter_class=argparse.RawDescriptionHelpFormatter)
    parser.add_argument("--only", action="append", choices=[costly.name for costly in INPUTS])
    parser.add_argument("--gigabytes", type=float, default=8)
    parser.add_argument("--seconds", type=float, default=600)
    parser.add_argument("folder", type=pathlib.Path)
    parser.add_argument("program")
    return parser.parse_args()


def main():
    given = arguments()
    inputs = [costly for costly in INPUTS if costly.name in (given.only or [costly.name])]
    make_missing(given.folder, inputs)
    most = int(given.gigabytes * 1e9)
    resource.setrlimit(resource.RLIMIT_AS, (most, most))
    rows = []
    for costly in inputs:
        path = given.folder / f"{costly.name}.json"
        rows.append(row(costly, path, run([given.program, *costly.words], path, given.seconds), given.seconds))
        print(" ".join(rows[-1]), file=sys.stderr, flush=True)
    print_table(HEAD, rows)


if __name__ == "__main__":
    main()
