#!/usr/bin/env python3
"""Compares what a program answers to scripts of the world with what the plain program of replay.py answers.

    python3 tests/process/replayed.py SCRIPTS [--make SEED COUNT] -- PROGRAM replay

SCRIPTS is a folder of scripts, each a file named NAME.json. With --make so many random ones of this seed are first written
there, as scripts.py does. The program reads a script from its standard input. For each script on which they differ, in the
status, in what is written, or in the line on standard error, it prints the first lines that differ, and then it ends with
status 1.
"""

import argparse
import itertools
import pathlib
import subprocess

import folders  # noqa: F401
import replay
from command_words import with_program
from counting import end
from scripts import write_scripts


def wanted(data):
    """The status, the lines, and the line on standard error."""
    try:
        return 0, "".join(f"{line}\n" for line in replay.replies(data)), ""
    except replay.Refused as refusal:
        return 1, "", "refused " + " ".join(map(str, refusal.args)) + "\n"


def answered(program, data):
    done = subprocess.run(program, input=data, capture_output=True, check=False)
    return done.returncode, done.stdout.decode(), done.stderr.decode()


def difference(program, data):
    """Where the answers differ, or nothing."""
    ours, theirs = answered(program, data), wanted(data)
    if ours == theirs:
        return None
    if ours[1] == theirs[1]:
        return f"status and line on standard error {ours[0]} {ours[2]!r}, plain program {theirs[0]} {theirs[2]!r}"
    pairs = itertools.zip_longest(ours[1].splitlines(), theirs[1].splitlines())
    return next(f"reply {at}: {one!r}, plain program {other!r}" for at, (one, other) in enumerate(pairs) if one != other)


def main():
    parser = argparse.ArgumentParser(description=__doc__, formatter_class=argparse.RawDescriptionHelpFormatter)
    parser.add_argument("scripts", type=pathlib.Path)
    parser.add_argument("--make", type=int, nargs=2, metavar=("SEED", "COUNT"))
    given = with_program(parser)
    if given.make:
        write_scripts(given.scripts, *given.make)
    files = sorted(given.scripts.glob("*.json"))
    if not files:
        raise SystemExit("no scripts there")
    apart = 0
    for path in files:
        found = difference(given.program, path.read_bytes())
        if found:
            apart += 1
            print(f"{path.name}: {found}")
    end(len(files) - apart, apart)


if __name__ == "__main__":
    main()
