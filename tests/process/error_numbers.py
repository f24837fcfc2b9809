#!/usr/bin/env python3
"""Compares the table of numbers in docs/calls.md with the numbers that the sources give their errors.

    python3 tests/process/error_numbers.py

Each error that has a function `number`, or `code`, gives each of its variants a number. The table has a row for each number, with all variants that
have it, and no other row.
"""

import collections
import pathlib
import re

import folders  # noqa: F401
from counting import end_after

ROOT = pathlib.Path(__file__).resolve().parents[2]
BODY = re.compile(r"fn (?:number|code)\(&?self\) -> u8\n(?:.*\n)*?    \}\n")
ARM = re.compile(r"((?:\w+::\w+(?:\(_\))?[\s|]*)+)=> (\d+),")
ROW = re.compile(r"\| (\d+) \| (`[^|]*`) \|")


def in_sources():
    """The variants of each number, by these functions."""
    found = collections.defaultdict(set)
    for path in ROOT.glob("crates/*/src/**/*.rt"):
        for body in BODY.findall(path.read_text(encoding="utf-8")):
            for names, number in ARM.findall(body):
                found[int(number)] |= set(re.findall(r"\w+::\w+", names))
    return found


def in_table():
    """The variants of each number, by the table."""
    page = (ROOT / "docs" / "calls.md").read_text(encoding="utf-8")
    return {int(number): set(re.findall(r"`(\w+::\w+)`", names)) for number, names in ROW.findall(page)}


def cases():
    """Each number with whether both have the same variants for it."""
    sources, table = in_sources(), in_table()
    yield "the sources number more than 20 errors", len(sources) > 20
    for number in sorted(set(sources) | set(table)):
        holds = sources.get(number) == table.get(number)
        yield f"{number} is {sorted(sources.get(number, ()))}, and the table has {sorted(table.get(number, ()))}", holds


if __name__ == "__main__":
    end_after(cases())
