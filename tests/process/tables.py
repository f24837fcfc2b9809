#!/usr/bin/env python3
"""Runs a program on each case of the tables of tests/cases, and compares the status and both outputs byte for byte.

    python3 tests/process/tables.py [--data DIR] [--threads N] [--only WORD] -- PROGRAM

The file `tables` in the folder lists the tables, which are all its files that end in .cases. Each line of a table is one of these:

    # a comment; empty lines separate
    $ judge --workers 1         the words of a command line; before the first case: those of each case that has none of its own
    lost_write                  begins the case of this name
    < ["memory",[[["w",0,1]]]]  a line of the input; lines are joined by line feeds, and none follows the last
    << long/full_history.json   the input is the content of this file
    > cc yes                    a line of standard output
    >> explained/own_write.txt  standard output is the content of this file
    ! refused 4 0.0             a line of standard error
    !! usage/no_command.txt     standard error is the content of this file
    = 1                         the status, where it is not 0

Each command line of a case is run on its input. A case that differs is printed with its command line and what differs. `--only` runs
the cases whose table or name has the word.
"""

import argparse
import difflib
import os
import pathlib
import re
import subprocess
from concurrent.futures import ThreadPoolExecutor
from typing import NamedTuple

import folders  # noqa: F401
from command_words import with_program
from counting import end

DATA = pathlib.Path(__file__).resolve().parents[1] / "cases"
MARKS = ("$", "<", "<<", ">", ">>", "!", "!!", "=")
MOST_CHARACTERS = 1000
MOST_SECONDS = 120
SHOWN_LINES = 12


class Fault(Exception):
    """What is wrong with a table."""


class Case(NamedTuple):
    """A case, and where it begins."""

    place: str
    name: str
    commands: list
    input: bytes
    output: bytes
    errors: bytes
    status: int


class Run(NamedTuple):
    """A command line of a case, with what is wanted and what was found: the status and both outputs."""

    case: Case
    words: list
    wanted: tuple
    found: tuple


def split_line(line):
    """The mark of a line and the text after it; a name has the mark `name`."""
    mark, _, text = line.partition(" ")
    if mark in MARKS:
        return mark, text
    if re.fullmatch(r"[A-Za-z0-9_]+", line):
        return "name", line
    raise Fault(f"no line of a table: {line[:80]}")


def marked_lines(text):
    """The number, the mark and the text of each line that is neither empty nor a comment."""
    for number, line in enumerate(text.split("\n"), 1):
        if line and not line.startswith("#"):
            yield number, *split_line(line)


def content(data, parts, mark, is_input):
    """What the lines with a mark hold, or the file that the doubled mark names."""
    lines, files = parts.get(mark, []), parts.get(mark * 2, [])
    if len(files) > 1 or (files and lines):
        raise Fault(f"{mark * 2} beside another {mark * 2} or {mark}")
    if files:
        path = data / files[0]
        if not path.is_file():
            raise Fault(f"no file {files[0]}")
        return path.read_bytes()
    text = "\n".join(lines) if is_input else "".join(f"{line}\n" for line in lines)
    return text.encode()


def status_in(parts):
    """The status that is wanted."""
    texts = parts.get("=", ["0"])
    if len(texts) != 1 or not re.fullmatch(r"[0-9]+", texts[0]):
        raise Fault(f"no status: {', '.join(texts)}")
    return int(texts[0])


def words_in(parts):
    """The words of each command line."""
    return [[word for word in text.split(" ") if word] for text in parts.get("$", [])]


def case_of(data, place, name, parts, shared):
    """The case that these parts give."""
    commands = words_in(parts) or shared
    if not commands:
        raise Fault(f"{name} has no command line")
    outputs = [content(data, parts, mark, False) for mark in (">", "!")]
    return Case(place, name, commands, content(data, parts, "<", True), *outputs, status_in(parts))


def read_table(data, table):
    """The cases of a table."""
    blocks = [("", 0, {})]
    for number, mark, text in marked_lines((data / table).read_bytes().decode()):
        if mark == "name":
            blocks.append((text, number, {}))
        else:
            blocks[-1][2].setdefault(mark, []).append(text)
    head = blocks[0][2]
    if set(head) - {"$"}:
        raise Fault(f"{' '.join(sorted(head))} before the first case")
    if len(blocks) == 1:
        raise Fault("no case")
    return [case_of(data, f"{table}:{number}", name, parts, words_in(head)) for name, number, parts in blocks[1:]]


def listed_tables(data):
    """The names of the tables that are listed."""
    return [name for name in (data / "tables").read_text().split("\n") if name]


def read_tables(data):
    """The cases of each table that is listed."""
    names = listed_tables(data)
    if not names:
        raise Fault("no table is listed")
    for table in names:
        try:
            yield from read_table(data, table)
        except (Fault, OSError, UnicodeDecodeError) as fault:
            raise Fault(f"{table}: {fault}") from fault


def unlisted_tables(data):
    """The tables of the folder that are not listed."""
    for name in sorted({path.name for path in data.glob("*.cases")} - set(listed_tables(data))):
        yield f"{name} is not listed in the file tables"


def long_lines(data):
    """The files of the folder that have a line of more characters than a line may have."""
    for path in sorted(it for it in data.rglob("*") if it.is_file()):
        longest = max(map(len, path.read_bytes().decode(errors="replace").split("\n")))
        if longest > MOST_CHARACTERS:
            yield f"{path.relative_to(data)} has a line of {longest} characters"


def outcome(program, words, data):
    """The status and both outputs of a run, under the name that its usage shows, however the file is called."""
    command, how = ["causal_judge", *program[1:], *words], {"executable": program[0], "capture_output": True, "check": False}
    try:
        done = subprocess.run(command, input=data, timeout=MOST_SECONDS, **how)
    except subprocess.TimeoutExpired:
        return f"no end within {MOST_SECONDS} seconds", b"", b""
    return done.returncode, done.stdout, done.stderr


def run_of(program, case, words):
    """A run of a command line of a case."""
    return Run(case, words, (case.status, case.output, case.errors), outcome(program, words, case.input))


def write_inputs(cases, folder):
    """Writes the words, the input and the wanted output of each command line as files that `rt try --cases` reads, and gives for each of
    their names the case and the words."""
    asked = [(case, words) for case in cases for words in case.commands]
    named = {f"{number:05}": run for number, run in enumerate(asked)}
    for name, (case, words) in named.items():
        (folder / name).write_bytes(case.input)
        (folder / f"{name}.args").write_text("".join(f"{word}\n" for word in words))
        (folder / f"{name}.stdout").write_bytes(case.output)
    return named


def lines_of(text):
    """The lines of an output, cut where they are long."""
    return [line if len(line) <= 200 else f"{line[:200]}.. ({len(line)} characters)" for line in text.decode(errors="replace").split("\n")]


def difference(run):
    """What differs, in a few lines."""
    if run.wanted[0] != run.found[0]:
        yield f"    status {run.found[0]}, wanted {run.wanted[0]}"
    for name, wanted, found in zip(("standard output", "standard error"), run.wanted[1:], run.found[1:]):
        if wanted != found:
            yield f"    {name} (- wanted, + found)"
            lines = list(difflib.unified_diff(lines_of(wanted), lines_of(found), n=0, lineterm=""))[3:]
            yield from (f"    {line}" for line in (lines or ["long lines differ"])[:SHOWN_LINES])


def main():
    parser = argparse.ArgumentParser(description=__doc__, formatter_class=argparse.RawDescriptionHelpFormatter)
    parser.add_argument("--data", type=pathlib.Path, default=DATA)
    parser.add_argument("--threads", type=int, default=os.cpu_count() or 2)
    parser.add_argument("--only", default="")
    given = with_program(parser)
    try:
        cases = list(read_tables(given.data))
        faults = [*unlisted_tables(given.data), *long_lines(given.data)]
    except (Fault, OSError) as fault:
        cases, faults = [], [str(fault)]
    for fault in faults:
        print(fault, flush=True)
    asked = [(case, words) for case in cases if given.only in f"{case.place} {case.name}" for words in case.commands]
    failed = len(faults)
    with ThreadPoolExecutor(given.threads) as pool:
        for run in pool.map(lambda it: run_of(given.program, *it), asked):
            if run.wanted != run.found:
                failed += 1
                print(f"{run.case.place} {run.case.name}: {' '.join(run.words)}", *difference(run), sep="\n", flush=True)
    end(len(asked) + len(faults) - failed, failed)


if __name__ == "__main__":
    main()
