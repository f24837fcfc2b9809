"""Histories and logs with what a program says of them, for the page of `explain --html`."""

import json
import pathlib
import subprocess
from typing import NamedTuple, Optional

import page_parts
import plain_events
import random_logs
import random_memories
import tables

ROOT = pathlib.Path(__file__).resolve().parents[2]
USAGE, MOST_SECONDS, LISTED = 2, 900, "10000"
LOG = ["--long", "--events"]


class Page(NamedTuple):
    """A page: the five texts that it holds, the words of `explain`, what it lists and draws without its script, and the page that the
    program writes, where it has that option."""

    name: str
    history: str
    report: str
    names: str
    lines: str
    notes: str
    words: str
    listed: str
    picture: str
    written: Optional[str]

    def joined(self):
        return page_parts.joined(*self.texts(), said=(self.words, self.listed, self.picture))

    def texts(self):
        """The five texts as the page holds them."""
        return [self.history, self.report, self.names, self.lines, self.notes]

    def is_log(self):
        return self.names.strip() != "null"


def said(program, words, data):
    """The status and the output of a program on an input."""
    done = subprocess.run([*program, *words], input=data, capture_output=True, check=False, timeout=MOST_SECONDS)
    return done.returncode, done.stdout.decode()


def lines_of(log):
    """For each operation of the history of a log the line on which its call begins, by the plain reader; with the line of its end where
    that has a note."""
    found = plain_events.read_log(log)
    begin_of, noted = {}, {}
    for (word, client, *_), line in zip(found.events, found.lines):
        if word == "begin":
            begin_of[client] = line
        elif word == "end" and line in found.noted:
            noted[begin_of[client]] = line
    lines = [[found.lines[call.place] for _, call in session] for session in plain_events.Run(found.events, is_timed=found.is_timed).origins]
    return plain_events.text_of([[[line, noted[line]] if line in noted else line for line in session] for session in lines])


def page_of(program, name, data, options=()):
    """The page of an input; None where the program refuses it."""
    status, report = said(program, ["explain", *options, "--all", LISTED, "--json"], data)
    if status != 0:
        return None
    is_log = "--events" in options
    written = (said(program, ["events", *words], data)[1] for words in ([], ["--names"], ["--notes"]))
    history, names, notes = written if is_log else (data.decode(), "null", "[]")
    lines = lines_of(data) if is_log else "null"
    forms = ([], ["--all", page_parts.most_said()], ["--svg"])
    static = [said(program, ["explain", *options, *words], data)[1] for words in forms]
    status, written = said(program, ["explain", *options, "--html"], data)
    return Page(name, history, report, names, lines, notes, *static, None if status == USAGE else written)


def of_examples(program):
    """The pages of the files of examples/: of each that is a history, and of each log."""
    pages = [page_of(program, path.name, path.read_bytes()) for path in sorted((ROOT / "examples").glob("*.json"))]
    pages += [page_of(program, path.name, path.read_bytes(), LOG) for path in sorted((ROOT / "examples").rglob("*.jsonl"))]
    return [page for page in pages if page]


def of_tables(program):
    """The pages of the histories in the tables of tests/cases that `explain --json` is tried on."""
    cases = [case for table in ("explain_json.cases", "listed_faults_json.cases") for case in tables.read_table(tables.DATA, table)]
    pages = [page_of(program, case.name, case.input, [word for word in case.commands[0] if word == "--long"]) for case in cases]
    return [page for page in pages if page]


def at_random(program, rng, count):
    """The pages of random memories, small ones and wide ones, and of random logs."""
    pages = []
    for number in range(count):
        if number % 3 == 2:
            pages.append(page_of(program, f"log {number}", random_logs.log(rng), LOG))
            continue
        form, options = (random_memories.small(rng), []) if number % 3 else (random_memories.wide(rng)[0], ["--long"])
        pages.append(page_of(program, f"history {number}", json.dumps(form).encode(), options))
    return [page for page in pages if page]
