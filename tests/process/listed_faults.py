#!/usr/bin/env python3
"""Puts the reads that `explain --all` lists and counts to a plain search.

    python3 tests/process/listed_faults.py SEED COUNT -- PROGRAM

Each history is a small memory or one of many sessions (random_memories.py), mostly with several reads at fault. It is explained with
`--long` and, where it is within the limits of `judge`, without, in words and by `--json`, with a most that is below, at or above the number
of reads at fault.

- `--json`: the explanation is that of `explain --json`. The counts and the listed reads, with the writes that they missed, are right by
  plain_faults.py; where values are not distinct there are none. guarantees.py looks at the guarantees.
- The words: the lines that are not indented are those of `judge`. The kinds and the sessions are counted right, and the first reads are
  listed, as many as there may be: each with its variable and value, its source, and one of the latest writes that it missed.

Each of the three kinds has to be listed in both forms. It prints a line for each history with a fault, and how often each kind came.
"""

import json
import re

import folders  # noqa: F401
import plain_faults
import random_memories
import reading
from explained import said
from explained_long import op_of
from patterns import MemoryHistory
from plain_faults import KINDS
from random_histories import run_random

PLACE, READ = r"(\d+\.\d+)", r"(\d+\.\d+) reads (\d+) from variable (\d+)"
MISSED, BREAKS = rf", after {PLACE} wrote (\d+) to it", ", breaks [a-z ]+"
LISTED = {
    "ThinAirRead": re.compile(rf"{READ}, which nobody wrote: ThinAirRead"),
    "WriteCOInitRead": re.compile(rf"{READ} \(its initial value\){MISSED}: WriteCOInitRead{BREAKS}"),
    "WriteCORead": re.compile(rf"{READ} \(written by {PLACE}\){MISSED}: WriteCORead{BREAKS}"),
}
OF_KIND = re.compile(rf"({'|'.join(KINDS)}): (\d+) reads? in (\d+) of (\d+) sessions?")
OF_SESSION = re.compile(r"session (\d+): (\d+) reads?")
MORE_SESSIONS = re.compile(r"and (\d+) more sessions?")
MOST_SESSIONS = 16


def faulty(rng):
    """A memory, mostly with several reads at fault."""
    form = random_memories.small(rng) if rng.random() < 0.7 else random_memories.wide(rng)[0]
    known = [[operation for operation in session if reading.UNKNOWN not in operation] for session in form[1]]
    for _ in range(rng.choice((0, 1, 3, 8))):
        random_memories.spoil(rng, known)
    return form


def matched(form, lines):
    """What a form finds in the lines that are wholly of it, as texts."""
    return [match.groups() for line in lines if (match := form.fullmatch(line))]


def due_counts(found, sessions):
    """The lines of counts that are due, as numbers: of each kind that is there, and of each session, those with the most first."""
    many = {session: sum(number for _, number in counts) for session, counts in found.by_session()}
    with_kind = lambda kind: sum(dict(counts)[kind] > 0 for _, counts in found.by_session())
    of_kinds = [(kind, number, with_kind(kind), sessions) for kind, number in found.counts() if number]
    return of_kinds, sorted(many.items(), key=lambda pair: (-pair[1], pair[0]))


def count_faults(found, sessions, lines):
    """What is wrong with the lines of counts."""
    of_kinds, of_sessions = due_counts(found, sessions)
    told = [(kind, *map(int, numbers)) for kind, *numbers in matched(OF_KIND, lines)]
    rows = [tuple(map(int, row)) for row in matched(OF_SESSION, lines)]
    more = [int(number) for (number,) in matched(MORE_SESSIONS, lines)]
    wrong = [] if told == of_kinds else [f"the kinds are counted {told}, due {of_kinds}"]
    if rows != of_sessions[:MOST_SESSIONS] or more != [len(of_sessions) - MOST_SESSIONS] * (len(of_sessions) > MOST_SESSIONS):
        wrong.append(f"the sessions are counted {rows} and {more} more, due {of_sessions}")
    return wrong


def listed_in(lines):
    """The listed reads, each with its kind and what the line says of it."""
    return [(kind, match.groups()) for line in lines for kind, form in LISTED.items() if (match := form.fullmatch(line))]


def is_line_of(known, fault, kind, words):
    """Whether a line lists a fault: its read with variable and value, its source, and one of the latest writes that it missed."""
    name, value, variable, *others = words
    read = op_of(name)
    if (kind, read) != (fault.kind, fault.read) or known.read(read) != (int(variable), int(value)):
        return False
    if kind == "ThinAirRead":
        return True
    *source, missed, written = others
    is_written = known.operations[op_of(missed)][0] == ["w", int(variable), int(written)]
    return is_written and op_of(missed) in fault.latest and [op_of(other) for other in source] == [fault.source] * len(source)


def word_faults(whole, found, most, lines, text):
    """What is wrong with the words."""
    known, sessions = whole
    heads, shown = [line for line in text.splitlines() if not line.startswith("  ")], [line.strip() for line in text.splitlines()]
    wrong = [] if heads == lines else [f"the words have the lines {heads}, due {lines}"]
    if found is None:
        return wrong + [f"{shown} is listed where values are not distinct"] * bool(listed_in(shown))
    wrong += count_faults(found, sessions, shown)
    listed, due = listed_in(shown), found.all[:most]
    if len(listed) != len(due) or not all(is_line_of(known, fault, *line) for fault, line in zip(due, listed)):
        wrong.append(f"the list is {listed}, due {due}")
    return wrong


def json_faults(found, most, explanation, text):
    """What is wrong with the JSON form."""
    value = json.loads(text)
    if type(value) is not list or len(value) != 2 or value[0] != explanation:
        return [f"{text!r} is not a list with {explanation!r} first"]
    if found is None:
        return [] if value[1] is None else [f"{value[1]} is listed where values are not distinct"]
    due = [found.counts(), found.by_session(), found.all[:most]]
    return [] if plain_faults.is_right(found, most, value[1]) else [f"{value[1]} is listed, due {due}"]


def faults_of(program, form, rng, seen):
    """What is wrong with the lists of a history."""
    start, sessions = reading.read_long(json.dumps(form).encode())
    found, wrong = plain_faults.faults(start, sessions), []
    many = len(found.all) if found else 0
    whole = MemoryHistory(sessions, start), len(sessions)
    for option in [["--long"], *([[]] if reading.is_small(start, sessions) else [])]:
        lines = said(program, ["judge", *option], form)[1].splitlines()
        explanation = json.loads(said(program, ["explain", "--json", *option], form)[1])
        for words in ([], ["--json"]):
            most = rng.choice((1, max(1, many), many + 1, rng.randint(1, 1 + many)))
            command = ["explain", "--all", str(most), *option, *words]
            status, text = said(program, command, form)
            if status != 0:
                due = [f"status {status}"]
            else:
                due = json_faults(found, most, explanation, text) if words else word_faults(whole, found, most, lines, text)
            wrong += [f"{' '.join(command)}: {fault}" for fault in due]
            how = " ".join(["explain --all N", *option, *words])
            seen.update(f"{fault.kind} by {how}" for fault in (found.all[:most] if found else []))
    return wrong


def main():
    named = [f"{kind} by explain --all N{words}" for kind in KINDS for words in ("", " --json", " --long", " --long --json")]
    run_random(__doc__, "listed-faults", faulty, faults_of, named)


if __name__ == "__main__":
    main()
