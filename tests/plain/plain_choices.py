#!/usr/bin/env python3
"""Judges a log by what its reads that found nothing can have seen: by each choice, or by what is forced, plainly and slowly.

    python3 tests/plain/plain_choices.py [--all | --seen | --check] < LOG

It writes three lines as `judge`: those of the history by the forced choice; with `--all` a `no` where no choice of what all null reads
saw gives a history that meets the criterion, tried one by one; with `--seen` instead what each null read saw by the forced choice, by the
lines of the begins: of its delete, `start`, or `open` where more than one candidate is left. `--check` tries the examples of this file.

A log that says that its lines stand in the order of time is judged by that order, where a read saw no delete that begins later.

It knows nothing of the program. Choices are those of plain_forced.py, histories those of plain_events.py, and lines those of
plain_long_judge.py.
"""

import argparse
import itertools
import json
import math
import sys
from typing import NamedTuple

import plain_events
import plain_long_judge
from objects import split
from patterns import CRITERIA
from plain_forced import START

MEMORY = "memory"


def kinds_by(events, choice):
    """The kind that each line names, or none of a yes, of the history of some events by a choice. None where values are not distinct."""
    _, sessions, *start = plain_events.Run(events, choice).form()
    calls = [[split(MEMORY, operation) for operation in session] for session in sessions]
    return plain_long_judge.kinds(start[0] if start else [], calls)


def choices_of(found):
    """All choices of some candidates of null reads, in which none is left out."""
    return (dict(zip(found, seen)) for seen in itertools.product(*found.values()))


def how_many(found):
    """How many choices there are of these candidates."""
    return math.prod(map(len, found.values()))


def met_by_some(events, is_timed, first=()):
    """The criteria that the history by some choice meets, in which no null read is left out: none where one has no candidate. Some of the
    choices are tried first. None where values are not distinct."""
    met, found = set(), plain_events.Run(events, {}, is_timed).candidates()
    for choice in itertools.chain(first, choices_of(found)) if how_many(found) else ():
        kinds = kinds_by(events, choice)
        if kinds is None:
            return None
        met |= {criterion for criterion, kind in kinds.items() if kind is None}
        if len(met) == len(CRITERIA):
            break
    return met


def seen_lines(found):
    """What each null read of a log saw by the forced choice, a line each, by the lines of the begins."""
    forced = plain_events.Run(found.events, {}, found.is_timed).forced()
    for read in forced.reads:
        left = forced.left[read.place]
        saw = "open" if len(left) > 1 else "nothing left" if not left else "start" if left[0] is START else f"line {found.lines[left[0]]}"
        yield f"line {found.lines[read.place]}: {saw}\n"


def log_of(*calls):
    """The bytes of a log of calls, each as "client word key [value] [ending]" with numbers, one after the other. A value of a read is
    what it got, and "-" is nothing; the endings are "lost", "fail" and "open". Before them "order time" and "start key value" may
    stand."""
    events = []
    for text in calls:
        if text == "order time":
            events.append(["order", "time"])
            continue
        client, word, key, *rest = text.split()
        if client == "start":
            events.append(["start", int(word), int(key)])
            continue
        ending = rest.pop() if rest and rest[-1] in ("lost", "fail", "open") else "end"
        value = int(rest[0]) if rest and rest[0] != "-" else None
        events.append(["begin", int(client), [word, int(key), *([value] if word == "w" else [])]])
        if ending != "open":
            events.append([ending, int(client), *([value if word == "r" else "ok"] if ending == "end" else [])])
    return "".join(f"{json.dumps(event)}\n" for event in events).encode()


class Example(NamedTuple):
    """Calls; what each null read of them saw by the forced choice, by their numbers, -1 for the start and None for one that is left out;
    and what is met by that choice, and by any."""

    calls: tuple
    seen: dict
    met: tuple
    met_by_any: tuple


ALL, NO, TIME = CRITERIA, (), "order time"
EXAMPLES = {
    "a client deletes what it wrote": Example(("0 w 0 5", "0 d 0", "0 r 0 -"), {2: 1}, ALL, ALL),
    "nothing after a delete and a write": Example(("0 d 0", "0 w 0 5", "0 r 0 -"), {2: 0}, NO, NO),
    "nothing where a value was that came after the delete": Example(("0 d 0", "0 w 0 5", "1 r 0 5", "1 r 0 -"), {3: 0}, NO, NO),
    "nothing after a delete and a write, and a delete after that": Example(("0 d 0", "0 w 0 5", "0 r 0 -", "0 d 0"), {2: 0}, NO, NO),
    "a value and then a concurrent delete again": Example(("1 d 0", "0 w 0 5", "1 r 0 5", "1 r 0 -"), {3: 0}, ("cc",), ("cc",)),
    "a delete after the read": Example(("0 r 0 -", "0 d 0"), {0: -1}, ALL, ALL),
    "a delete after the read by another client": Example(("0 r 0 -", "0 w 1 5", "1 r 1 5", "1 d 0"), {0: -1}, ALL, ALL),
    "a delete that may come later": Example(("0 r 0 -", "1 d 0"), {0: None}, ALL, ALL),
    "two concurrent deletes": Example(("0 w 0 5", "1 d 0", "2 d 0", "0 r 0 -"), {3: None}, ALL, ALL),
    "one delete and a start": Example(("start 0 4", "1 d 0", "0 r 0 -"), {1: 0}, ALL, ALL),
    "a delete that was lost": Example(("0 w 0 5", "0 d 0 lost", "0 w 1 6", "0 r 0 -"), {3: 1}, ALL, ALL),
    "what comes before a lost delete": Example(("0 w 1 7", "0 d 0 lost", "1 w 0 5", "1 r 0 -", "1 r 1 -"), {3: 1}, NO, NO),
    "what comes after a lost delete": Example(("0 d 0 lost", "0 w 1 7", "1 w 0 5", "1 r 0 -", "1 r 1 -"), {3: 0}, ALL, ALL),
    "a lost delete after an answered write": Example(("0 w 0 5", "0 d 0 lost", "0 w 1 6", "0 r 0 -", "0 r 0 5"), {3: 1}, NO, NO),
    "a lost write that was read": Example(("0 w 0 5 lost", "0 w 1 6", "1 r 0 5", "1 r 1 6", "2 d 0", "1 r 0 -"), {5: 4}, ALL, ALL),
    "a delete that failed": Example(("0 d 0", "0 d 0 fail", "0 w 0 5", "0 r 0 -"), {3: 0}, NO, NO),
    "a delete that is pending": Example(("0 w 0 5", "1 d 0 open", "0 r 0 -"), {2: 1}, ALL, ALL),
    "one read after the other": Example(("0 w 1 7", "0 d 1", "0 d 0", "1 w 0 9", "1 r 0 -", "1 r 1 -"), {4: 2, 5: 1}, ALL, ALL),
    "a delete after the read, through another null read": Example(
        ("start 0 4", "0 r 1 -", "0 d 0", "1 r 0 -", "1 d 1"), {0: -1, 2: 1}, ALL, ALL
    ),
    "in another order of lines": Example(("1 w 0 9", "1 r 0 -", "1 r 1 -", "0 w 1 7", "0 d 1", "0 d 0"), {1: 5, 2: 4}, ALL, ALL),
    "both of two deletes come after a write": Example(
        ("0 w 1 7", "1 r 1 7", "1 d 0", "2 r 1 7", "2 d 0", "3 w 0 5", "3 r 0 -", "3 r 1 -"), {6: None}, ALL, NO
    ),
    "a lost delete before a write": Example(("0 w 0 5", "0 d 0 lost", "0 w 0 6", "0 r 0 -", "0 r 0 5"), {3: 1}, NO, NO),
    "in time, a delete after the read by another client": Example((TIME, "0 w 0 5", "0 r 0 -", "1 d 0"), {1: -1}, NO, NO),
    "in time, a start and a delete after the read": Example((TIME, "start 0 4", "0 r 0 -", "1 d 0"), {0: -1}, NO, NO),
    "in time, a first read before the delete": Example((TIME, "0 r 0 -", "1 d 0"), {0: -1}, ALL, ALL),
    "in time, a delete before the read": Example((TIME, "0 w 0 5", "1 d 0", "0 r 0 -", "2 d 0"), {2: 1}, ALL, ALL),
    "in time, nothing left and two deletes": Example((TIME, "0 d 0", "0 w 0 5", "0 r 0 -", "1 d 0"), {2: 0}, NO, NO),
    "in time, a delete that is pending": Example((TIME, "1 d 0 open", "0 w 0 5", "0 r 0 -"), {2: 0}, ALL, ALL),
}


def faults_of_examples():
    """What is wrong with what this program says of each example."""
    for name, example in EXAMPLES.items():
        found = plain_events.read_log(log_of(*example.calls))
        forced = plain_events.Run(found.events, {}, found.is_timed).forced()
        number = {START: -1, **forced.number}
        seen = {forced.number[read.place]: None for read in forced.reads}
        seen |= {number[read]: number[delete] for read, delete in forced.choice.items()}
        met = tuple(criterion for criterion, kind in kinds_by(found.events, forced.choice).items() if kind is None)
        by_any = tuple(criterion for criterion in CRITERIA if criterion in met_by_some(found.events, found.is_timed))
        said = Example(example.calls, seen, met, by_any)
        yield [] if said == example else [f"{name}: {said[1:]}, due {example[1:]}"]


def main():
    parser = argparse.ArgumentParser(description=__doc__, formatter_class=argparse.RawDescriptionHelpFormatter)
    for word in ("--all", "--seen", "--check"):
        parser.add_argument(word, action="store_true")
    given = parser.parse_args()
    if given.check:
        faults = sum(faults_of_examples(), [])
        sys.exit("\n".join(faults) if faults else 0)
    found = plain_events.read_log(sys.stdin.buffer.read())
    if found.refusal:
        sys.exit("refused {} {}".format(*found.refusal))
    if given.seen:
        text = "".join(seen_lines(found))
    elif given.all:
        met = met_by_some(found.events, found.is_timed)
        text = None if met is None else "".join(f"{criterion} {'yes' if criterion in met else 'no'}\n" for criterion in CRITERIA)
    else:
        text = plain_events.report_on(found.events, found.is_timed)
    sys.stdout.write(sys.exit("values are not distinct") if text is None else text)


if __name__ == "__main__":
    main()
