#!/usr/bin/env python3
"""Compares what `judge --summary` says of random logs with a plain count.

    python3 tests/process/summaries.py SEED LOGS -- PROGRAM

LOGS logs, in turn of anything at all (random_logs.py), tiny ones with deletes and runs of stores that delete (deleting_stores.py), and
such whose values repeat (few_values.py). Every other one says that it is in the order of time, but for those that random_logs.py makes. The
line has to be that of plain_summary.py. Where a write or a delete was lost not all that is forced has to be found: there fewer reads may
have one possible source or none. Where no order explains what one read saw, what is found of others depends on which is looked at first:
there a read may count as one with no source where plainly one is left that is out at the end, or the other way around.

Each of the three counts has to come, and it prints how often.
"""

import argparse
import random
import re
from collections import Counter

import folders  # noqa: F401
import deleting_stores
import few_values
import plain_events
import plain_summary
import random_logs
from command_words import with_program
from counting import counted_faults, end
from many_logs import kept, said_of
from plain_summary import Sources

SUMMARY, ORDER = ["judge", "--long", "--events", "--summary"], b'["order","time"]\n'
SOURCES = re.compile(r", reads that found nothing at deleted keys: with one possible source (\d+), several (\d+), none (\d+)$", re.M)
ENOUGH = 300
DIFFERS, DIFFERS_OF = "logs in which the counts differ, as they may", 200


def read_whole(rng):
    """A log of anything at all that is not refused, and whose last line is whole."""
    while True:
        log = random_logs.log(rng)
        found = plain_events.read_log(log)
        if found.refusal is None and not found.is_torn:
            return log


def log_of(seed, number):
    """A log, by its number."""
    rng, order = random.Random(f"{seed} {number}"), ORDER * (number // 5 % 2)
    return (
        lambda: read_whole(rng),
        lambda: order + deleting_stores.tiny_log(rng).encode(),
        lambda: order + deleting_stores.store_log(number // 5)[0].encode(),
        lambda: order + few_values.tiny_log(rng).encode(),
        lambda: order + few_values.store_log(number // 5)[0].encode(),
    )[number % 5]()


def said_sources(errors):
    """The sources that a line of the program says."""
    found = SOURCES.search(errors)
    return Sources(*map(int, found.groups())) if found else Sources(0, 0, 0)


def may_be(said, run, plain):
    """Whether a count is one by what is forced, as far as it has to be found and in whatever order."""
    forced = run.forced()
    is_lossy = any(call.ending == "lost" and call.word != "r" for call in run.calls)
    nothing_left = sum(not forced.left_at_end(read) for read in forced.reads)
    is_of_all = said.several >= plain.several if is_lossy else said.several == plain.several
    return sum(said) == sum(plain) and is_of_all and said.none <= nothing_left


def log_faults(log, said, counts):
    """What is wrong with what the program says of a log. How often each count came is counted."""
    found = plain_events.read_log(log)
    run = plain_events.Run(found.events, {}, found.is_timed)
    plain, sources = plain_summary.sources_of(run), said_sources(said.errors)
    counts.update(name for name, many in plain._asdict().items() if many)
    if sources != plain and may_be(sources, run, plain):
        counts[DIFFERS] += 1
        plain = sources
    due = plain_summary.line_of(run, plain)
    return [] if said.errors == due else [f"{said.errors!r}, due {due!r}"]


def all_faults(given, counts):
    """The faults of each log, and of what never came."""
    logs = [log_of(given.seed, number) for number in range(given.logs)]
    for log, said in zip(logs, said_of(given.program, SUMMARY, logs)):
        wrong = log_faults(log, said, counts)
        yield [kept(log), *wrong] if wrong else []
    yield [] if counts[DIFFERS] <= 1 + given.logs // DIFFERS_OF else [f"{counts[DIFFERS]} {DIFFERS}"]
    for name in Sources._fields if given.logs >= ENOUGH else ():
        yield [] if counts[name] else [f"never seen: {name}"]


def main():
    parser = argparse.ArgumentParser(description=__doc__, formatter_class=argparse.RawDescriptionHelpFormatter)
    parser.add_argument("seed", type=int)
    parser.add_argument("logs", type=int)
    given, counts = with_program(parser), Counter()
    passed, failed = counted_faults(all_faults(given, counts))
    for name in Sources._fields:
        print(f"{counts[name]:8} logs have a read with {name} possible source{'s' * (name != 'one')}")
    print(f"{counts[DIFFERS]:8} {DIFFERS}")
    end(passed, failed)


if __name__ == "__main__":
    main()
