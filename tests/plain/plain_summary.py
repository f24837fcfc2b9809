#!/usr/bin/env python3
"""Counts how much the run of a log asks, plainly: the line of `judge --summary`.

    python3 tests/plain/plain_summary.py < LOG

It knows nothing of the program. What null reads can have seen is that of plain_forced.py, which follows docs/events.md.
"""

import sys
from collections import Counter
from typing import NamedTuple

import plain_events


class Sources(NamedTuple):
    """How many null reads have one possible source left, several, or none."""

    one: int
    several: int
    none: int

    def words(self):
        """What the line says of them, where there are any."""
        found = f", reads that found nothing at deleted keys: with one possible source {self.one}, several {self.several}, none {self.none}"
        return found if any(self) else ""


def sources_of(run):
    """The null reads of a run by how many candidates what is forced leaves them."""
    many = Counter(min(len(left), 2) for left in run.forced().left.values())
    return Sources(many[1], many[2], many[0])


def line_of(run, sources):
    """The line on a run whose null reads have these sources."""
    calls = run.calls
    endings, words = Counter(call.ending for call in calls), Counter(call.word for call in calls)
    written = Counter((call.key, call.value) for call in calls if call.word == "w")
    counts = {
        "clients": len({call.client for call in calls}),
        "calls": len(calls),
        "writes": words["w"] + words["d"],
        "reads answered": endings["got"] + endings["nothing"],
        "lost": endings["lost"],
        "failed": endings["failed"],
        "reads that ask nothing": sources.several,
        "keys": len({call.key for call in calls}),
        "values that repeat": sum(many > 1 for many in written.values()),
    }
    return ", ".join(f"{name} {count}" for name, count in counts.items()) + sources.words() + "\n"


def main():
    found = plain_events.read_log(sys.stdin.buffer.read())
    if found.refusal:
        sys.exit("refused {} {}".format(*found.refusal))
    run = plain_events.Run(found.events, {}, found.is_timed)
    sys.stdout.write(line_of(run, sources_of(run)))


if __name__ == "__main__":
    main()
