#!/usr/bin/env python3
"""Lists the reads of memory histories that show a fault, in a plain and slow way, some thousand operations at most.

    python3 tests/plain/plain_faults.py MOST < HISTORY

It writes as JSON what the causal order shows of a history of distinct values, at most MOST reads of it, and exits with status 1 where
values are not distinct. A read that missed a write has each of the latest ones here, of which the program names one.

It knows nothing of the program, and follows docs/definitions.md, the part "Patterns": a read shows ThinAirRead where it returns a value
that is not the initial one and that nobody writes; WriteCOInitRead where it returns the initial value and a write of its variable is before
it in CO; WriteCORead where it returns the value of a write and another write of its variable is after that one and before the read in CO.
These writes are those that it missed, and the latest are those before no other one of them. The order is searched breadth first, as in
plain_long_judge.py. Where CO has a cycle, the thin-air reads alone are told.
"""

import json
import sys
from typing import NamedTuple

import plain_long_judge
import reading

KINDS = ("ThinAirRead", "WriteCOInitRead", "WriteCORead")


class Fault(NamedTuple):
    """A read that shows a kind, its source where it has one, and the latest writes that it missed; operations are pairs of a session and
    an index."""

    kind: str
    read: tuple
    source: tuple
    latest: list


class Faults(NamedTuple):
    """All faults of a history, in the order of sessions and indices, and whether its causal order has a cycle."""

    all: list
    has_cycle: bool

    def counts(self, session=None):
        """Of each kind how many reads show it, in one session or altogether."""
        kinds = [fault.kind for fault in self.all if session is None or fault.read[0] == session]
        return [[kind, kinds.count(kind)] for kind in KINDS]

    def by_session(self):
        """The counts of each session that has a fault."""
        return [[session, self.counts(session)] for session in sorted({fault.read[0] for fault in self.all})]


def latest(past, missed):
    """Those of some writes that come before none of the others."""
    return [write for write in missed if not any(past[other] >> write & 1 for other in missed)]


def missed_by(graph, past, read):
    """The writes that a read missed."""
    source = graph.source[read]
    others = plain_long_judge.members(graph.writes_among(past[read], read))
    if graph.is_initial[read]:
        return list(others)
    return [] if source is None else [write for write in others if past[write] >> source & 1]


def faults(start, sessions):
    """The faults of a history; `sessions` are lists of calls with their returns. None where values are not distinct."""
    graph = plain_long_judge.Graph(start, sessions)
    if not graph.is_distinct:
        return None
    names = [(s, i) for s, session in enumerate(sessions) for i in range(len(session))]
    past = [plain_long_judge.before(graph.edges, op) for op in range(len(names))]
    has_cycle = any(some >> op & 1 for op, some in enumerate(past))
    found = []
    for read in graph.reads:
        if graph.is_thin(read):
            found.append(Fault("ThinAirRead", names[read], None, []))
        elif not has_cycle and (missed := missed_by(graph, past, read)):
            source = graph.source[read]
            kind = "WriteCOInitRead" if source is None else "WriteCORead"
            writes = [names[write] for write in latest(past, missed)]
            found.append(Fault(kind, names[read], None if source is None else names[source], writes))
    return Faults(found, has_cycle)


def is_form_of(fault, value):
    """Whether a value is the form of a fault: the name of its kind, the read, its source where it has one, and one of the latest writes
    that it missed."""
    begin = [fault.kind, list(fault.read)] + ([list(fault.source)] if fault.source else [])
    return value[: len(begin)] == begin and (
        value[len(begin) :] in [[list(write)] for write in fault.latest] if fault.latest else len(value) == len(begin)
    )


def is_right(found, most, value):
    """Whether a value is the form of these faults: the counts by kind, those of each session that has a fault, the first faults, at most so
    many, and what they break, which is left to guarantees.py."""
    counts, by_session, listed, _ = value
    return (
        counts == found.counts()
        and by_session == found.by_session()
        and len(listed) == min(most, len(found.all))
        and all(is_form_of(fault, form) for fault, form in zip(found.all, listed))
    )


def main():
    found = reading.known_of_input(faults)
    listed = [[fault.kind, fault.read, fault.source, fault.latest] for fault in found.all[: int(sys.argv[1])]]
    print(json.dumps([found.has_cycle, found.counts(), found.by_session(), listed]))


if __name__ == "__main__":
    main()
