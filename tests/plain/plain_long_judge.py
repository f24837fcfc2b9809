#!/usr/bin/env python3
"""Judges memory histories of any number of sessions and operations in a plain and slow way, some thousand operations at most.

    python3 tests/plain/plain_long_judge.py < HISTORY

It writes the three lines of `judge --long` for a history that `judge` does not take, or on standard error the line of a refusal, with
status 1. Of a history within the limits of `judge` whose values are not distinct it knows no line: there `judge` makes certificates.

It knows nothing of the program, and follows docs/definitions.md: the parts "The form of a history" (reading.py) and "Patterns" (with
patterns.py), and the theorem of "When a criterion is met", by which a history of distinct values meets a criterion exactly where no kind
against it is present. Each relation is that of the paths of a graph, whose edges are all written down, and is searched breadth first:

    CO          from an operation to the next of its session, and from a write to each read that reads from it
    CO and CF   and from a write to another one of its variable that is read from by a read which the first is before in CO
    HB of o     the edges of CO in CO's past of o, and, again and again until there is none more, from a write to another one of its
                variable that is read from by a read of o's session which the first is before by these edges

A session is looked at by its last operation alone: HB of an earlier one relates no more, since its past and its reads are among those of
the last. A set of operations is a number, in which a bit stands for each.

Where several kinds are present, `judge` names the first of its table. Beyond the limits of `judge` the four kinds that are against all
criteria come first, in the order of that table, then the sessions in theirs: the first whose happened-before relation shows a kind names
it, CyclicHB where the relation is cyclic and else WriteHBInitRead.
"""

import sys

import reading
from patterns import CRITERIA, MemoryHistory

AGAINST_ALL = ("CyclicCO", "ThinAirRead", "WriteCOInitRead", "WriteCORead")
UNKNOWN_LINES = "".join(f"{criterion} unknown\n" for criterion in CRITERIA)


def members(some):
    """The operations of a set."""
    while some:
        least = some & -some
        some ^= least
        yield least.bit_length() - 1


def before(edges, op):
    """The operations from which a path of at least one edge goes to an operation; `edges` has of each the set of those just before it."""
    found, waiting = 0, [op]
    for later in waiting:
        new = edges[later] & ~found
        found |= new
        waiting += members(new)
    return found


class Graph:
    """The operations of a history by numbers, and what relates them."""

    def __init__(self, start, sessions):
        known = MemoryHistory(sessions, start)
        number = {op: i for i, op in enumerate(known.operations)}
        self.is_distinct = known.is_differentiated()
        self.last = [number[s, len(session) - 1] for s, session in enumerate(sessions) if session]
        self.session = [op[0] for op in number]
        self.variable = [call[1] for call, _ in known.operations.values()]
        self.reads = [i for op, i in number.items() if known.read(op)]
        self.source = [number.get(known.source(op)) for op in number]
        self.is_initial = [known.reads_nothing_written(op) is not None for op in number]
        self.writes = dict.fromkeys(self.variable, 0)
        self.edges = [0] * len(number)
        for op, i in number.items():
            if known.write(op) is not None:
                self.writes[self.variable[i]] |= 1 << i
            if op[1] > 0:
                self.edges[i] |= 1 << number[op[0], op[1] - 1]
            if self.source[i] is not None:
                self.edges[i] |= 1 << self.source[i]

    def writes_among(self, some, read):
        """The writes of the variable of a read in a set, without the one that it reads from."""
        others = some & self.writes[self.variable[read]]
        return others if self.source[read] is None else others & ~(1 << self.source[read])

    def is_thin(self, read):
        return self.source[read] is None and not self.is_initial[read]


def is_cyclic(edges, ops):
    """Whether a path of at least one edge goes from one of these operations to itself."""
    return any(before(edges, op) >> op & 1 for op in ops)


def kind_against_all(graph, past):
    """The first kind that is against all criteria and present; `past` has of each operation the set of those before it in CO."""
    if any(some >> op & 1 for op, some in enumerate(past)):
        return "CyclicCO"
    if any(map(graph.is_thin, graph.reads)):
        return "ThinAirRead"
    if any(graph.is_initial[read] and graph.writes_among(past[read], read) for read in graph.reads):
        return "WriteCOInitRead"
    sourced = [read for read in graph.reads if graph.source[read] is not None]
    if any(past[write] >> graph.source[read] & 1 for read in sourced for write in members(graph.writes_among(past[read], read))):
        return "WriteCORead"
    return None


def has_cyclic_conflict(graph, past):
    """Whether CyclicCF is present. CO has no cycle, so each cycle has an edge to the source of a read."""
    edges, sources = list(graph.edges), set()
    for read in graph.reads:
        if graph.source[read] is not None:
            edges[graph.source[read]] |= graph.writes_among(past[read], read)
            sources.add(graph.source[read])
    return is_cyclic(edges, sources)


def happened_before(graph, o, past):
    """The edges of HB of an operation, and the reads of its session up to it."""
    inside = past[o] | 1 << o
    edges = [some & inside for some in graph.edges]
    own = [read for read in graph.reads if graph.session[read] == graph.session[o] and read <= o]
    grew = True
    while grew:
        grew = False
        for read in own:
            if graph.source[read] is not None:
                new = graph.writes_among(before(edges, read), read) & ~edges[graph.source[read]]
                edges[graph.source[read]] |= new
                grew = grew or new != 0
    return edges, own


def shown_by(graph, o, past):
    """Whether HB of an operation is cyclic, and whether a read of an initial value comes behind a write in it. CO has no cycle, so each
    cycle has one of the edges to the source of an own read."""
    edges, own = happened_before(graph, o, past)
    sources = {graph.source[read] for read in own} - {None}
    is_behind = any(graph.is_initial[read] and graph.writes_among(before(edges, read), read) for read in own)
    return is_cyclic(edges, sources), is_behind


def kind_against_memory(graph, past, is_small):
    """The kind that is named of those that are against causal memory alone, if one is present."""
    found = set()
    for o in graph.last:
        cyclic, behind = shown_by(graph, o, past)
        if cyclic and not is_small:
            return "CyclicHB"
        if behind:
            return "WriteHBInitRead"
        found |= {"CyclicHB"} if cyclic else set()
    return found.pop() if found else None


def kinds(start, sessions):
    """The kind that each line names, or none of a yes, for a history of distinct values; `sessions` are lists of calls with their
    returns. None where values are not distinct."""
    graph = Graph(start, sessions)
    if not graph.is_distinct:
        return None
    past = [before(graph.edges, op) for op in range(len(graph.edges))]
    kind = kind_against_all(graph, past)
    if kind:
        return dict.fromkeys(CRITERIA, kind)
    memory = kind_against_memory(graph, past, reading.is_small(start, sessions))
    return {"cc": None, "cm": memory, "ccv": "CyclicCF" if has_cyclic_conflict(graph, past) else None}


def lines_of(named):
    """The three lines that name these kinds."""
    return "".join(f"{criterion} no {kind}\n" if kind else f"{criterion} yes\n" for criterion, kind in named.items())


def report(start, sessions):
    """The three lines; None where this program knows none."""
    named = kinds(start, sessions)
    if named is None:
        return None if reading.is_small(start, sessions) else UNKNOWN_LINES
    return lines_of(named)


def main():
    sys.stdout.write(reading.known_of_input(report))


if __name__ == "__main__":
    main()
