"""The reads of a log that show a fault, one by one and counted, as `explain --all` lists them."""

from __future__ import annotations

import json
import os
from collections.abc import Iterator, Mapping
from dataclasses import dataclass, field
from typing import Any

from causal_judge.events import Name
from causal_judge.operations import Operation, Origins, Place, named
from causal_judge.program import find_program, run_program
from causal_judge.verdicts import EXPLAIN, Line, Log, path_of

MOST = range(1, 1_000_001)


class FaultsUnknown(ValueError):
    """Of this log no read can be said to be at fault, since it writes a value twice."""


@dataclass(frozen=True)
class Fault:
    """A read that shows a fault, and of which kind.

    `ThinAirRead`: nobody wrote what it returned. `WriteCORead`: `source` wrote it, or is the delete that a read saw which found nothing;
    and `missed` is a write or a delete after that, which the read missed. `WriteCOInitRead`: it returned what the key held at the start,
    and missed `missed`.
    """

    kind: str
    read: Operation
    source: Operation | None = None
    missed: Operation | None = None

    def __str__(self) -> str:
        source = f" ({'deleted' if self.source.word == 'd' else 'written'} by line {self.source.line})" if self.source else ""
        missed = f", which missed {self.missed}" if self.missed else ""
        return f"{self.kind}: {self.read}{source}{missed}"


@dataclass(frozen=True)
class Faults:
    """The reads of a log that show a fault: how many of each kind, in all and of each client that has one, and the first of them.

    As a list it is that of the first. `lines` are those of `judge`: a criterion may be a no by another kind, which no single read shows.
    """

    lines: tuple[Line, ...]
    counts: Mapping[str, int]
    by_client: Mapping[Name, Mapping[str, int]]
    listed: tuple[Fault, ...] = field(repr=False)

    @property
    def total(self) -> int:
        """How many reads show a fault, listed or not."""
        return sum(self.counts.values())

    def __iter__(self) -> Iterator[Fault]:
        return iter(self.listed)

    def __len__(self) -> int:
        return len(self.listed)

    def __str__(self) -> str:
        kinds = [f"{kind}: {count}" for kind, count in self.counts.items() if count]
        clients = [f"{named(client, 'client')}: {sum(counts.values())}" for client, counts in self.by_client.items()]
        return "\n".join([*kinds, *clients, *map(str, self.listed)])


def faults(log: Log, most: int = 10_000, *, program: str | os.PathLike[str] | None = None, timeout: float | None = None) -> Faults:
    """The reads of a log that show a fault, of which it lists so many at most. The log has to stay as it is meanwhile.

    Where there are some, the program runs twice, and each run may take `timeout` seconds.

    Raises FaultsUnknown where a value is written twice, ValueError where `most` is not from 1 to 1,000,000, RuntimeError where the log
    changed meanwhile, and what `judge` raises.
    """
    if most not in MOST:
        raise ValueError(f"most is from 1 to {MOST[-1]:,}, not {most}")
    path, asked = path_of(log), find_program(program)
    size = os.stat(path).st_size
    said = run_program(asked, [*EXPLAIN, "--all", str(most), "--json"], path, timeout)
    explained, found = json.loads(said)
    if found is None:
        raise FaultsUnknown(f"{path}: a value is written twice, so no read can be said to be at fault: write every value new")
    counts, by_session, listed, *_ = found
    firsts = {(session, 0) for session, *_ in by_session}
    wanted = firsts | {place for row in listed for place in _places_of(row)}
    operations = Origins(path, program=asked, timeout=timeout).operations(wanted) if wanted else {}
    if os.stat(path).st_size != size or len(operations) < len(wanted):
        raise RuntimeError(f"{path} changed while its faults were listed")
    by_client = {operations[session, 0].client: _counts_of(row) for session, row, *_ in by_session}
    return Faults(tuple(map(_line_of, explained)), _counts_of(counts), by_client, tuple(_fault_of(row, operations) for row in listed))


def _line_of(explained: list[Any]) -> Line:
    """The line of a criterion, of what the explanation has of it."""
    criterion, answer, shown, *_ = explained
    return Line(criterion, answer, (shown if isinstance(shown, str) else shown[0]) if answer == "no" else None)


def _counts_of(rows: list[list[Any]]) -> dict[str, int]:
    return {kind: count for kind, count, *_ in rows}


def _places_of(row: list[Any]) -> list[Place]:
    """The operations that a listed fault names: the read, the source of a WriteCORead, and the write that was missed."""
    return [(part[0], part[1]) for part in row[1:4] if isinstance(part, list)]


def _fault_of(row: list[Any], operations: Mapping[Place, Operation]) -> Fault:
    kind, (read, *more) = row[0], [operations[place] for place in _places_of(row)]
    return Fault(kind, read, more[0] if len(more) == 2 else None, more[-1] if more else None)
