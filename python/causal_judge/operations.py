"""The calls of a log, and which of them each operation of its history is, as docs/events.md numbers these."""

from __future__ import annotations

import json
import os
import pathlib
from array import array
from collections import Counter
from collections.abc import Collection, Iterator
from dataclasses import dataclass, field
from typing import Any, NamedTuple, TypeAlias

from causal_judge.events import Event, Name, Progress, Value, read_log
from causal_judge.notes import note_of
from causal_judge.program import find_program, run_program

EVENTS = ["events"]
HISTORY = '["memory",['
"""How the history of a log begins: its sessions are next."""

Place: TypeAlias = tuple[int, int]
"""A session of the history, and the index of an operation in it."""


@dataclass(frozen=True)
class Operation:
    """A call of a log: the line of its begin, its client, its word ("r", "w" or "d"), its key, and the notes of its begin and its end.

    The value is what a write wrote or what a read found: None for nothing, for a delete, and for a read without an answer.
    """

    line: int
    client: Name
    word: str
    key: Name
    value: Value | None = None
    notes: tuple[object, ...] = field(default=(), compare=False)

    def __str__(self) -> str:
        return f"line {self.line}: {named(self.client, 'client')} {self._done()}"

    def _done(self) -> str:
        """What the client did."""
        key = named(self.key, "key")
        if self.word == "d":
            return f"deletes {key}"
        if self.word == "r" and self.value is None:
            return f"finds nothing at {key}"
        return f"reads {json.dumps(self.value)} from {key}" if self.word == "r" else f"writes {json.dumps(self.value)} to {key}"


class Logged(NamedTuple):
    """A call as a log has it: the number of the line of its begin, and its place among the events, from 0; the numbers of its client and
    its key, by which the history names them; its begin, and its end where there is one."""

    line: int
    place: int
    session: int
    key: int
    begin: Event
    end: Event | None

    @property
    def ending(self) -> str:
        """The word of the event that ended it; an empty text where none did."""
        return str(self.end[0]) if self.end else ""

    @property
    def found(self) -> Value | None:
        """What a read found."""
        return self.end[2] if self.end and self.ending == "end" else None

    @property
    def trait(self) -> int | None:
        """The trait of the operation that stands for it in its client's session, if one does; None where none may."""
        if self.ending == "fail":
            return None
        if self.ending == "lost":
            return _mark_of(self.place)
        return _nothing_at(2 * self.key) if self.begin[2][0] == "r" and self.end and self.found is None else 0

    def operation(self) -> Operation:
        """What it says."""
        (_, client, (word, key, *value), *_), events = self.begin, (self.begin, self.end)
        notes = (note_of(event) for event in events if event)
        held = self.found if word == "r" else value[0] if value else None
        return Operation(self.line, client, word, key, held, tuple(note for note in notes if note is not None))


class Origins:
    """Finds the calls that the operations of the history of a log stand for. It has the program write the history, of which it keeps
    eight bytes for each operation, and reads the log each time that it is asked.

    Each operation has a trait: that of the mark of a lost call says which call it is, and that of a read that found nothing its key. All
    others have the trait 0. A call is in the history where the next operation of its client has its trait: a lost read never is. So of
    several reads in a row that found nothing at one key, of which the history keeps some, it takes the first.
    """

    def __init__(
        self, path: str | os.PathLike[str], *, program: str | os.PathLike[str] | None = None, timeout: float | None = None
    ) -> None:
        """Raises what `judge` raises."""
        self._path = pathlib.Path(path)
        self._traits: list[array[int]] = []
        self._forks: dict[int, int] = {}
        for session in _sessions_of(run_program(find_program(program), EVENTS, self._path, timeout)):
            traits = array("Q", (_trait_of(*operation) for operation in session))
            if traits and traits[0] % 2 and session[0][0] == "r":
                self._forks[traits[0]] = len(self._traits)
            self._traits.append(traits)

    def operations(self, wanted: Collection[Place]) -> dict[Place, Operation]:
        """The calls of the operations at these places, as far as the history and the log have them."""
        indices: Counter[int] = Counter()
        found: dict[Place, Operation] = {}
        for call in calls_of(self._path):
            places = self._places_of(call, indices[call.session])
            indices[call.session] += len(places) > 0
            found.update((place, call.operation()) for place in places if place in wanted)
        return found

    def _places_of(self, call: Logged, index: int) -> list[Place]:
        """The operations that stand for a call, where this is the index of the next operation of its client."""
        traits = self._traits[call.session] if call.session < len(self._traits) else ()
        if index >= len(traits) or traits[index] != call.trait:
            return []
        fork = self._forks.get(traits[index])
        return [(call.session, index), *([] if fork is None else [(fork, 0), (fork, 1)])]


def calls_of(path: str | os.PathLike[str]) -> Iterator[Logged]:
    """The calls of a log that has been judged: those that ended in the order of their ends, and then those that did not."""
    clients: dict[Name, int] = {}
    keys: dict[Name, int] = {}
    begun: dict[Name, tuple[int, int, int, int, Event]] = {}
    with open(path, "rb") as stream:
        events = ((line, event) for line, event in read_log(stream) if event[0] != "order")
        for place, (line, event) in enumerate(events):
            match event:
                case ["start", key, _]:
                    keys.setdefault(key, len(keys))
                case ["begin", client, [_, key, *_], *_]:
                    begun[client] = line, place, clients.setdefault(client, len(clients)), keys.setdefault(key, len(keys)), event
                case [_, client, *_]:
                    yield Logged(*begun.pop(client), event)
    for parts in begun.values():
        yield Logged(*parts, None)


def answered_reads(path: str | os.PathLike[str], enough: int) -> int:
    """How many reads of a log that has been judged were answered, also by nothing. It reads no further than up to so many."""
    progress, found = Progress(), 0
    with open(path, "rb") as stream:
        for _, event in read_log(stream):
            if found >= enough:
                break
            found += event[0] == "end" and progress.pending.get(event[1]) == "r"
            progress.take(event)
    return found


def named(name: Name, kind: str) -> str:
    """The name of a client or a key in a sentence: a number is told from a text by the word before it."""
    return json.dumps(name, ensure_ascii=False) if isinstance(name, str) else f"{kind} {name}"


def _mark_of(place: int) -> int:
    """The variable of the mark of a lost call that began at a place, which is the trait of the mark."""
    return 2 * place + 1


def _nothing_at(variable: int) -> int:
    """The trait of a read of a variable that found nothing."""
    return variable + 2


def _trait_of(word: str, variable: int, value: int | str, *_: str) -> int:
    """The trait of an operation. A read that found nothing returns 0 or what a delete wrote, which is even."""
    if variable % 2:
        return variable
    return _nothing_at(variable) if word == "r" and isinstance(value, int) and value % 2 == 0 else 0


def _sessions_of(history: str) -> Iterator[list[list[Any]]]:
    """The sessions of a history as `events` writes it, of which it reads one at a time."""
    if not history.startswith(HISTORY):
        raise RuntimeError(f"this is no history that this package knows: {history[:80]!r}")
    decoder, place = json.JSONDecoder(), len(HISTORY)
    while history[place] != "]":
        session, place = decoder.raw_decode(history, place + (history[place] == ","))
        yield session
