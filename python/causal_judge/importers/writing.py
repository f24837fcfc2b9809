"""What importers share: the events of a call, its begin and what became of it, and the clients that make calls."""

from __future__ import annotations

from collections.abc import Iterable, Iterator
from typing import Any, TypeAlias

from causal_judge.events import Event, Name, Value, line_of, next_name
from causal_judge.importers.scanning import FormatError

Call: TypeAlias = list[Any]


def read_of(key: Name) -> Call:
    return ["r", key]


def write_of(key: Name, value: Value | None) -> Call:
    """A write of the value; where there is none, a delete, after which the key holds nothing."""
    return ["d", key] if value is None else ["w", key, value]


def ended(client: Name, call: Call, answer: Value | None = "ok") -> list[Event]:
    """A call that was answered: a read with what it found, None for nothing."""
    return [["begin", client, call], ["end", client, answer]]


def lost(client: Name, call: Call) -> list[Event]:
    """A call that got no answer, after which its client goes on."""
    return [["begin", client, call], ["lost", client]]


class Clients:
    """The clients of a log. One of the input is a new one of the log after each of its calls that got no answer.

    Whether it went on over the same connection then, or with a token of its session, no input says. It keeps the names of all clients.
    """

    def __init__(self) -> None:
        self._names: dict[Name, Name] = {}
        self._taken: set[Name] = set()

    def name_of(self, client: Name) -> Name:
        """The name in the log of a client of the input: its own, where no other one has that."""
        if client not in self._names:
            self._take(client, next_name(client, self._taken) if client in self._taken else client)
        return self._names[client]

    def renew(self, client: Name) -> None:
        """A call of the client got no answer: it is a new one from then on, as "alice#2" after "alice"."""
        self._take(client, next_name(self.name_of(client), self._taken))

    def _take(self, client: Name, name: Name) -> None:
        self._names[client] = name
        self._taken.add(name)


def at_line(line: int, events: Iterable[Event]) -> Iterator[Event]:
    """These events. Raises FormatError, with this line of the input, where an event has no line in a log: a text of it is too long, or no
    UTF-8."""
    for event in events:
        try:
            line_of(event)
        except ValueError as error:
            raise FormatError(line, str(error)) from error
        yield event
