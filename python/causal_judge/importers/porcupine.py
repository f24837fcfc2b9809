"""Imports events of Porcupine's key-value model: calls and returns of clients, one JSON object a line.

docs/importers.md says which fields an event has, how it becomes an event of a log, and why that blames no correct store.
"""

from __future__ import annotations

from collections import Counter
from collections.abc import Iterator
from typing import Any, NamedTuple, TextIO

from causal_judge.events import ORDER, Event, Name, Value
from causal_judge.importers.json_lines import Fields, name_of, objects_of, shown_field, value_of
from causal_judge.importers.scanning import FormatError, shown
from causal_judge.importers.writing import Call, Clients, at_line, read_of, write_of

CALL, RETURN = "call", "return"
KINDS: dict[Any, str] = {"call": CALL, "return": RETURN, 0: CALL, 1: RETURN}
OPERATIONS: dict[Any, str] = {"get": "get", "put": "put", "append": "append", 0: "get", 1: "put", 2: "append"}


class Pending(NamedTuple):
    """A call that has not returned: its id, what it asks, and its line."""

    id: Name
    call: Call
    line: int


def read_porcupine(stream: TextIO, left_out: Counter[str]) -> Iterator[Event]:
    """The events of a Porcupine history, in the order of its lines. For Porcupine that is the order of time, and so the log says. Nothing
    is left out.

    It keeps what is pending, the names of the clients, and the ids of the calls that never returned. Raises FormatError at a line that is no
    event of the key-value model, at an append, and at an event that does not fit those before it.
    """
    yield ORDER
    history = History()
    for line, fields in objects_of(stream):
        client, number, kind = name_of(line, fields, "ClientId"), name_of(line, fields, "Id"), _kind_of(line, fields)
        asked = fields.get("Value")
        if kind == CALL:
            yield from at_line(line, history.call(client, Pending(number, _call_of(line, asked), line)))
        else:
            yield from at_line(line, history.end(line, client, number, asked))


class History:
    """The calls that have not returned: those that are pending, and those whose clients called again."""

    def __init__(self) -> None:
        self._pending: dict[Name, Pending] = {}
        self._owners: dict[Name, Name] = {}
        self._lost: set[Name] = set()
        self._clients = Clients()

    def call(self, client: Name, called: Pending) -> Iterator[Event]:
        """A client calls. Where its last call has not returned, that one is lost: it may not return any more, and another client goes on."""
        if called.id in self._owners or called.id in self._lost:
            raise FormatError(called.line, f'the "Id" {shown(called.id)} is that of another call, which has not returned')
        before = self._pending.get(client)
        if before is not None:
            del self._owners[before.id]
            self._lost.add(before.id)
            yield ["lost", self._clients.name_of(client)]
            self._clients.renew(client)
        self._pending[client], self._owners[called.id] = called, client
        yield ["begin", self._clients.name_of(client), called.call]

    def end(self, line: int, client: Name, number: Name, returned: object) -> Iterator[Event]:
        """A call returns."""
        if number in self._lost:
            told = f"the call {shown(number)} returns after its client called again"
            raise FormatError(line, f"{told}: a client makes one call at a time")
        pending = self._pending.get(client)
        if pending is None or pending.id != number:
            raise FormatError(line, f'the client {shown(client)} has no call pending with the "Id" {shown(number)}')
        del self._pending[client], self._owners[number]
        yield ["end", self._clients.name_of(client), _answer_of(line, pending.call, returned)]


def _kind_of(line: int, fields: Fields) -> str:
    """Whether it is a call or a return. Porcupine's own type is a bool: false is a call, as 0 is."""
    kind = fields.get("Kind")
    if not isinstance(kind, (str, int)) or kind not in KINDS:
        raise FormatError(line, f'"Kind" is {shown_field(fields, "Kind")}, and not one of "call", "return", 0, 1, false and true')
    return KINDS[kind]


def _call_of(line: int, value: object) -> Call:
    """What a call asks."""
    fields = _fields_of(line, value, ("op", "key", "value"))
    word = fields.get("op")
    operation = OPERATIONS.get(word) if isinstance(word, (str, int)) and not isinstance(word, bool) else None
    if operation == "append":
        raise FormatError(line, "it is an append: a memory has reads and writes, and an append is neither")
    if operation is None:
        raise FormatError(line, f'"op" is {shown_field(fields, "op")}, and neither "get" nor "put"')
    key = name_of(line, fields, "key")
    return read_of(key) if operation == "get" else write_of(key, _held(value_of(line, fields, "value")))


def _answer_of(line: int, call: Call, returned: object) -> Value | None:
    """What a call returned: "ok" for a put, whose return may be null. Raises FormatError where another field could say more than that."""
    fields = _fields_of(line, {} if returned is None and call[0] != "r" else returned, ("value",))
    return _held(value_of(line, fields, "value")) if call[0] == "r" else "ok"


def _held(value: Value | None) -> Value | None:
    """What a key holds. In Porcupine's model a key that was never put holds the empty text, so that is nothing."""
    return None if value == "" else value


def _fields_of(line: int, value: object, known: tuple[str, ...]) -> Fields:
    """The fields of a "Value". Raises FormatError where it is no object, or has others."""
    if not isinstance(value, dict):
        raise FormatError(line, f'"Value" is no object with {" and ".join(known)}')
    unknown = [field for field in value if field not in known]
    if unknown:
        raise FormatError(line, f'"Value" has the field {shown(unknown[0])}, and it may have {", ".join(known)} alone')
    return value
