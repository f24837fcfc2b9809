"""Imports histories of Jepsen: reads, writes and compare-and-sets of registers, as EDN.

docs/importers.md says how each operation becomes events, and why that blames no correct store.
"""

from __future__ import annotations

from collections import Counter
from collections.abc import Iterator
from typing import NamedTuple, TextIO

from causal_judge.events import NAMES, ORDER, Event, Value
from causal_judge.importers.edn import forms
from causal_judge.importers.edn_forms import Form, Keyword, Map, Tagged, text_of
from causal_judge.importers.jepsen_shapes import Asked, Shapes, pair_of, value_of
from causal_judge.importers.scanning import FormatError, shown
from causal_judge.importers.writing import Call, Clients, at_line, read_of, write_of

FUNCTIONS = ("read", "write", "cas")
TYPES = ("invoke", "ok", "fail", "info")
OF_NEMESIS = "an entry of the nemesis"


class Entry(NamedTuple):
    """An entry of a history: what a process asks, or what became of it."""

    line: int
    type: str
    process: int
    function: str
    value: Form


class Pending(NamedTuple):
    """An operation that has no completion yet. Of a cas the value is the pair of the old value and the new one."""

    entry: Entry
    asked: Asked


def read_jepsen(stream: TextIO, left_out: Counter[str]) -> Iterator[Event]:
    """The events of a Jepsen history: its entries one after the other, or in one vector or list.

    Each entry is one event: an operation begins at its invocation, and ends at its completion. One that has none is pending at the end of
    the log. Jepsen writes a history in the order of time, of all processes, and so the log says.

    It keeps what is pending, the processes, and the keys that are texts. Raises FormatError where the text is no EDN, and at an entry that
    has no form of an operation or does not fit those before it.
    """
    yield ORDER
    operations = Operations()
    for line, form in forms(stream, opened=True):
        entry = _entry_of(line, form)
        if entry is None:
            left_out[OF_NEMESIS] += 1
        else:
            yield from at_line(line, [operations.invoke(entry) if entry.type == "invoke" else operations.complete(entry)])


def _entry_of(line: int, form: Form) -> Entry | None:
    """The entry that a form writes; none where it is of the nemesis. Raises FormatError where its process, type or function is none."""
    if isinstance(form, Tagged) and form.tag.endswith("Op"):
        form = form.form
    if not isinstance(form, Map):
        raise FormatError(line, f"{shown(text_of(form))} is no map, and an operation is one")
    fields = form.by_keyword()
    process, kind, function = (fields.get(name) for name in ("process", "type", "f"))
    if process == Keyword("nemesis"):
        return None
    if not isinstance(process, int) or isinstance(process, bool) or process not in NAMES:
        raise FormatError(line, f"the :process {shown(text_of(process))} is no number from 0 to 2^64 - 1, and not :nemesis")
    if not isinstance(kind, Keyword) or kind.name not in TYPES:
        raise FormatError(line, f"the :type {shown(text_of(kind))} is none of :invoke, :ok, :fail and :info")
    if not isinstance(function, Keyword) or function.name not in FUNCTIONS:
        raise FormatError(line, f"the :f {shown(text_of(function))} is none of :read, :write and :cas: other operations are not judged")
    return Entry(line, kind.name, process, function.name, fields.get("value"))


class Operations:
    """The operations that are pending, of each process one."""

    def __init__(self) -> None:
        self._shapes = Shapes()
        self._clients = Clients()
        self._pending: dict[int, Pending] = {}

    def invoke(self, entry: Entry) -> Event:
        """The begin of what a process asks. Raises FormatError where it has an operation pending."""
        if entry.process in self._pending:
            line = self._pending[entry.process].entry.line
            raise FormatError(entry.line, f"the process {entry.process} invokes, and its operation of line {line} has no completion")
        asked = self._shapes.asked(entry.line, entry.function, entry.value)
        if entry.function == "cas" and pair_of(asked.form) is None:
            raise FormatError(entry.line, f"the :value of a :cas is no pair of values: {shown(text_of(asked.form))}")
        self._pending[entry.process] = Pending(entry, asked)
        return ["begin", self._clients.name_of(entry.process), _call_of(entry.function, asked)]

    def complete(self, entry: Entry) -> Event:
        """What became of an operation. After one without an answer the process is another client.

        Raises FormatError where the completion doesn't fit what the process invoked.
        """
        pending = self._pending.pop(entry.process, None)
        if pending is None:
            raise FormatError(entry.line, f"the process {entry.process} has invoked nothing that this could complete")
        if pending.entry.function != entry.function:
            asked = f":{pending.entry.function} in line {pending.entry.line}"
            raise FormatError(entry.line, f"the :f is :{entry.function}, and the process invoked a {asked}")
        client = self._clients.name_of(entry.process)
        if entry.type == "ok":
            return ["end", client, self._answer_of(pending, entry)]
        if entry.type == "info":
            self._clients.renew(entry.process)
        return ["lost" if entry.type == "info" else "fail", client]

    def _answer_of(self, pending: Pending, entry: Entry) -> Value | None:
        """The answer to an operation.

        Raises FormatError where the :ok has another key or value than what the process invoked: then it isn't known what was asked. A read
        that was invoked with nil may find any value.
        """
        if entry.function != "read" and entry.value is None:
            return "ok"
        invoked, found = pending.asked, self._shapes.asked(entry.line, entry.function, entry.value)
        if invoked.key != found.key:
            raise FormatError(entry.line, f"the :ok is of another key than the :invoke of line {pending.entry.line}")
        is_open = entry.function == "read" and invoked.form is None
        if not is_open and text_of(invoked.form) != text_of(found.form):
            told = f"{shown(text_of(found.form))}, and in the :invoke of line {pending.entry.line} it is {shown(text_of(invoked.form))}"
            raise FormatError(entry.line, f"in the :ok of the :{entry.function} the value is {told}")
        return value_of(found.form) if entry.function == "read" else "ok"


def _call_of(function: str, asked: Asked) -> Call:
    """The call that stands for an operation: a cas is a write of its new value, and what it compared is left out."""
    if function == "read":
        return read_of(asked.key)
    if function == "write":
        return write_of(asked.key, value_of(asked.form))
    pair = pair_of(asked.form)
    assert pair is not None, "a cas is invoked with a pair"
    return write_of(asked.key, value_of(pair[1]))
