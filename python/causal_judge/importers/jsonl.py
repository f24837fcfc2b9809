"""Imports calls with their times: one JSON object a line, in any order.

docs/importers.md says which fields a call has, how it becomes events, and why that blames no correct store.
"""

from __future__ import annotations

import math
from collections import Counter
from collections.abc import Iterator
from typing import NamedTuple, TextIO, TypeAlias

from causal_judge.events import Event, Name, Value
from causal_judge.importers.json_lines import Fields, name_of, objects_of, shown_field, value_of, word_of
from causal_judge.importers.scanning import FormatError, shown
from causal_judge.importers.writing import Clients, at_line, ended, lost

Time: TypeAlias = int | float

OPERATIONS = {"read": "r", "r": "r", "write": "w", "w": "w", "delete": "d", "d": "d"}
FAILED = {"r": "a failed read", "w": "a failed write", "d": "a failed delete"}


class Timed(NamedTuple):
    """A call that did not fail, and its line. It began at its start, and was answered or given up at its end, which may not be known.

    The value is what a write writes, or what a read found.
    """

    start: Time
    end: Time | None
    line: int
    word: str
    key: Name
    value: Value | None
    is_answered: bool

    @property
    def latest(self) -> Time:
        """The latest time that is known of the call."""
        return self.start if self.end is None else self.end


def read_jsonl(stream: TextIO, left_out: Counter[str]) -> Iterator[Event]:
    """The events of calls with their times: client by client, each one's calls in the order of their starts. After a call that got no answer
    a client is a new one.

    It keeps all calls, since they may come in any order. Of different clients no times are compared, so the log is in no order of time:
    judge it as a whole. Raises FormatError at a line that is no call, and where two calls of a client overlap, or are at one time.
    """
    clients: dict[Name, list[Timed]] = {}
    for line, fields in objects_of(stream):
        client, word = name_of(line, fields, "client"), word_of(line, fields, "op", OPERATIONS)
        timed = _timed_of(line, fields, word)
        if timed is None:
            left_out[FAILED[word]] += 1
        else:
            clients.setdefault(client, []).append(timed)
    names = Clients()
    for client, calls in clients.items():
        yield from _session_of(client, calls, names)


def _timed_of(line: int, fields: Fields, word: str) -> Timed | None:
    """The call of a line; none where it failed. Raises FormatError where a field is missing, or is not what it has to be."""
    key, start, end = name_of(line, fields, "key"), _time_of(line, fields, "start"), _time_of(line, fields, "end")
    if start is None:
        raise FormatError(line, f'"start" is {shown_field(fields, "start")}, and each call has one')
    if end is not None and end < start:
        raise FormatError(line, f'"end" is {shown(end)}, before "start", which is {shown(start)}')
    ok = _ok_of(line, fields, end is not None)
    if ok is False:
        return None
    value = value_of(line, fields, "value") if word == "w" or (word == "r" and ok) else None
    if word == "w" and value is None:
        raise FormatError(line, '"value" is null: a write that leaves nothing under its key is a delete')
    return Timed(start, end, line, word, key, value, ok is True)


def _time_of(line: int, fields: Fields, field: str) -> Time | None:
    """The time in a field; none where it is null or missing. Raises FormatError where it is no number."""
    time = fields.get(field)
    if time is None or isinstance(time, int) and not isinstance(time, bool) or isinstance(time, float) and math.isfinite(time):
        return time
    raise FormatError(line, f'"{field}" is {shown_field(fields, field)}, and a time is a number')


def _ok_of(line: int, fields: Fields, has_end: bool) -> bool | None:
    """Whether the call was answered; none where it got no answer. Raises FormatError where that is not said, or does not fit its end."""
    ok = fields.get("ok")
    if ok is not None and not isinstance(ok, bool):
        raise FormatError(line, f'"ok" is {shown_field(fields, "ok")}, and not one of true, false and null')
    if ok and not has_end:
        raise FormatError(line, '"ok" is true and there is no "end": a call that was answered has one')
    if has_end and "ok" not in fields:
        raise FormatError(line, 'there is an "end" and no "ok": say true where the call was answered, and null where it was given up')
    return ok


def _session_of(client: Name, calls: list[Timed], names: Clients) -> Iterator[Event]:
    """The events of a client, which is a new one after a call without an answer. Raises FormatError where two calls are in no order."""
    calls.sort(key=lambda timed: (timed.start, timed.latest))
    for before, timed in zip([None, *calls], calls):
        if before is not None and not _is_before(before, timed):
            first, second = sorted((before.line, timed.line))
            raise FormatError(second, f"this call of {shown(client)} and that of line {first} {_why(before, timed)}")
        yield from at_line(timed.line, _events_of(names.name_of(client), timed))
        if not timed.is_answered:
            names.renew(client)


def _is_before(one: Timed, other: Timed) -> bool:
    """Whether a client can only have made the one call before the other, where the other begins no earlier."""
    return one.latest <= other.start and one.start < other.latest


def _why(one: Timed, other: Timed) -> str:
    if one.latest > other.start:
        return "overlap: a client makes one call at a time"
    return f"begin and end at {shown(one.start)}: which came first is not known, and finer times would say it"


def _events_of(client: Name, timed: Timed) -> list[Event]:
    call = [timed.word, timed.key, timed.value] if timed.word == "w" else [timed.word, timed.key]
    answer = timed.value if timed.word == "r" else "ok"
    return ended(client, call, answer) if timed.is_answered else lost(client, call)
