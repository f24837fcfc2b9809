"""Reads lines of JSON: an object a line, whose fields are looked at one by one."""

from __future__ import annotations

import json
from collections.abc import Callable, Iterator
from typing import Any, NoReturn, TextIO, TypeAlias

from causal_judge.events import Name, Value, check_name, check_value
from causal_judge.importers.scanning import FormatError, lines_of, shown

Fields: TypeAlias = dict[str, Any]


def objects_of(stream: TextIO) -> Iterator[tuple[int, Fields]]:
    """The objects of a text, each with the number of its line, from 1. Blank lines are passed over.

    Raises FormatError at a line that is no object of JSON, one that names a field twice, and one of more than 4,000,000 characters.
    """
    for number, line in lines_of(stream):
        try:
            value = _DECODER.decode(line)
        except (ValueError, RecursionError) as error:
            raise FormatError(number, f"it is no JSON: {error}") from None
        if not isinstance(value, dict):
            raise FormatError(number, f"it is no object: {shown(line.strip())}")
        yield number, value


def name_of(line: int, fields: Fields, field: str) -> Name:
    """The name of a client, a key or a call in a field. Raises FormatError where it is none, or is missing."""
    name: Name = _checked(line, fields, field, check_name)
    return name


def value_of(line: int, fields: Fields, field: str) -> Value | None:
    """The value in a field, none for null. Raises FormatError where it is no value, or is missing."""
    value: Value | None = None if fields.get(field, "") is None else _checked(line, fields, field, check_value)
    return value


def word_of(line: int, fields: Fields, field: str, words: dict[str, str]) -> str:
    """What the word in a field stands for. Raises FormatError where it is another word, or is missing."""
    word = fields.get(field)
    if not isinstance(word, str) or word not in words:
        raise FormatError(line, f'"{field}" is {shown_field(fields, field)}, and not one of {", ".join(map(json.dumps, words))}')
    return words[word]


def shown_field(fields: Fields, field: str) -> str:
    """A field as it is shown in a message."""
    return shown(fields[field]) if field in fields else "missing"


def _checked(line: int, fields: Fields, field: str, check: Callable[[object], None]) -> Any:
    if field not in fields:
        raise FormatError(line, f'"{field}" is missing')
    try:
        check(fields[field])
    except (TypeError, ValueError) as error:
        raise FormatError(line, f'"{field}": {error}') from error
    except RecursionError:
        raise FormatError(line, f'"{field}" is {shown_field(fields, field)}') from None
    return fields[field]


def _object_of(pairs: list[tuple[str, Any]]) -> Fields:
    fields = dict(pairs)
    if len(fields) < len(pairs):
        raise ValueError("an object has a field twice")
    return fields


def _refuse_constant(text: str) -> NoReturn:
    raise ValueError(f"{text} is no number")


_DECODER = json.JSONDecoder(object_pairs_hook=_object_of, parse_constant=_refuse_constant)
