"""The form of an event, one line of a log: which names and values there are, the text of a line, and how a log is read.

docs/events.md of the repository has the whole form. An event is here the list that its JSON is, as `["begin", "alice", ["w", "k", "v1"]]`.
A `begin` and what ends a call may have one element more, which is a note: any JSON, as the server that was asked.
"""

from __future__ import annotations

import itertools
import json
import math
import re
from collections.abc import Container, Iterator
from typing import Any, BinaryIO, NoReturn, TypeAlias

Name: TypeAlias = str | int
Value: TypeAlias = str | int | bool
Event: TypeAlias = list[Any]

NAMES = range(2**64)
VALUES = range(-(2**63), 2**64)
MOST_LINE = 1_000_000
BLANKS = b" \t\r\n"
ORDER: Event = ["order", "time"]
"""The first event of a log whose lines stand in the order of time: each begin was appended before the call was sent, and each end after its
answer came, to this one file."""
NUMBERED = re.compile(r"(.*)#([1-9][0-9]{0,17})", re.DOTALL)
LATE_ORDER = 'the order of time is said after an event, or twice: ["order","time"] is the first event of a log'


class LogError(ValueError):
    """A line of a log that is no event, or that may not stand where it does: its number, from 1, and what is wrong with it."""

    def __init__(self, line: int, what: str, path: object = None) -> None:
        super().__init__(line, what, path)
        self.line, self.what, self.path = line, what, path

    def __str__(self) -> str:
        place = f"line {self.line}" if self.path is None else f"{self.path}, line {self.line}"
        return f"{place}: {self.what}"


def check_name(name: object) -> None:
    """Raises TypeError or ValueError, with what to write instead, where this can name no client and no key."""
    if isinstance(name, str):
        _check_text(name)
    elif isinstance(name, bool) or not isinstance(name, int):
        raise TypeError(f"a client or a key is a text or a whole number, not {_shown(name)}: write it as a text")
    elif name not in NAMES:
        raise ValueError(f"a client or a key that is a number is from 0 to 2^64 - 1, not {name}: write it as a text")


def check_value(value: object) -> None:
    """Raises TypeError or ValueError, with what to write instead, where no key can hold this value."""
    if isinstance(value, str):
        _check_text(value)
    elif value is None:
        raise TypeError("None is no value: a key that holds nothing has no start, and a delete is no write")
    elif isinstance(value, float):
        raise TypeError(f"a fraction is no value: write {value!r} as a text")
    elif isinstance(value, (bytes, bytearray, memoryview)):
        raise TypeError(f"bytes are no value: decode {_shown(value)}, or write it as a text in hexadecimal digits")
    elif not isinstance(value, int):
        raise TypeError(f"a value is a text, a whole number or a bool, not {_shown(value)}: write it as a text")
    elif value not in VALUES:
        raise ValueError(f"a value that is a number is from -2^63 to 2^64 - 1, not {value}: write it as a text")


def is_same(one: Value, other: Value) -> bool:
    """Whether two values are the same in a log, where 1 is not true."""
    return isinstance(one, bool) == isinstance(other, bool) and one == other


def next_name(name: Name, taken: Container[Name]) -> str:
    """A name for the client that another one is after it connected anew, which is not taken: "alice#2" for "alice", and then "alice#3"."""
    found = NUMBERED.fullmatch(name) if isinstance(name, str) else None
    stem, number = (found[1], int(found[2])) if found else (name, 1)
    return next(other for count in itertools.count(number + 1) if (other := f"{stem}#{count}") not in taken)


def check_event(event: object) -> None:
    """Raises TypeError or ValueError where this is no form of an event. Of a note nothing is asked."""
    match event:
        case ["start", key, value] | ["begin", _, ["w", key, value]] | ["begin", _, ["w", key, value], _]:
            check_name(key)
            check_value(value)
        case ["begin", _, ["r" | "d", key]] | ["begin", _, ["r" | "d", key], _]:
            check_name(key)
        case ["end", _, answer] | ["end", _, answer, _]:
            if answer is not None:
                check_value(answer)
        case ["fail" | "lost", _] | ["fail" | "lost", _, _] | ["order", "time"]:
            pass
        case _:
            raise ValueError(f"{_shown(event)} is no event")
    if event[0] != "start":
        check_name(event[1])


def line_of(event: Event) -> bytes:
    """The line of an event, with its line feed: compact JSON in UTF-8.

    Raises ValueError where a text has half of a surrogate pair, or where the line would have more than 1,000,000 bytes.
    """
    try:
        line = _ENCODER.encode(event).encode()
    except UnicodeEncodeError:
        _refuse_surrogate()
    if len(line) > MOST_LINE:
        raise ValueError(f"a line of a log has at most {MOST_LINE:,} bytes, not {len(line):,}: write a digest of the value")
    return line + b"\n"


def read_log(stream: BinaryIO) -> Iterator[tuple[int, Event]]:
    """The events of a log with the numbers of their lines, from 1. See LogReader, which also says how the log ended."""
    return iter(LogReader(stream))


class LogReader:
    """Reads a log line by line: gives each event with the number of its line, and keeps none.

    Blank lines are passed over, and a torn last line ends the log. A bad line raises LogError. After the last event `size` is how many
    bytes the log has without a torn end, `is_torn` whether there was one, and `lacks_feed` whether its last line is whole but for its line
    feed.
    """

    def __init__(self, stream: BinaryIO) -> None:
        self.stream = stream
        self.size = 0
        self.is_torn = self.lacks_feed = False

    def __iter__(self) -> Iterator[tuple[int, Event]]:
        for number in itertools.count(1):
            line = self.stream.readline(MOST_LINE + 1)
            if len(line.removesuffix(b"\n")) > MOST_LINE:
                raise LogError(number, f"has more than {MOST_LINE:,} bytes")
            self.is_torn = _is_torn(line)
            if not line or self.is_torn:
                return
            if line.strip(BLANKS):
                yield number, _event_of(number, line)
            self.size += len(line)
            self.lacks_feed = not line.endswith(b"\n")


class Progress:
    """What the events so far left open: the clients with a pending call, with its word, and the keys that were started.

    `is_timed` is whether the log says that its lines stand in the order of time.
    """

    def __init__(self) -> None:
        self.pending: dict[Name, str] = {}
        self.started: dict[Name, Value] = {}
        self.has_begun = self.is_timed = False

    @property
    def is_empty(self) -> bool:
        """Whether there was no event."""
        return not (self.has_begun or self.is_timed or self.started)

    def fault_of(self, event: Event) -> str:
        """Why an event may not come next; an empty text where it may."""
        match event:
            case ["order", *_]:
                return "" if self.is_empty else LATE_ORDER
            case ["start", key, _]:
                if self.has_begun:
                    return f"the start of {_shown(key)} comes after a begin"
                return f"the key {_shown(key)} has a start already" if key in self.started else ""
            case ["begin", client, *_]:
                return f"the client {_shown(client)} has a call pending" if client in self.pending else ""
        word = self.pending.get(event[1])
        if word is None:
            return f"the client {_shown(event[1])} has no call pending"
        if event[0] == "end" and word != "r" and event[2] != "ok":
            return f'a write or a delete ends with "ok", not with {_shown(event[2])}'
        return ""

    def take(self, event: Event) -> None:
        """Takes in an event that may come next."""
        match event:
            case ["order", *_]:
                self.is_timed = True
            case ["start", key, value]:
                self.started[key] = value
            case ["begin", client, call, *_]:
                self.pending[client], self.has_begun = call[0], True
            case [_, client, *_]:
                del self.pending[client]


_ENCODER = json.JSONEncoder(ensure_ascii=False, separators=(",", ":"), allow_nan=False)


def _shown(thing: object) -> str:
    """A thing in a message, cut where it is long."""
    text = repr(thing)
    return text if len(text) <= 80 else f"{text[:76]} ..."


def _check_text(text: str) -> None:
    """Raises ValueError where a text can't be written in UTF-8."""
    if not text.isascii():
        try:
            text.encode()
        except UnicodeEncodeError:
            _refuse_surrogate()


def _refuse_surrogate() -> NoReturn:
    raise ValueError("a text has half of a surrogate pair, which no UTF-8 has: write it as bytes in hexadecimal digits") from None


def _whole_of(text: str) -> int | float:
    """The number that digits write. A minus zero is no whole number in a log."""
    return -0.0 if text == "-0" else int(text)


def _fraction_of(text: str) -> float:
    """The number that a text with a fraction or an exponent writes."""
    number = float(text)
    if math.isinf(number):
        raise ValueError(f"{text} is too large")
    return number


def _refuse_constant(text: str) -> NoReturn:
    raise ValueError(f"{text} is no JSON")


_DECODER = json.JSONDecoder(parse_int=_whole_of, parse_float=_fraction_of, parse_constant=_refuse_constant)


def _json_of(line: bytes) -> object:
    """What a line writes in JSON. Raises ValueError where it is no JSON, or no UTF-8, or escapes half of a surrogate pair."""
    try:
        found: object = _DECODER.decode(line.decode())
        if b"\\u" in line:
            _ENCODER.encode(found).encode()
    except RecursionError:
        raise ValueError("lists are too deep") from None
    return found


def _is_torn(line: bytes) -> bool:
    """Whether this is a last line, without a line feed, that is no JSON."""
    if line.endswith(b"\n") or not line.strip(BLANKS):
        return False
    try:
        _json_of(line)
    except ValueError:
        return True
    return False


def _event_of(number: int, line: bytes) -> Event:
    """The event of a line that is whole, or LogError."""
    try:
        event = _json_of(line)
    except ValueError as error:
        raise LogError(number, f"is no JSON in UTF-8: {error}") from None
    try:
        check_event(event)
    except (TypeError, ValueError) as error:
        raise LogError(number, str(error)) from None
    assert isinstance(event, list)
    return event
