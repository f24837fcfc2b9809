"""Reads a text piece by piece, as lines or as tokens, and says at which line it is not of its format."""

from __future__ import annotations

import itertools
import json
import re
from collections.abc import Callable, Iterator
from typing import NamedTuple, TextIO

PIECE = 65_536
MOST_TOKEN = 1_000_000
MOST_LINE = 4_000_000
MOST_SHOWN = 60


class FormatError(ValueError):
    """A text that is not of its format: the number of the line, from 1, and what is wrong there."""

    def __init__(self, line: int, what: str) -> None:
        super().__init__(line, what)
        self.line = line
        self.what = what

    def __str__(self) -> str:
        return f"line {self.line}: {self.what}"


class Token(NamedTuple):
    """A token: the name of its group in the pattern, its text, and the line where it begins."""

    kind: str
    text: str
    line: int


def shown(value: object) -> str:
    """A text or a value of JSON as it is shown in a message: in ASCII letters, cut where it is long."""
    try:
        text = json.dumps(value)
    except RecursionError:
        return "lists in lists"
    return text if len(text) <= MOST_SHOWN else f"{text[:MOST_SHOWN]}..."


def read_piece(read: Callable[[int], str], size: int, line: int) -> str:
    """Reads up to so many characters. Raises FormatError where the bytes are no text: they come at this line, or soon after it."""
    try:
        return read(size)
    except UnicodeDecodeError as error:
        raise FormatError(line, "this line or a later one is no UTF-8") from error


def lines_of(stream: TextIO) -> Iterator[tuple[int, str]]:
    """The lines of a text that hold more than blanks, each with its number, from 1. One line is held at a time.

    Raises FormatError at a line of more than 4,000,000 characters, and where the bytes are no text."""
    for number in itertools.count(1):
        line = read_piece(stream.readline, MOST_LINE + 1, number)
        if not line:
            return
        if len(line) > MOST_LINE:
            raise FormatError(number, f"it has more than {MOST_LINE:,} characters")
        if not line.isspace():
            yield number, line


def tokens_of(stream: TextIO, pattern: re.Pattern[str]) -> Iterator[Token]:
    """The tokens of a text, of which a piece is held at a time.

    The pattern passes over blanks and has a named group for each kind of token. It has to match at each place: the group `end` at the end
    of the text, and another group elsewhere. What matches up to the end of a piece is matched again when more is there.

    Raises FormatError where the bytes are no text, and where a token has more than 1,000,000 characters with the blanks before it.
    """
    piece, at, line, is_whole = "", 0, 1, False
    while True:
        found = pattern.match(piece, at)
        assert found is not None and found.lastgroup, "the pattern matches at each place"
        kind = found.lastgroup
        start, end = found.span(kind)
        if end == len(piece) and not is_whole:
            rest = piece[at:]
            more = _read_on(stream, len(rest), line)
            piece, at, is_whole = rest + more, 0, not more
        elif kind == "end":
            return
        else:
            line += piece.count("\n", at, start)
            yield Token(kind, found[kind], line)
            line += piece.count("\n", start, end)
            at = end


def _read_on(stream: TextIO, rest: int, line: int) -> str:
    """Reads at least as many characters as are left of the piece, so that a long token is not matched again and again."""
    if rest > MOST_TOKEN:
        raise FormatError(line, f"from here on more than {MOST_TOKEN:,} characters belong together")
    return read_piece(stream.read, max(PIECE, rest), line)
