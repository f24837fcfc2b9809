"""Imports sessions of single operations: one session a line, each operation as `w(key,value)` or `r(key,value)`.

docs/importers.md has the grammar, how an operation becomes events, and why that blames no correct store.
"""

from __future__ import annotations

import re
from collections import Counter
from collections.abc import Iterator
from typing import TextIO

from causal_judge.events import NAMES, VALUES, Event, Name, Value
from causal_judge.importers.scanning import FormatError, Token, shown, tokens_of
from causal_judge.importers.writing import at_line, ended, read_of, write_of

NOTHING = ("0", "nil", "null")
WORD = "a text"
WHOLE = re.compile(r"-?[1-9][0-9]{0,19}|0")
TOKEN = re.compile(
    r"""
    [ \t\r\f\v]* (?: \#[^\n]* )?
    (?: (?P<feed> \n )
      | (?P<mark> [(),] )
      | (?P<word> [^\s(),\#]+ )
      | (?P<end>  \Z )
    )""",
    re.VERBOSE | re.ASCII,
)


def read_sessions(stream: TextIO, left_out: Counter[str]) -> Iterator[Event]:
    """The events of sessions, operation by operation. Nothing is left out.

    The client of a session is named by the place of its line among those that have operations. The log is in no order of time: a value may
    be read on an earlier line than it is written, so judge it as a whole. It keeps one operation. Raises FormatError where the text is not
    of the grammar.
    """
    tokens, session, line = tokens_of(stream, TOKEN), 0, 0
    for token in tokens:
        if token.kind == "word":
            session, line = session + (token.line != line), token.line
            yield from at_line(line, _operation_of(tokens, token, f"session {session}"))
        elif token.kind != "feed" and token.text != ",":
            raise FormatError(token.line, f"an operation begins with w or r, and not with {shown(token.text)}")


def _operation_of(tokens: Iterator[Token], word: Token, client: Name) -> list[Event]:
    """The events of the operation that begins with a word."""
    if word.text not in ("w", "r"):
        raise FormatError(word.line, f"an operation begins with w or r, and not with {shown(word.text)}")
    _taken(tokens, word, "(")
    key = _name_of(_taken(tokens, word, WORD))
    _taken(tokens, word, ",")
    token = _taken(tokens, word, WORD, ")")
    value = _value_of(token)
    if token.text != ")":
        _taken(tokens, word, ")")
    return ended(client, read_of(key), value) if word.text == "r" else ended(client, write_of(key, value))


def _taken(tokens: Iterator[Token], begun: Token, *wanted: str) -> Token:
    """The next token. Raises FormatError where it is none of those that may come next in the operation that has begun."""
    token = next(tokens, None)
    if token is None or token.text not in wanted and not (token.kind == "word" and WORD in wanted):
        found = "the end of the line" if token is None or token.kind == "feed" else shown(token.text)
        raise FormatError(begun.line, f"{found} stands where {' or '.join(wanted)} has to be: an operation is w(key,value) or r(key,value)")
    return token


def _name_of(token: Token) -> Name:
    """A key: a whole number where its digits write one that a log can have, else a text."""
    return int(token.text) if WHOLE.fullmatch(token.text) and int(token.text) in NAMES else token.text


def _value_of(token: Token) -> Value | None:
    """A value, none for nothing: a whole number where these digits write one that a log can have, else a text."""
    if token.text == ")" or token.text in NOTHING:
        return None
    return int(token.text) if WHOLE.fullmatch(token.text) and int(token.text) in VALUES else token.text
