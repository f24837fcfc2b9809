"""Reads EDN, the notation in which Clojure prints its values: form after form, from a text that is never held as a whole.

It takes what Clojure prints: besides EDN that is ratios, whole numbers in hexadecimal digits, and symbols of almost any letters.
"""

from __future__ import annotations

import re
from collections.abc import Iterator
from typing import TextIO

from causal_judge.importers.edn_atoms import atom_of, character_of, string_of
from causal_judge.importers.edn_forms import Form, Keyword, List, Map, Set, Symbol, Tagged, text_of
from causal_judge.importers.scanning import FormatError, Token, shown, tokens_of

MOST_DEPTH = 100
CLOSING = {"(": ")", "[": "]", "{": "}", "#{": "}"}
TOKEN = re.compile(
    r"""
    (?: [\s,]+ | ;[^\n]* )*
    (?: (?P<open>    [(\[{] | \#\{ )
      | (?P<close>   [)\]}] )
      | (?P<string>  "(?:[^"\\]+|\\.)*(?:"|\\?\Z) )
      | (?P<discard> \#_ )
      | (?P<tag>     \#[^\s,()\[\]{}";\\]* )
      | (?P<letter>  \\(?:[^\s,()\[\]{}";\\]+|\S)? )
      | (?P<atom>    [^\s,()\[\]{}";\\@^`~'\#][^\s,()\[\]{}";\\]* )
      | (?P<end>     \Z )
      | (?P<other>   . )
    )""",
    re.VERBOSE | re.DOTALL | re.ASCII,
)


def forms(stream: TextIO, *, opened: bool = False) -> Iterator[tuple[int, Form]]:
    """The forms of a text, each with the line where it begins.

    With `opened` a list or a vector that is no part of another form gives its elements, one after the other, and no form of its own.
    One form is held at a time. Raises FormatError where the text is no EDN, and where forms are more than 100 deep in one another.
    """
    reader, outer = Reader(stream), None
    while (token := reader.next_token(0)) is not None:
        if opened and outer is None and token.text in ("(", "["):
            outer = token
        elif outer is not None and token.text == CLOSING[outer.text]:
            outer = None
        else:
            yield token.line, reader.form(token, 0)
    if outer is not None:
        raise _not_closed(outer)


class Reader:
    """Reads the forms of a text."""

    def __init__(self, stream: TextIO) -> None:
        self._tokens = tokens_of(stream, TOKEN)

    def next_token(self, depth: int) -> Token | None:
        """The next token that belongs to no discarded form; none at the end of the text."""
        for token in self._tokens:
            if token.kind != "discard":
                return token
            self._form_after(token, depth)
        return None

    def form(self, token: Token, depth: int) -> Form:
        """The form that begins with a token, which so many other forms are around."""
        _check_depth(token, depth)
        if token.kind == "atom":
            return atom_of(token)
        if token.kind == "open":
            return _collection_of(token, self._items(token, depth))
        if token.kind == "string":
            return string_of(token)
        if token.kind == "letter":
            return character_of(token)
        if token.kind == "tag":
            return self._tagged(token, depth)
        raise FormatError(token.line, f"no form begins with {shown(token.text)}")

    def _items(self, opening: Token, depth: int) -> list[Form]:
        """The forms up to the bracket that closes this one."""
        items: list[Form] = []
        while (token := self.next_token(depth)) is not None:
            if token.text == CLOSING[opening.text]:
                return items
            items.append(self.form(token, depth + 1))
        raise _not_closed(opening)

    def _tagged(self, tag: Token, depth: int) -> Form:
        """The form that begins with a tag: a number that no digits write, a map with a namespace for its keys, or a form with its tag."""
        name = tag.text[1:]
        if name in ("#Inf", "#-Inf", "#NaN"):
            return float(name[1:])
        if name.startswith(":") and len(name) > 1:
            return _with_namespace(tag, self._form_after(tag, depth))
        if not name[:1].isalpha():
            raise FormatError(tag.line, f"{shown(tag.text)} is no tag")
        return Tagged(name, self._form_after(tag, depth))

    def _form_after(self, before: Token, depth: int) -> Form:
        """The form after a tag, or after what discards it."""
        _check_depth(before, depth)
        token = self.next_token(depth + 1)
        if token is None:
            raise FormatError(before.line, f"no form follows {shown(before.text)}")
        return self.form(token, depth + 1)


def _check_depth(token: Token, depth: int) -> None:
    if depth > MOST_DEPTH:
        raise FormatError(token.line, f"forms are more than {MOST_DEPTH} deep in one another")


def _not_closed(opening: Token) -> FormatError:
    return FormatError(opening.line, f"the {shown(opening.text)} of this line is never closed")


def _collection_of(opening: Token, items: list[Form]) -> Form:
    """The list, vector, set or map of some forms. Raises FormatError where a key has no value, and where an element or a key repeats."""
    if opening.text == "[":
        return tuple(items)
    if opening.text == "(":
        return List(tuple(items))
    unique = items if opening.text == "#{" else items[::2]
    if len(set(map(text_of, unique))) < len(unique):
        raise FormatError(opening.line, "an element of a set, or a key of a map, is there twice")
    if opening.text == "#{":
        return Set(tuple(items))
    if len(items) % 2:
        raise FormatError(opening.line, "the last key of a map has no value")
    return Map(tuple(zip(items[::2], items[1::2])))


def _with_namespace(tag: Token, form: Form) -> Form:
    """The map `#:name{...}`: its keys without a namespace get this one, and those of the namespace `_` get none."""
    if not isinstance(form, Map):
        raise FormatError(tag.line, f"no map follows {shown(tag.text)}")
    return Map(tuple((_qualified(key, tag.text[2:]), value) for key, value in form.entries))


def _qualified(key: Form, namespace: str) -> Form:
    if not isinstance(key, (Keyword, Symbol)):
        return key
    return type(key)(key.name.removeprefix("_/") if "/" in key.name else f"{namespace}/{key.name}")
