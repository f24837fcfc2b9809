"""The forms of EDN, the notation in which Clojure prints its values, and one canonical spelling of each.

nil is None. Booleans, whole numbers, ratios, floats and strings are those of Python, and a vector is a tuple. The other forms have a
class here. Compare forms by their spelling: for Python `True` is `1`, and `1` is `1.0`.
"""

from __future__ import annotations

import math
import re
from dataclasses import dataclass
from fractions import Fraction
from typing import Union


@dataclass(frozen=True)
class Keyword:
    """A keyword, without its colon."""

    name: str


@dataclass(frozen=True)
class Symbol:
    """A symbol."""

    name: str


@dataclass(frozen=True)
class Character:
    """A single character."""

    letter: str


@dataclass(frozen=True)
class Exact:
    """A decimal number of any precision, as 1.50M: the digits times a power of ten. Trailing zeros of the digits are left out."""

    digits: int
    exponent: int


@dataclass(frozen=True)
class List:
    """A list in parentheses."""

    items: tuple[Form, ...]


@dataclass(frozen=True)
class Set:
    """A set, its elements in the order in which they were written."""

    items: tuple[Form, ...]


@dataclass(frozen=True)
class Map:
    """A map, its entries in the order in which they were written."""

    entries: tuple[tuple[Form, Form], ...]

    def by_keyword(self) -> dict[str, Form]:
        """The values of the keys that are keywords, by the keyword's name."""
        return {key.name: value for key, value in self.entries if isinstance(key, Keyword)}


@dataclass(frozen=True)
class Tagged:
    """A form behind a tag."""

    tag: str
    form: Form


Form = Union[None, bool, int, float, Fraction, Exact, str, Keyword, Symbol, Character, List, Set, Map, Tagged, "tuple[Form, ...]"]

NAMED_LETTERS = {"\n": "newline", "\r": "return", " ": "space", "\t": "tab", "\f": "formfeed", "\b": "backspace"}
ESCAPED = {'"': '\\"', "\\": "\\\\", "\n": "\\n", "\r": "\\r", "\t": "\\t", "\f": "\\f", "\b": "\\b"}
NEEDS_ESCAPE = re.compile(r'["\\\n\r\t\f\b]')


def text_of(form: Form) -> str:
    """The canonical spelling of a form: forms that are equal in Clojure have one spelling, and others have others.

    So a list is spelled as the vector of its elements, and the order of a map's entries and of a set's elements is lost.
    """
    if isinstance(form, Keyword):
        return f":{form.name}"
    if form is None:
        return "nil"
    if isinstance(form, bool):
        return "true" if form else "false"
    if isinstance(form, (int, Fraction)):
        return str(form)
    if isinstance(form, float):
        return _float_text(form)
    if isinstance(form, str):
        return '"' + NEEDS_ESCAPE.sub(lambda found: ESCAPED[found[0]], form) + '"'
    return _symbol_text(form) if isinstance(form, (Symbol, Character, Exact)) else _collection_text(form)


def _float_text(number: float) -> str:
    if math.isnan(number):
        return "##NaN"
    if math.isinf(number):
        return "##Inf" if number > 0 else "##-Inf"
    return repr(number + 0.0)


def _symbol_text(form: Symbol | Character | Exact) -> str:
    if isinstance(form, Symbol):
        return form.name
    if isinstance(form, Character):
        return f"\\{NAMED_LETTERS.get(form.letter, form.letter)}"
    return f"{form.digits}E{form.exponent}M" if form.exponent else f"{form.digits}M"


def _collection_text(form: List | Set | Map | Tagged | tuple[Form, ...]) -> str:
    if isinstance(form, Tagged):
        return f"#{form.tag} {text_of(form.form)}"
    if isinstance(form, Map):
        return "{" + ", ".join(sorted(f"{text_of(key)} {text_of(value)}" for key, value in form.entries)) + "}"
    if isinstance(form, Set):
        return "#{" + " ".join(sorted(map(text_of, form.items))) + "}"
    return "[" + " ".join(map(text_of, form.items if isinstance(form, List) else form)) + "]"
