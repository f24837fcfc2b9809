"""The forms of EDN that are one token: numbers, keywords, symbols, strings and characters."""

from __future__ import annotations

import re
from fractions import Fraction
from functools import lru_cache

from causal_judge.importers.edn_forms import NAMED_LETTERS, Character, Exact, Form, Keyword, Symbol
from causal_judge.importers.scanning import FormatError, Token, shown

MOST_DIGITS = 1_000
NAMED = {"nil": None, "true": True, "false": False}
NUMERIC = re.compile(r"[+-]?[0-9]")
WHOLE = re.compile(r"([+-]?(?:0|[1-9][0-9]*))N?")
HEXADECIMAL = re.compile(r"([+-]?)0[xX]([0-9a-fA-F]+)N?")
RATIO = re.compile(r"([+-]?[0-9]+)/(0*[1-9][0-9]*)")
FLOAT = re.compile(r"[+-]?[0-9]+(?:\.[0-9]*(?:[eE][+-]?[0-9]+)?|[eE][+-]?[0-9]+)")
EXACT = re.compile(r"([+-]?[0-9]+)(?:\.([0-9]*))?(?:[eE]([+-]?[0-9]+))?M")

LETTERS = {name: letter for letter, name in NAMED_LETTERS.items()}
ESCAPE = re.compile(r"\\(?:u([0-9a-fA-F]{4})|([0-3]?[0-7]{1,2})|(.))", re.DOTALL)
ESCAPES = {"t": "\t", "r": "\r", "n": "\n", "\\": "\\", '"': '"', "b": "\b", "f": "\f"}
CODED = re.compile(r"u([0-9a-fA-F]{4})|o([0-3]?[0-7]{1,2})")


def atom_of(token: Token) -> Form:
    """The form of a token that is no string and no character. Raises FormatError where it is a number of no form, or a colon alone."""
    text = token.text
    if text in NAMED:
        return NAMED[text]
    if NUMERIC.match(text):
        return _number_of(token)
    if text == ":":
        raise FormatError(token.line, "a keyword has no name")
    return _named(text)


@lru_cache(maxsize=1_000)
def _named(text: str) -> Keyword | Symbol:
    return Keyword(text[1:]) if text.startswith(":") else Symbol(text)


def _number_of(token: Token) -> Form:
    text = token.text
    if len(text) > MOST_DIGITS:
        raise FormatError(token.line, f"a number has more than {MOST_DIGITS:,} digits")
    if found := WHOLE.fullmatch(text):
        return int(found[1])
    if FLOAT.fullmatch(text):
        return float(text)
    if found := EXACT.fullmatch(text):
        return _exact_of(found[1], found[2] or "", found[3] or "0")
    if found := HEXADECIMAL.fullmatch(text):
        return int(found[1] + found[2], 16)
    if found := RATIO.fullmatch(text):
        ratio = Fraction(int(found[1]), int(found[2]))
        return ratio if ratio.denominator > 1 else ratio.numerator
    raise FormatError(token.line, f"{shown(text)} is no number")


def _exact_of(whole: str, fraction: str, exponent: str) -> Exact:
    """The decimal number that these digits write, with as few digits as can be."""
    digits = (whole + fraction).rstrip("0") or "0"
    number = int(digits) if digits not in ("+", "-") else 0
    return Exact(number, int(exponent) - len(fraction) + len(whole + fraction) - len(digits) if number else 0)


def string_of(token: Token) -> str:
    """The text of a string. Raises FormatError where it is not closed, has an escape of no form, or half of a surrogate pair."""
    inner = token.text[1:]
    if not inner.endswith('"') or _ends_escaped(inner):
        raise FormatError(token.line, "the string that begins in this line is never closed")
    inner = inner[:-1]
    return _whole_text(ESCAPE.sub(lambda found: _escaped(found, token), inner), token) if "\\" in inner else inner


def _ends_escaped(inner: str) -> bool:
    """Whether the quote at the end belongs to an escape."""
    before = inner[:-1]
    return (len(before) - len(before.rstrip("\\"))) % 2 == 1


def _escaped(found: re.Match[str], token: Token) -> str:
    if found[1]:
        return chr(int(found[1], 16))
    if found[2]:
        return chr(int(found[2], 8))
    if found[3] not in ESCAPES:
        raise FormatError(token.line, f"a string has the escape {shown(found[0])}, which is none")
    return ESCAPES[found[3]]


def _whole_text(text: str, token: Token) -> str:
    """The text whose characters were written by halves too, as Java writes those beyond the first 65,536."""
    try:
        return text if text.isascii() else text.encode("utf-16-le", "surrogatepass").decode("utf-16-le")
    except UnicodeDecodeError:
        raise FormatError(token.line, "a string has half of a surrogate pair") from None


def character_of(token: Token) -> Character:
    """The single character of a token. Raises FormatError where it names none."""
    name = token.text[1:]
    if len(name) == 1:
        return Character(name)
    if name in LETTERS:
        return Character(LETTERS[name])
    if found := CODED.fullmatch(name):
        return Character(_whole_text(chr(int(found[1], 16) if found[1] else int(found[2], 8)), token))
    raise FormatError(token.line, f"{shown(token.text)} is no character")
