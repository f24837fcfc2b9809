"""What the value of a Jepsen operation asks: the key, and the values that are read and written, as names and values of a log."""

from __future__ import annotations

from typing import NamedTuple

from causal_judge.events import NAMES, VALUES, Name, Value
from causal_judge.importers.edn_forms import Form, List, Map, Tagged, text_of
from causal_judge.importers.scanning import FormatError, shown

REGISTER = "register"
KEY_WORDS, VALUE_WORDS = ("key", "k"), ("value", "val", "v")


class Asked(NamedTuple):
    """What an operation asks of a key: its value without the key, as a form."""

    key: Name
    form: Form


class Shapes:
    """Reads the values of a history's operations, which have all a key or all none.

    It keeps the keys that are texts in the log, since two keys with one name would be one register.
    """

    def __init__(self) -> None:
        self._has_keys: bool | None = None
        self._keys: dict[str, str] = {}

    def asked(self, line: int, function: str, value: Form) -> Asked:
        """What the value of an operation asks.

        The first one decides whether the history has keys: it has where this value can be a tuple of a key and what is asked of it. Raises
        FormatError at one that does not fit that, and at a second key with the name of another.
        """
        if self._has_keys is None:
            self._has_keys = _looks_keyed(function, value)
        if not self._has_keys:
            if isinstance(value, Tagged) and pair_of(value):
                raise FormatError(line, "an operation has a key, and those before had none")
            return Asked(REGISTER, value)
        pair = pair_of(value)
        if pair is None:
            raise FormatError(line, f"the :value of a :{function} is no tuple of a key and a value, as those before were")
        return Asked(self._key_of(line, pair[0]), pair[1])

    def _key_of(self, line: int, form: Form) -> Name:
        """The name of a key. Raises FormatError where another key has that name."""
        if isinstance(form, int) and not isinstance(form, bool) and form in NAMES:
            return form
        spelling = text_of(form)
        name = form if isinstance(form, str) else spelling
        if self._keys.setdefault(name, spelling) != spelling:
            raise FormatError(line, f"the keys {shown(spelling)} and {shown(self._keys[name])} have one name in a log")
        return name


def value_of(form: Form) -> Value | None:
    """The value of a log that stands for a form; none for nil."""
    if form is None or isinstance(form, (bool, str)):
        return form
    if isinstance(form, int):
        return form if form in VALUES else str(form)
    return text_of(form)


def pair_of(form: Form) -> tuple[Form, Form] | None:
    """The two elements of a vector or a list, or of a tuple with a tag: a vector behind it, or a map with a key and a value."""
    if isinstance(form, Tagged):
        is_tuple = form.tag.lower().endswith(("tuple", "mapentry"))
        return (_entry_of(form.form) if isinstance(form.form, Map) else pair_of(form.form)) if is_tuple else None
    items = form.items if isinstance(form, List) else form
    return (items[0], items[1]) if isinstance(items, tuple) and len(items) == 2 else None


def _entry_of(form: Map) -> tuple[Form, Form] | None:
    fields = form.by_keyword()
    keys = [fields[word] for word in KEY_WORDS if word in fields]
    values = [fields[word] for word in VALUE_WORDS if word in fields]
    return (keys[0], values[0]) if len(keys) == len(values) == len(fields) - 1 == 1 else None


def _looks_keyed(function: str, value: Form) -> bool:
    """Whether a value can be a tuple of a key and what is asked of it: for a cas that is a pair in its turn."""
    pair = pair_of(value)
    return pair is not None and (function != "cas" or pair_of(pair[1]) is not None)
