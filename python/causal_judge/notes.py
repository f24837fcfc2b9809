"""Notes on calls: what a log has besides the events, so that a call is found again in the log of a server. Nobody judges them."""

from __future__ import annotations

from typing import Any, TypeAlias

from causal_judge.events import Event

Note: TypeAlias = Any
"""A value of JSON, or a function without arguments that gives one. None is no note."""

MOST_DEPTH = 50
LARGEST = 10**300
LENGTHS = {"begin": 3, "end": 3, "fail": 2, "lost": 2}


def noted(event: Event, note: object) -> Event:
    """An event with a note, unless that is None. Raises TypeError or ValueError where the note is no JSON, or one that a log can't have."""
    if note is None:
        return event
    check_note(note)
    return [*event, note]


def note_of(event: Event) -> object:
    """The note of an event; None where it has none."""
    return event[-1] if len(event) > LENGTHS.get(event[0], len(event)) else None


def given(note: Note) -> object:
    """The note that a function gives, and any other note as it is."""
    return note() if callable(note) else note


def check_note(note: object, room: int = MOST_DEPTH) -> None:
    """Raises TypeError or ValueError where this is no value of JSON, or has lists or numbers that a log can't have."""
    match note:
        case None | bool() | str():
            pass
        case int() | float():
            if not -LARGEST <= note <= LARGEST:
                raise ValueError("a number in a note is from -10^300 to 10^300: write another as a text")
        case list() | tuple() | dict():
            if not room:
                raise ValueError(f"lists in a note are at most {MOST_DEPTH} deep")
            for part in _parts_of(note):
                check_note(part, room - 1)
        case _:
            raise TypeError(f"a note is a value of JSON, and not of {type(note).__name__}: write it as a text")


def _parts_of(note: list[object] | tuple[object, ...] | dict[object, object]) -> list[object]:
    """What a list or an object has. TypeError names a name in an object that is no text."""
    if not isinstance(note, dict):
        return list(note)
    for name in note:
        if not isinstance(name, str):
            raise TypeError(f"a name in a note is a text, and not of {type(name).__name__}: write it as a text")
    return list(note.values())
