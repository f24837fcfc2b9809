"""Importers: each turns the recordings of another tool into a log of events.

An importer reads a text, yields the events of a log, and counts in a Counter what it left out, by reason. Where the text is not of its
format it raises FormatError, which has the line. The events before it are then no log of the run.
"""

from collections import Counter
from collections.abc import Callable, Iterator
from typing import TextIO, TypeAlias

from causal_judge.events import Event
from causal_judge.importers.jepsen import read_jepsen
from causal_judge.importers.jsonl import read_jsonl
from causal_judge.importers.porcupine import read_porcupine
from causal_judge.importers.scanning import FormatError
from causal_judge.importers.sessions import read_sessions

Importer: TypeAlias = Callable[[TextIO, Counter[str]], Iterator[Event]]

FORMATS: dict[str, Importer] = {"jepsen": read_jepsen, "jsonl": read_jsonl, "porcupine": read_porcupine, "sessions": read_sessions}

ABOUT: dict[str, tuple[str, str]] = {
    "jepsen": (
        "registers in EDN: their reads, writes and compare-and-sets",
        "a test of Jepsen leaves it as store/TEST/TIME/history.edn",
    ),
    "jsonl": (
        "an object of JSON a call: client, key, value, times and outcome",
        "a program of yours writes it, or a query of traces or a table",
    ),
    "porcupine": (
        "an object of JSON an event of a key-value model of Porcupine",
        "a test in Go writes its []porcupine.Event with encoding/json",
    ),
    "sessions": (
        "a session a line, each operation as w(key,value) or r(key,value)",
        "papers and other checkers print it, and people write it by hand",
    ),
}
"""Of each format, what a text of it has, and where such a text comes from."""

__all__ = ["ABOUT", "FORMATS", "FormatError", "Importer"]
