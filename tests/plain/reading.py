"""Reads the inputs of `judge`, `check`, `refute` and `drive` in a plain way, and refuses them in the order in which they are read.

It knows the form of a report too, and nothing of the program: what it says follows docs/definitions.md and the rows of
docs/refusals.md. With `--long` a memory alone is read, without a limit on sessions, on operations and on the entries of a table.
"""

import math
import re
import sys
from typing import NamedTuple

import recheck
from objects import KEYED, MOST_ENTRIES, OBJECTS, UNKNOWN, State, is_call, is_return, is_start, fits, split
from patterns import AGAINST, CRITERIA, MemoryHistory, is_pattern, shows
from replay import MOST_BYTES, PLACES, Refused, is_certificate, read_json

MOST_LONG_BYTES = 1_073_741_824


class Limits(NamedTuple):
    """How many sessions a history has at most, operations each of them, and entries its table."""

    sessions: float
    operations: float
    entries: float


SMALL = Limits(16, PLACES, MOST_ENTRIES)
LONG = Limits(math.inf, math.inf, math.inf)
ANSWER = rf"(yes|no ({'|'.join(AGAINST)})|unknown( \d+\.\d+)?)"
REPORT = re.compile(rf"cc {ANSWER}\ncm {ANSWER}\nccv {ANSWER}\n")


def is_operation(name, form):
    """Whether the value is a call of the object with a return that fits it, or with one that is not known, behind it."""
    if type(form) is not list or not form or type(form[0]) is not str or form[0] not in OBJECTS[name].arguments:
        return False
    many = 1 + OBJECTS[name].arguments[form[0]] + (name in KEYED)
    if len(form) not in (many, many + 1) or not is_call(name, form[:many]):
        return False
    call, ret = split(name, form)
    if len(form) == many + 1 and type(ret) is str:
        return ret == UNKNOWN
    return is_return(name, ret) and fits(call, ret)


def read_session(name, s, forms, most):
    """The calls of a session with their returns: so many at most."""
    if type(forms) is not list:
        raise Refused(2)
    if len(forms) > most:
        raise Refused(7)
    operations = []
    for i, form in enumerate(forms):
        if not is_operation(name, form):
            raise Refused(4, f"{s}.{i}")
        call, ret = split(name, form)
        if ret != UNKNOWN and operations and operations[-1][1] == UNKNOWN:
            raise Refused(5, f"{s}.{i}")
        operations.append((call, ret))
    return operations


def read_history(value, objects=OBJECTS, limits=SMALL):
    """The object, which is one of these, the table of initial values and the sessions of a history within limits."""
    if type(value) is not list or len(value) not in (2, 3):
        raise Refused(2)
    name, *lists = value
    if type(name) is not str or not all(type(part) is list for part in lists):
        raise Refused(2)
    if name not in objects:
        raise Refused(3)
    if len(lists[0]) > limits.sessions:
        raise Refused(6)
    sessions = [read_session(name, s, forms, limits.operations) for s, forms in enumerate(lists[0])]
    if lists[1:] and not is_start(name, lists[1], limits.entries):
        raise Refused(29)
    return name, lists[1] if lists[1:] else [], sessions


def read_long(data):
    """The table of initial values and the sessions of a memory, as `--long` has it read."""
    _, start, sessions = read_history(read_text(data, MOST_LONG_BYTES), ("memory",), LONG)
    return start, sessions


def is_small(start, sessions):
    """Whether a history is within the limits of `judge`."""
    most = max(map(len, sessions), default=0)
    return len(sessions) <= SMALL.sessions and most <= SMALL.operations and len(start) <= SMALL.entries


def read_text(data, most=MOST_BYTES):
    if len(data) > most:
        raise Refused(9)
    return read_json(data)


def read_driven(data, stop=None):
    """The history in an input of `drive`, in which a session may be to stop."""
    name, start, sessions = read_history(read_text(data))
    if not sessions:
        raise Refused(10)
    if stop is not None and stop >= len(sessions):
        raise Refused(26)
    return name, start, sessions


def read_certified(data):
    """The history in an input of `check`, and its certificate."""
    value = read_text(data)
    if type(value) is not list or len(value) != 2:
        raise Refused(2)
    name, start, sessions = read_history(value[0])
    if not is_certificate(value[1]):
        raise Refused(20)
    try:
        recheck.check_shape(sessions, value[1][1], value[1][0], value[1][2])
    except recheck.Unexplained:
        raise Refused(21) from None
    return name, start, sessions, value[1]


def line_of_check(data):
    """The line that `check` has to write."""
    name, start, sessions, (kind, vectors, explained) = read_certified(data)
    if kind == "ccv":
        explained = recheck.counts_in_order(explained, sessions)
    for s, session in enumerate(sessions):
        for i in range(len(session)):
            try:
                recheck.check_piece(State(name, start), sessions, vectors, kind, explained, s, i)
            except recheck.Unexplained:
                return f"{kind} unknown {s}.{i}\n"
    return f"{kind} yes\n"


def line_of_refute(data, is_long=False):
    """The line that `refute` has to write, or `refute --long`."""
    value = read_text(data, MOST_LONG_BYTES if is_long else MOST_BYTES)
    if type(value) is not list or len(value) != 3:
        raise Refused(2)
    name, start, sessions = read_history(value[0], *((("memory",), LONG) if is_long else ()))
    _, criterion, pattern = value
    if criterion not in CRITERIA or not is_pattern(pattern) or name != "memory":
        raise Refused(23)
    if not shows(MemoryHistory(sessions, start), criterion, pattern):
        raise Refused(23)
    return f"{criterion} no {pattern[0]}\n"


def known_of_input(known):
    """What is known of the long history on standard input. The process ends where it is refused, or where nothing is known of it."""
    try:
        found = known(*read_long(sys.stdin.buffer.read()))
    except Refused as refusal:
        sys.exit("refused " + " ".join(map(str, refusal.args)))
    if found is None:
        sys.exit("values are not distinct")
    return found
