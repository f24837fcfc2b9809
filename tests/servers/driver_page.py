"""Compares what was seen of errors that a test provoked with what docs/drivers.md says of them.

A call was provoked to end by an error (driver_bench.py). The page's rule for exceptions has to say of it what the row of the error says,
`fail` or `lost`, and the write of no call that failed took effect. The last column of a row says what was seen of its errors: "not done",
"done", or "both". A row whose errors nobody provoked has nothing there.
"""

import sys
from collections import defaultdict

from driver_bench import ROOT

sys.path += [str(ROOT / "python"), str(ROOT / "python" / "tests")]

from drivers_page import section  # noqa: E402


def rule_of(code, given):
    """The rule for exceptions that a section shows, whether one is certain. Its Python has what is given besides."""
    names = dict(given)
    exec(code, names)
    return names.get("has_failed") or (lambda error: isinstance(error, names["CERTAIN"]))


def class_of(name):
    """The class of a code of PostgreSQL, which is the first two of its five letters."""
    return name[:2] if len(name) == 5 else ""


def row_of(rows, name):
    """The row of an error: the one with its name, or with its class."""
    named = {one: row for row in rows for one in row.names}
    return named.get(name) or named.get(class_of(name))


def fault_of(one, name, row, has_failed):
    """What is wrong with a call that was tried, if anything, by the rule for exceptions and by the row of its error."""
    if name != one.name:
        return f"the error is {name}, and not {one.name}: {one.error!r}"
    if row is None:
        return f"no row has {name}: {one.error!r}"
    if one.was_to_be_done not in (None, one.is_done):
        return f"done: {one.is_done}, and not {one.was_to_be_done}, after {one.error!r}"
    end = "fail" if has_failed(one.error) else "lost"
    if end != row.end:
        return f"the rule says {end}, and the row {row.end}: {one.error!r}"
    return f"it failed, and is done: {one.error!r}" if end == "fail" and one.is_done else None


def in_words(effects):
    """What the last column says of errors after which writes had taken effect or not."""
    return {(): "", (False,): "not done", (True,): "done", (False, True): "both"}[tuple(sorted(effects))]


def cases(name, tries, name_of, **given):
    """A case for each call that was tried, and for each row of the table of a section.

    `name_of` gives the name of an error in that table. All names of a row whose last column says something have to have been tried.
    """
    rows, code = section(name)
    has_failed, effects, tried = rule_of(code, given), defaultdict(set), set()
    for one in tries:
        found = name_of(one.error)
        row = row_of(rows, found)
        fault = fault_of(one, found, row, has_failed)
        yield f"{name}, {one.how}: {fault}", fault is None
        effects[row].add(one.is_done)
        tried |= {found, class_of(found)}
    for row in rows:
        seen, untried = in_words(effects[row]), set(row.names) - tried if row.seen else set()
        yield f"{name}, row {', '.join(row.names)}: seen {seen!r}, untried {untried}", seen == row.seen and not untried
