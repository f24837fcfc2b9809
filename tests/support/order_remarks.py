"""Reads what `explain` says of the reads of a log that found nothing, of keys that some delete names: the remark on those that are left out,
and why nothing is left that one of them can have seen."""

import re
from typing import NamedTuple

QUOTED = re.compile(r'"(?:\\.|[^"\\])*"')
NAMES = r"((?:cc|cm|ccv)(?:(?:, | and )(?:cc|cm|ccv))*)"
ALL = r"(?:it|all of them)"
REMARK = re.compile(
    r"(\d+) reads? found nothing at .*, which (?:is|are) deleted at some time\. Which deletes? (?:it|they) saw, if any, is not known(.*)"
)
NOT_ASKED = re.compile(r": (?:it asks|they ask) nothing\.")
OF_EACH = re.compile(rf"\. An order explains {ALL}\.")
FOUND = re.compile(rf"\. For {NAMES} an order explains {ALL}")
MISSING = re.compile(
    rf"\. For {NAMES} no order was found that explains {ALL}, and it was not shown that there is none: the yes is of all other reads\."
)
ASKED = re.compile(r" (\d+) more such reads? (?:is|are) asked: one thing alone can be what (?:it|each) saw\.")
LACKING = re.compile(r"Line (\d+) found nothing at .*?, and nothing is left that it can have seen: (.*)\.")
EXCLUSION = re.compile(r"not (?:the start|the delete of line (\d+)), which (began after it had ended|comes after it|line (\d+) replaced before)")
MORE = re.compile(r"and (\d+) more")
ANSWER = re.compile(r"(cc|cm|ccv) (yes|no|unknown)\b.*")


class Remark(NamedTuple):
    """How many reads are left out, and how many more are asked; for which criteria an order explains all of them, and for which none was
    found. Of a criterion in neither nothing is said."""

    left_out: int
    asked: int
    found: frozenset
    missing: frozenset


class Exclusion(NamedTuple):
    """What a read did not see, the start or the delete of a line; in which words that is said, and the line of what had replaced it."""

    delete: int | None
    reason: str
    other: int | None


class Lacking(NamedTuple):
    """The line of a read that nothing is left for, what it did not see, and of how much more that is said in a number."""

    line: int
    exclusions: tuple
    more: int


class NotRead(ValueError):
    """A text that says something else of such reads."""


def met_in(text):
    """The criteria with a `yes` in an explanation in words."""
    said = (ANSWER.fullmatch(line) for line in text.splitlines())
    return frozenset(line[1] for line in said if line and line[2] == "yes")


def names_of(found):
    """The criteria that a match lists, none where nothing matched."""
    return frozenset(re.findall("ccv|cc|cm", found[1])) if found else frozenset()


def ending(words, met):
    """The criteria for which an order explains all reads, those for which none was found, and the words after that."""
    if said := NOT_ASKED.match(words):
        return frozenset(), frozenset(), words[said.end() :]
    if said := OF_EACH.match(words):
        return met, frozenset(), words[said.end() :]
    found = FOUND.match(words)
    words = words[found.end() :] if found else words
    missing = MISSING.match(words)
    if not missing:
        raise NotRead(words)
    return names_of(found), names_of(missing), words[missing.end() :]


def remark_in(text):
    """The remark of an explanation in words, if there is one."""
    found = [said for line in text.splitlines() if (said := REMARK.fullmatch(QUOTED.sub('""', line.strip())))]
    if not found:
        return None
    if len(found) > 1:
        raise NotRead(text)
    [said] = found
    met = met_in(text)
    explained, missing, rest = ending(said[2], met)
    asked = ASKED.fullmatch(rest)
    if rest and not asked or (explained or missing) and explained | missing != met:
        raise NotRead(said[0])
    return Remark(int(said[1]), int(asked[1]) if asked else 0, explained, missing)


def explained_in(text):
    """The criteria with a `yes` in an explanation in words for which an order explains every read: all of them where no read is left out."""
    remark = remark_in(text)
    return met_in(text) if remark is None else remark.found


def exclusion_of(words):
    """What the words name that a read did not see."""
    found = EXCLUSION.fullmatch(words)
    if not found:
        raise NotRead(words)
    delete, reason, other = found.groups()
    return Exclusion(int(delete) if delete else None, "replaced" if other else reason, int(other) if other else None)


def lacking_in(text):
    """What an explanation in words says of a read that nothing is left for, if there is one."""
    found = [said for line in text.splitlines() if (said := LACKING.fullmatch(QUOTED.sub('""', line.strip())))]
    if not found:
        return None
    if len(found) > 1:
        raise NotRead(text)
    *named, last = found[0][2].split("; ")
    more = MORE.fullmatch(last)
    exclusions = tuple(map(exclusion_of, named if more else [*named, last]))
    return Lacking(int(found[0][1]), exclusions, int(more[1]) if more else 0)
