"""What is said of a run: the three lines of `judge`, and the reasons of `explain`."""

from __future__ import annotations

import contextlib
import os
import pathlib
import textwrap
from collections.abc import Mapping
from dataclasses import dataclass, field
from functools import cached_property
from typing import Literal, TypeAlias

from causal_judge.operations import answered_reads
from causal_judge.program import find_program, run_program
from causal_judge.recorder import Recorder

CRITERIA = ("cc", "cm", "ccv")
AS_FOR = "  as for "
JUDGE = ["judge", "--long", "--events"]
EXPLAIN = ["explain", "--long", "--events"]
FORMS: dict[str, list[str]] = {"words": [], "json": ["--json"], "svg": ["--svg"], "html": ["--html"]}

Log: TypeAlias = str | os.PathLike[str] | Recorder
Form: TypeAlias = Literal["words", "json", "svg", "html"]


@dataclass(frozen=True)
class Line:
    """What is said of one criterion: "yes", "no" or "unknown"; of a no, the kind of the pattern that shows it."""

    criterion: str
    answer: str
    kind: str | None = None

    def __str__(self) -> str:
        return " ".join(word for word in (self.criterion, self.answer, self.kind) if word)


@dataclass(frozen=True)
class Verdict:
    """The lines about a log. Why they are so is asked for later: the log has to be there then, as it was."""

    cc: Line
    cm: Line
    ccv: Line
    log: pathlib.Path
    program: str
    timeout: float | None = field(default=None, repr=False)

    @property
    def lines(self) -> tuple[Line, ...]:
        """The three lines, in the order in which the program writes them."""
        return self.cc, self.cm, self.ccv

    @cached_property
    def explanation(self) -> str:
        """What `explain --long --events` says of the log. It is run once, when asked for first, and raises what `judge` raises."""
        return run_program(self.program, EXPLAIN, self.log, self.timeout)

    @property
    def reasons(self) -> Mapping[str, str]:
        """For each criterion the lines that the explanation has below it. Where these are "as for" another one, the lines below that."""
        found: dict[str, list[str]] = {criterion: [] for criterion in CRITERIA}
        criterion = CRITERIA[0]
        for line in self.explanation.splitlines():
            if not line.startswith(" "):
                criterion = _line_of(line).criterion
            elif line.startswith(AS_FOR):
                found[criterion] += found[line.removeprefix(AS_FOR)]
            else:
                found[criterion].append(line)
        return {criterion: textwrap.dedent("\n".join(lines)) for criterion, lines in found.items()}

    def meets(self, *criteria: str) -> bool:
        """Whether these criteria are met, or all three where none is named. An unknown is not met. ValueError names one there is not."""
        return not self.unmet(*criteria)

    def unmet(self, *criteria: str) -> tuple[Line, ...]:
        """The lines of these criteria, or of all three where none is named, that are no yes. ValueError names a criterion there is not."""
        wanted = checked_criteria(criteria)
        return tuple(line for line in self.lines if line.criterion in wanted and line.answer != "yes")

    def __str__(self) -> str:
        return "\n".join(map(str, self.lines))


def checked_criteria(criteria: tuple[str, ...]) -> tuple[str, ...]:
    """These criteria, or all three where none is named. ValueError names one there is not."""
    for criterion in criteria:
        if criterion not in CRITERIA:
            raise ValueError(f"there is no criterion {criterion!r}: there are cc, cm and ccv")
    return criteria or CRITERIA


def checked_reads(count: object) -> int:
    """This number of reads. ValueError where it is none."""
    if isinstance(count, bool) or not isinstance(count, int) or count < 0:
        raise ValueError(f"at_least_reads is a whole number from 0, not {count!r}")
    return count


def judge(log: Log, *, program: str | os.PathLike[str] | None = None, timeout: float | None = None) -> Verdict:
    """Has a log judged: one of a path, or of a recorder, which may still be open.

    Raises ProgramMissing, Refused with what is wrong in the log, TimeoutError after so many seconds, RuntimeError where the program fails
    otherwise, and OSError.
    """
    path, found = path_of(log), find_program(program)
    said = run_program(found, JUDGE, path, timeout)
    lines = {line.criterion: line for line in map(_line_of, said.splitlines())}
    if set(lines) != set(CRITERIA):
        raise RuntimeError(f"{found} says nothing that this package knows of {path}: {said!r}")
    return Verdict(lines["cc"], lines["cm"], lines["ccv"], path, found, timeout)


def assert_met(
    log: Log,
    *criteria: str,
    at_least_reads: int = 1,
    page: str | os.PathLike[str] | None = None,
    program: str | os.PathLike[str] | None = None,
    timeout: float | None = None,
) -> Verdict:
    """Has a log judged, and raises AssertionError with the explanation where one of these criteria is no yes.

    Where no criterion is named, all three have to be met. Where fewer reads than `at_least_reads` were answered, it raises AssertionError
    too: a run that reads nothing meets them all. Before it raises, it writes the page of `explain --html` to `page`, where that is given,
    and names it in the message. It raises besides what `judge` raises, and ValueError for a criterion or a number of reads there is not.
    """
    __tracebackhide__ = True
    checked_criteria(criteria)
    checked_reads(at_least_reads)
    verdict = judge(log, program=program, timeout=timeout)
    lack = _lack_of(verdict, criteria) or _lack_of_reads(verdict, at_least_reads)
    if lack:
        raise AssertionError(lack if page is None else f"{lack}\n{save_page(log, page, program=program, timeout=timeout)}")
    return verdict


def explain(log: Log, form: Form = "words", *, program: str | os.PathLike[str] | None = None, timeout: float | None = None) -> str:
    """What `explain --long --events` says of a log, as a text: in words, as JSON, as a picture in SVG, or as a page in HTML.

    It raises what `judge` raises, and ValueError for a form there is not.
    """
    if form not in FORMS:
        raise ValueError(f"there is no form {form!r}: there are {', '.join(FORMS)}")
    return run_program(find_program(program), [*EXPLAIN, *FORMS[form]], path_of(log), timeout)


def save_page(
    log: Log, page: str | os.PathLike[str], *, program: str | os.PathLike[str] | None = None, timeout: float | None = None
) -> str:
    """Writes the page of a log, and says where it is; or says why there is none. A page that was there before is gone in any case."""
    place = pathlib.Path(page)
    part = place.with_name(f"{place.name}.part")
    try:
        place.unlink(missing_ok=True)
        place.parent.mkdir(parents=True, exist_ok=True)
        part.write_text(explain(log, "html", program=program, timeout=timeout), encoding="utf-8")
        part.replace(place)
    except (OSError, RuntimeError, ValueError) as fault:
        with contextlib.suppress(OSError):
            part.unlink(missing_ok=True)
        return f"There is no page {place} of it: {fault}"
    return f"The page {place} shows it."


def _lack_of(verdict: Verdict, criteria: tuple[str, ...]) -> str:
    """Says what a log does not meet, after its explanation. An empty text where it meets all of these criteria."""
    unmet = verdict.unmet(*criteria)
    return f"{verdict.explanation}{verdict.log} {_unmet_words(unmet)}." if unmet else ""


def _lack_of_reads(verdict: Verdict, at_least: int) -> str:
    """Says how many reads of a log were answered, where these are too few; else an empty text."""
    count = answered_reads(verdict.log, at_least)
    if count >= at_least:
        return ""
    said = f"{count or 'no'} {'read was' if count < 2 else 'reads were'} answered"
    return f"{verdict}\n{verdict.log}: {said}, and at_least_reads is {at_least}: where little is read, a yes says little of the store."


def _unmet_words(unmet: tuple[Line, ...]) -> str:
    """Says what a log does not meet, and what it is not known to meet, by its lines that are no yes."""
    answers = {answer: ", ".join(line.criterion for line in unmet if line.answer == answer) for answer in ("no", "unknown")}
    lacks = [f"does not meet {answers['no']}"] if answers["no"] else []
    return " and ".join([*lacks, f"is not known to meet {answers['unknown']}"] if answers["unknown"] else lacks)


def path_of(log: Log) -> pathlib.Path:
    """The path of a log."""
    return log.path if isinstance(log, Recorder) else pathlib.Path(log)


def _line_of(text: str) -> Line:
    """The line of a criterion that a text writes."""
    criterion, answer, kind = (*text.split(" ", 2), "", "")[:3]
    return Line(criterion, answer, kind or None)
