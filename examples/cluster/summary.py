"""Makes a run, and tells what came out: how many inputs got which answer, the first with a `no`, and those that were not judged."""

import argparse
import tempfile
import time
from collections.abc import Callable, Iterator
from pathlib import Path

import judging
from inputs import Inputs, end_by_signals, inputs_of
from servers import ServersMissing

CRITERIA = ("cc", "cm", "ccv")
WORDS = ("yes", "no", "unknown")
SHOWN = 5
Answers = list[str | None]


def words_of(answer: str | None) -> list[str]:
    """Of each criterion `yes`, `no` or `unknown`; nothing of an input that was refused, or has no answer."""
    if answer is None or answer.startswith("refused"):
        return []
    return [line.split(" ")[1] for line in answer.split("; ")]


def firsts(names: list[str]) -> str:
    """The first of some names, and that there are more."""
    return ", ".join(names[:SHOWN]) + (", .." if len(names) > SHOWN else "")


def of_criterion(place: int, names: list[str], answers: Answers) -> str:
    """How many answers are a `yes`, a `no` and an `unknown` of a criterion, and the first with a `no`."""
    words = [words_of(answer)[place] if words_of(answer) else "" for answer in answers]
    counts = ", ".join(f"{words.count(word)} {word}" for word in WORDS if word in words)
    wrong = [name for name, word in zip(names, words) if word == "no"]
    return f"    {CRITERIA[place]:<4}{counts}{': ' if wrong else ''}{firsts(wrong)}"


def lines_of(kind: str, names: list[str], answers: Answers) -> Iterator[str]:
    """The lines about all inputs of a kind, each of which has a name."""
    yield f"{len(answers)} {kind}"
    if any(map(words_of, answers)):
        yield from (of_criterion(place, names, answers) for place in range(len(CRITERIA)))
    refused = [f"{name} ({answer})" for name, answer in zip(names, answers) if answer is not None and answer.startswith("refused")]
    missing = [name for name, answer in zip(names, answers) if answer is None]
    for what, found in (("refused", refused), ("without an answer", missing)):
        if found:
            yield f"    {len(found)} {what}: {firsts(found)}"


def told(inputs: Inputs, answers: Answers) -> Iterator[str]:
    """The lines about the answers to all histories, by their number from 1, and then to all logs."""
    split = len(inputs.lines)
    if inputs.lines:
        yield from lines_of("histories", [str(number + 1) for number in range(split)], answers[:split])
    if inputs.logs:
        yield from lines_of("logs", [Path(path).stem for path in inputs.logs], answers[split:])


def alone(inputs: Inputs, program: str) -> Answers:
    """What one process says of all histories, and then one process after the other of each log; None where it does not answer."""
    found: Answers = []
    try:
        found += judging.judge_histories(inputs.lines, program) if inputs.lines else []
    except judging.JudgeFailed:
        found += [None] * len(inputs.lines)
    return found + [log_alone(path, program) for path in inputs.logs]


def log_alone(path: str, program: str) -> str | None:
    """What a process says of a log; None where it does not answer."""
    try:
        return judging.judge_log(path, program)
    except judging.JudgeFailed:
        return None


def is_as_alone(inputs: Inputs, answers: Answers, program: str) -> bool:
    """Says whether the answers are those that one process alone gives, in the same order."""
    begun = time.monotonic()
    pairs = zip(answers, alone(inputs, program))
    differing = [str(place) for place, (found, wanted) in enumerate(pairs, 1) if found != wanted or found is None]
    print(f"{len(answers) - len(differing)} of {len(answers)} answers are those of one process alone, in the same order")
    print(f"    not those to {firsts(differing)}\n" if differing else "", end="")
    print(f"    it took {time.monotonic() - begun:.1f} seconds", flush=True)
    return not differing


def finished(inputs: Inputs, answers: Answers, given: argparse.Namespace) -> int:
    """Tells what came out, writes the answers where that is asked for, and compares them with those of one process; returns the status."""
    print(*told(inputs, answers), sep="\n", flush=True)
    if given.answers:
        given.answers.write_text("".join(f"{answer or 'no answer'}\n" for answer in answers), encoding="utf-8")
    is_right = given.no_comparison or is_as_alone(inputs, answers, given.program)
    return 0 if is_right and all(map(words_of, answers)) else 1


def run(parser: argparse.ArgumentParser, given: argparse.Namespace, judged: Callable[[Inputs, argparse.Namespace, Path], Answers]) -> int:
    """Has the inputs that a command line asks for judged, with a folder for this run alone, and tells what came out; returns the status."""
    end_by_signals()
    with tempfile.TemporaryDirectory(prefix="cluster-") as room:
        inputs = inputs_of(given, Path(room))
        try:
            answers = judged(inputs, given, Path(room))
        except ServersMissing as fault:
            parser.error(str(fault))
        return finished(inputs, answers, given)
