"""What a worker of a cluster calls: histories and logs go in, one answer for each comes out, in their order.

An answer is a line, as `judge --lines` writes it: `cc yes; cm yes; ccv no CyclicCF`, or `refused` with its numbers where the input was
refused. Where a process ends in any other way, or the program is missing, JudgeFailed is raised: the caller gets no answer of that batch,
and never fewer answers than inputs.

The module needs the standard library alone, and the program on each machine.
"""

import socket
import subprocess
from collections.abc import Iterable
from pathlib import Path
from typing import IO

ANSWERED, REFUSED = 0, 1
CRITERIA = 3
KEPT = "surrogateescape"
SECONDS = 600
SHOWN = 200
Ended = subprocess.CompletedProcess[bytes]


class JudgeFailed(RuntimeError):
    """A process of the judge did not answer: the message says what it was, where, and how it ended."""


def ended(words: list[str], given: bytes | None = None, log: IO[bytes] | None = None) -> Ended:
    """A process of the judge that answered or refused what it was given, bytes or an open log. JudgeFailed where it did neither."""
    try:
        done = subprocess.run(words, input=given, stdin=log, capture_output=True, check=False, timeout=SECONDS)
    except OSError as fault:
        raise JudgeFailed(f"{words[0]} does not start on {socket.gethostname()}: {fault.strerror}") from None
    except subprocess.TimeoutExpired:
        raise JudgeFailed(f"{words[0]} did not end within {SECONDS} seconds on {socket.gethostname()}") from None
    if done.returncode not in (ANSWERED, REFUSED):
        raise failure(done, "no answer")
    return done


def failure(done: Ended, what: str) -> JudgeFailed:
    """What is said of a process that did not answer."""
    how = f"signal {-done.returncode}" if done.returncode < 0 else f"status {done.returncode}"
    said = done.stderr.decode(errors="replace").strip()[:SHOWN]
    return JudgeFailed(f"{done.args[0]} on {socket.gethostname()} ended with {how}: {what}{said and f': {said}'}")


def judge_histories(lines: Iterable[str], program: str) -> list[str]:
    """The answers to a batch of histories, a line each, by one process of `judge --lines`."""
    batch = list(lines)
    text = "".join(f"{line}\n" for line in batch)
    done = ended([program, "judge", "--lines", "--workers", "1"], given=text.encode(errors=KEPT))
    answers = done.stdout.decode().splitlines()
    has_refused = any(answer.startswith("refused") for answer in answers)
    if len(answers) != len(batch) or has_refused != (done.returncode == REFUSED):
        raise failure(done, f"{len(answers)} answers to {len(batch)} histories")
    return answers


def judge_log(path: str, program: str) -> str:
    """The answer to a log of events by one process of `judge --long --events`. Each machine has to find the log under this path."""
    try:
        with Path(path).open("rb") as log:
            done = ended([program, "judge", "--long", "--events", "--workers", "1"], log=log)
    except OSError as fault:
        raise JudgeFailed(f"{path} is not read on {socket.gethostname()}: {fault.strerror}") from None
    lines = (done.stderr if done.returncode == REFUSED else done.stdout).decode().splitlines()
    is_whole = lines[:1] != [] and lines[0].startswith("refused") if done.returncode == REFUSED else len(lines) == CRITERIA
    if not is_whole:
        raise failure(done, f"{len(lines)} lines of an answer")
    return "; ".join(lines)
