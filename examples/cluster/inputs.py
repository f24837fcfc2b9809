"""What a run of the example is given: histories, logs, the program and how to split the work; from files, or made by generating.py."""

import argparse
import os
import signal
import sys
from pathlib import Path
from types import FrameType
from typing import NamedTuple

import generating
from judging import KEPT

HISTORIES, LOGS = 10_000, 50
OPERATIONS = 20_000
SEED = 52


class Inputs(NamedTuple):
    """Histories, a line each, and the paths of logs."""

    lines: list[str]
    logs: list[str]


def located(program: str) -> str:
    """The program as each worker is told it: a path is made absolute, since workers have folders of their own."""
    return os.path.abspath(program) if os.sep in program else program


def parser_for(text: str | None, batch: int) -> argparse.ArgumentParser:
    """The words of a command line that all scripts of the example take."""
    parser = argparse.ArgumentParser(description=text, formatter_class=argparse.RawDescriptionHelpFormatter)
    program = os.environ.get("CAUSAL_JUDGE", "causal_judge")
    parser.add_argument("program", nargs="?", type=located, default=program, help="a path, or a name that each worker finds")
    parser.add_argument("--histories", type=int, default=HISTORIES, metavar="N", help="makes N small histories")
    parser.add_argument("--logs", type=int, default=LOGS, metavar="N", help="makes N logs")
    parser.add_argument("--operations", type=int, default=OPERATIONS, metavar="N", help="which have a tenth of N to N operations")
    parser.add_argument("--seed", type=int, default=SEED)
    parser.add_argument("--lines", type=Path, metavar="FILE", help="judges the histories of this file, one a line, and makes none")
    parser.add_argument("--log", type=Path, action="append", metavar="FILE", help="judges this log, and makes none")
    parser.add_argument("--batch", type=int, default=batch, metavar="N", help="histories that one process judges")
    parser.add_argument("--answers", type=Path, metavar="FILE", help="writes the answers to this file, one a line, in order")
    parser.add_argument("--no-comparison", action="store_true", help="does not judge all inputs once more by one process")
    return parser


def lines_in(path: Path) -> list[str]:
    """The lines of a file. Bytes that are no UTF-8 are kept: the judge refuses such a line alone."""
    with path.open(encoding="utf-8", errors=KEPT, newline="\n") as lines:
        return [line.removesuffix("\n") for line in lines]


def inputs_of(given: argparse.Namespace, folder: Path) -> Inputs:
    """The inputs that a command line names, or else those that it asks to make, whose logs go into the folder."""
    if given.lines or given.log:
        return Inputs(lines_in(given.lines) if given.lines else [], [str(path.resolve()) for path in given.log or ()])
    logs = generating.write_logs(given.seed, given.logs, given.operations // 10, given.operations, folder)
    return Inputs(generating.histories(given.seed, given.histories), [str(path) for path in logs])


def stop(number: int, _: FrameType | None) -> None:
    """Leaves all blocks, so that each ends what it started."""
    sys.exit(128 + number)


def end_by_signals() -> None:
    """Lets SIGTERM and SIGHUP end the process as Ctrl-C does."""
    for number in (signal.SIGTERM, signal.SIGHUP):
        signal.signal(number, stop)
