"""A series of runs of an example: each is recorded into a log of its own and judged, and a line says what came out."""

from __future__ import annotations

import argparse
import pathlib
import shutil
import signal
import sys
import tempfile
from collections.abc import Callable, Sequence
from contextlib import AbstractContextManager
from types import FrameType
from typing import NamedTuple, TypeVar

from causal_judge import ProgramMissing, Recorder, Refused, Verdict, judge
from causal_judge.events import read_log
from causal_judge.program import find_program
from processes import StartError

Servers = TypeVar("Servers")
ALL_YES, NOT_JUDGED, ONE_NO, INTERRUPTED = 0, 2, 5, 130


class Tally(NamedTuple):
    """How the calls of a log ended, and how many of the lost ones were writes that somebody read."""

    calls: int
    failed: int
    lost: int
    lost_and_read: int

    def __str__(self) -> str:
        return f"{self.calls} calls, {self.failed} failed, {self.lost} lost, {self.lost_and_read} of them read"


def tally_of(log: pathlib.Path) -> Tally:
    """Counts the calls of a log."""
    pending: dict[object, list[object]] = {}
    lost: list[tuple[object, ...]] = []
    read: set[tuple[object, ...]] = set()
    calls = failed = 0
    with log.open("rb") as stream:
        for _, event in read_log(stream):
            match event:
                case ["begin", client, call, *_]:
                    calls, pending[client] = calls + 1, call
                case ["fail", *_]:
                    failed += 1
                case ["lost", client, *_]:
                    lost.append(tuple(pending[client]))
                case ["end", client, answer, *_] if pending[client][0] == "r":
                    read.add(("w", pending[client][1], answer))
    return Tally(calls, failed, len(lost), len(read.intersection(lost)))


def words_for(description: str | None, modes: Sequence[str]) -> argparse.ArgumentParser:
    """The words of a series: its mode, how many runs, and the seed of the first."""
    parser = argparse.ArgumentParser(description=description, formatter_class=argparse.RawDescriptionHelpFormatter)
    parser.add_argument("mode", choices=modes)
    parser.add_argument("--runs", type=int, default=40, metavar="N", help="how many runs at most (40)")
    parser.add_argument("--seed", type=int, default=1, metavar="N", help="the seed of the first run (1); each further run has the next one")
    parser.add_argument("--all", action="store_true", help="make all runs, also after a no, and explain none")
    compares = "make half of the writes compare-and-sets of what the client saw last of the key"
    parser.add_argument("--compare-and-sets", action="store_true", help=compares)
    kept = "where the log of a run that is a no is kept (causal-logs)"
    parser.add_argument("--logs", type=pathlib.Path, default=pathlib.Path("causal-logs"), metavar="DIR", help=kept)
    return parser


def series(given: argparse.Namespace, servers: AbstractContextManager[Servers], run: Callable[[Servers, Recorder, int], None]) -> int:
    """Makes a series of runs as series_of_logs does, each with a recorder of its log."""

    def recorded(started: Servers, log: pathlib.Path, seed: int) -> None:
        with Recorder(log) as recorder:
            run(started, recorder, seed)

    return series_of_logs(given, servers, recorded)


def series_of_logs(
    given: argparse.Namespace, servers: AbstractContextManager[Servers], run: Callable[[Servers, pathlib.Path, int], None]
) -> int:
    """Makes a series of runs on these servers, each with a log to write and a seed, and gives the status of the process.

    It is 0 where each run is three yes, 5 where one is not, 2 where nothing was judged, and 130 after Ctrl-C or another request to end.
    """
    for number in (signal.SIGINT, signal.SIGTERM, signal.SIGHUP):
        signal.signal(number, _stop)
    try:
        find_program()
        with servers as started, tempfile.TemporaryDirectory(prefix="live-logs-") as room:
            return _judge_runs(given, lambda log, seed: run(started, log, seed), pathlib.Path(room))
    except KeyboardInterrupt:
        return INTERRUPTED
    except (ProgramMissing, Refused, StartError, OSError) as fault:
        print(f"not judged: {fault}", file=sys.stderr)
        return NOT_JUDGED


def _stop(number: int, frame: FrameType | None) -> None:
    """Ends the process as Ctrl-C does."""
    raise KeyboardInterrupt


def _judge_runs(given: argparse.Namespace, run: Callable[[pathlib.Path, int], None], room: pathlib.Path) -> int:
    """Makes the runs one after the other, up to the first that is not three yes."""
    met, made, total = 0, 0, Tally(0, 0, 0, 0)
    for seed in range(given.seed, given.seed + given.runs):
        log = room / f"{given.mode}-{seed}.jsonl"
        run(log, seed)
        verdict, tally = judge(log), tally_of(log)
        print(f"seed {seed}: {'; '.join(map(str, verdict.lines))} ({tally})", flush=True)
        met, made, total = met + verdict.meets(), made + 1, Tally(*(one + other for one, other in zip(total, tally)))
        if not (given.all or verdict.meets()):
            _keep(verdict, given.logs)
            break
    print(f"{made} run{'s' if made > 1 else ''}: {met} yes, {made - met} no ({total})", flush=True)
    return ALL_YES if met == made else ONE_NO


def _keep(verdict: Verdict, folder: pathlib.Path) -> None:
    """Keeps the log of a run and the page that explains it, and shows that page."""
    folder.mkdir(parents=True, exist_ok=True)
    kept = pathlib.Path(shutil.copy(verdict.log, folder))
    page = kept.with_suffix(".txt")
    page.write_text(verdict.explanation, encoding="utf-8")
    print(f"{verdict.explanation}kept: {kept} and {page}", flush=True)
