"""Joins the logs of several processes, each of its own clients, into one."""

from __future__ import annotations

import os
from collections.abc import Iterable
from dataclasses import dataclass
from typing import BinaryIO

from causal_judge.events import ORDER, Event, LogError, LogReader, Name, Progress, Value, is_same, line_of

PIECE = 1 << 20
AT_THE_HEAD = ("order", "start")


@dataclass(frozen=True)
class MergeCounts:
    """What was joined: files, clients, starts, other events, pending calls that were recorded as lost, torn ends that were dropped."""

    files: int
    clients: int
    starts: int
    events: int
    lost: int
    torn: int

    def __str__(self) -> str:
        joined = f"files {self.files}, clients {self.clients}, starts {self.starts}, other events {self.events}"
        return f"{joined}, pending calls recorded as lost {self.lost}, torn ends dropped {self.torn}"


def merge(paths: Iterable[str | os.PathLike[str]], out: BinaryIO) -> MergeCounts:
    """Writes one log of several: their starts, then their other events file by file, each file's pending calls as lost after it.

    `out` is a buffered stream, as `open(path, "wb")` gives.
    All files are read before anything is written, and are then copied up to where they were read: it keeps no events. The order of the
    files is no order of time, so the joined log is for `judge` without `--every`, and `["order","time"]`, by which a file says that its own
    lines stand in that order, is left out. Of one file alone it stays.

    Raises ValueError where a client is in two files, or a key has two different starts; LogError where a file has a bad line; OSError.
    """
    run = _Run()
    parts = [run.read(os.fspath(path)) for path in paths]
    if len(parts) == 1 and parts[0].is_timed:
        out.write(line_of(ORDER))
    for key, value in run.started.items():
        out.write(line_of(["start", key, value]))
    for part in parts:
        part.copy(out)
    lost, torn = sum(len(part.pending) for part in parts), sum(part.is_torn for part in parts)
    return MergeCounts(len(parts), len(run.files), len(run.started), run.events, lost, torn)


@dataclass(frozen=True)
class _Part:
    """The part of a file after its starts: from which byte up to which one, and the clients that have a call pending at its end.

    `is_timed` is whether the file says that its lines stand in the order of time.
    """

    path: str
    begin: int
    end: int
    lacks_feed: bool
    is_torn: bool
    is_timed: bool
    pending: list[Name]

    def copy(self, out: BinaryIO) -> None:
        """Writes the events, and each pending call as lost."""
        with open(self.path, "rb") as stream:
            stream.seek(self.begin)
            left = self.end - self.begin
            while left and (piece := stream.read(min(left, PIECE))):
                out.write(piece)
                left -= len(piece)
        if left:
            raise OSError(f"{self.path} became shorter while it was copied")
        out.write(b"\n" if self.lacks_feed and self.end > self.begin else b"")
        for name in self.pending:
            out.write(line_of(["lost", name]))


class _Run:
    """What the files so far have: which client is in which, the start of each key, and how many other events."""

    def __init__(self) -> None:
        self.paths: list[str] = []
        self.files: dict[Name, int] = {}
        self.started: dict[Name, Value] = {}
        self.events = 0

    def read(self, path: str) -> _Part:
        """Reads a file to its end."""
        self.paths.append(path)
        progress, begin = Progress(), None
        with open(path, "rb") as stream:
            reader = LogReader(stream)
            try:
                for number, event in reader:
                    if event[0] not in AT_THE_HEAD and begin is None:
                        begin = reader.size
                    self._take(number, event, progress)
            except LogError as error:
                raise LogError(error.line, error.what, path) from None
        end = reader.size
        begin = end if begin is None else begin
        return _Part(path, begin, end, reader.lacks_feed, reader.is_torn, progress.is_timed, list(progress.pending))

    def _take(self, number: int, event: Event, progress: Progress) -> None:
        """Takes in an event of the last file, where it may come next there and fits the other files."""
        fault = progress.fault_of(event)
        if fault:
            raise LogError(number, fault)
        progress.take(event)
        if event[0] == "start":
            self._take_start(event)
        if event[0] in AT_THE_HEAD:
            return
        self.events += 1
        file = self.files.setdefault(event[1], len(self.paths) - 1)
        if file != len(self.paths) - 1:
            both = f"{self.paths[file]} and in {self.paths[-1]}"
            raise ValueError(f"the client {event[1]!r} is in {both}: each client's events are in one file")

    def _take_start(self, event: Event) -> None:
        _, key, value = event
        known = self.started.setdefault(key, value)
        if not is_same(known, value):
            raise ValueError(f"the key {key!r} starts with {known!r} in an earlier file, and with {value!r} in {self.paths[-1]}")
