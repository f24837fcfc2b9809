"""A log as a file that is appended to: one recorder at a time, one line a write, and nothing torn that can be helped."""

from __future__ import annotations

import contextlib
import errno
import fcntl
import os
import pathlib
import stat
from collections.abc import Iterator

from causal_judge.events import Event, LogError, LogReader


class LogFile:
    """An open log, which no other recorder may open meanwhile.

    Raises BlockingIOError where another one has it open, ValueError where the path is no ordinary file, and OSError as `open` does.
    """

    def __init__(self, path: pathlib.Path) -> None:
        self._path = path
        self._file = os.open(path, os.O_RDWR | os.O_APPEND | os.O_CREAT, 0o666)
        self._size = 0
        self._is_torn = False
        try:
            self._take_hold()
        except BaseException:
            os.close(self._file)
            raise

    def _take_hold(self) -> None:
        if not stat.S_ISREG(os.fstat(self._file).st_mode):
            raise ValueError(f"a log is an ordinary file, which {self._path} is not")
        try:
            fcntl.flock(self._file, fcntl.LOCK_EX | fcntl.LOCK_NB)
        except BlockingIOError:
            raise BlockingIOError(errno.EAGAIN, "another recorder writes this log", str(self._path)) from None

    def events(self) -> Iterator[tuple[int, Event]]:
        """The events that the file has, with the numbers of their lines. After them a torn end is cut.

        LogError names a bad line; then the file is left as it was.
        """
        with open(self._file, "rb", closefd=False) as stream:
            reader = LogReader(stream)
            try:
                yield from reader
            except LogError as error:
                raise LogError(error.line, error.what, self._path) from None
        self._size, self._is_torn = reader.size, reader.is_torn
        self._cut()
        if reader.lacks_feed:
            self.append(b"\n")

    def append(self, line: bytes) -> None:
        """Writes a line. Where that fails, OSError says why, and what was written of the line is cut, at the latest before the next one."""
        self._cut()
        self._is_torn = True
        try:
            _write(self._file, line)
        except BaseException:
            with contextlib.suppress(OSError):
                self._cut()
            raise
        self._size += len(line)
        self._is_torn = False

    def _cut(self) -> None:
        """Cuts what stands after the last whole line."""
        if self._is_torn:
            os.ftruncate(self._file, self._size)
            self._is_torn = False

    def close(self) -> None:
        """Closes the file, which another recorder may then open, also while a child process still has it."""
        try:
            self._cut()
        finally:
            fcntl.flock(self._file, fcntl.LOCK_UN)
            os.close(self._file)


def _write(file: int, line: bytes) -> None:
    """Writes all bytes of a line: by one call, but where the system takes fewer bytes of it."""
    written = os.write(file, line)
    while written < len(line):
        written += os.write(file, line[written:])
