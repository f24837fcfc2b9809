"""What the tests of the package share: a folder for each, the events of a log, verdicts of many logs, and scripts that run as processes."""

import json
import os
import pathlib
import subprocess
import sys
import tempfile
import unittest
from concurrent.futures import ThreadPoolExecutor

from causal_judge import ProgramMissing, Recorder, judge
from causal_judge.events import ORDER, LogReader, Progress, line_of
from causal_judge.program import find_program

TESTS = pathlib.Path(__file__).resolve().parent
PACKAGE = TESTS.parent
REPOSITORY = PACKAGE.parent
DEBIAN_PYTHON = "/usr/bin/python3"
IS_LONG = os.environ.get("CAUSAL_JUDGE_LONG") == "1"
SECONDS = 300
JUDGED_AT_ONCE = 2

ORDER_LINE = line_of(ORDER)

NAMES = ("", "alice", "user:5/name", 'a "quoted" name', "two\nlines", "\u2028\x00\x7f", "\U0001f600 ✓", "x" * 2048, 0, 1, 2**64 - 1)
VALUES = (*NAMES, True, False, -1, -(2**63))
NO_NAMES = (None, True, False, 1.0, b"a", ["a"], -1, 2**64, "\ud800", "a\udfff", float("nan"))
NO_VALUES = (None, 1.5, 1.0, b"a", bytearray(b"a"), [1], {}, object(), -(2**63) - 1, 2**64, "\ud800", float("inf"))


def many(usual, longest):
    """How many cases there are: so many usually, and so many where the tests may take long."""
    return longest if IS_LONG else usual


def is_program_there():
    try:
        find_program()
    except ProgramMissing:
        return False
    return True


def is_module_there(name):
    """Whether Debian's Python has a module."""
    if not os.access(DEBIAN_PYTHON, os.X_OK):
        return False
    return subprocess.run([DEBIAN_PYTHON, "-c", f"import {name}"], check=False, capture_output=True).returncode == 0


needs_program = unittest.skipUnless(is_program_there(), "the program causal_judge is missing: CAUSAL_JUDGE=/path/to/causal_judge")


def needs_modules(*names, install):
    """Skips where Debian's Python lacks a module."""
    return unittest.skipUnless(all(map(is_module_there, names)), f"Debian's Python lacks {' or '.join(names)}: {install}")


class FolderCase(unittest.TestCase):
    """A test with a folder of its own, and the path of a log in it."""

    def setUp(self):
        room = tempfile.TemporaryDirectory(prefix="causal-judge-")
        self.addCleanup(room.cleanup)
        self.folder = pathlib.Path(room.name)
        self.log = self.folder / "run.jsonl"


class ClientCase(FolderCase):
    """A test with a recorder, and a client whose exceptions Refused mean that nothing took effect."""

    def setUp(self):
        super().setUp()
        self.recorder = Recorder(self.log, fails=Refused)
        self.addCleanup(self.recorder.close)
        self.alice = self.recorder.client("alice")

    def endings(self):
        """What the log has, without begins."""
        return [event for event in events_of(self.log) if event[0] != "begin"]

    def words(self):
        return [event[0] for event in events_of(self.log)]


class Refused(Exception):
    """The store did not do it, for certain."""


class Unreachable(Exception):
    """No answer came."""


def run_threads(threads):
    """Starts threads, and waits until all have ended."""
    for thread in threads:
        thread.start()
    for thread in threads:
        thread.join()


def raising(error):
    """A call that raises."""

    def call(*given):
        raise error

    return call


def events_of(path):
    """The events of a log but for that of the order of time. The log has to be whole, each line allowed after those before."""
    progress, events = Progress(), []
    with open(path, "rb") as stream:
        reader = LogReader(stream)
        for number, event in reader:
            fault = progress.fault_of(event)
            if fault:
                raise AssertionError(f"{path}, line {number}: {fault}")
            progress.take(event)
            events += [event] if event != ORDER else []
    if reader.is_torn or reader.lacks_feed:
        raise AssertionError(f"{path} has a torn end")
    return events


def write_log(path, events):
    """Writes events as a log."""
    path.write_text("".join(f"{json.dumps(event)}\n" for event in events), encoding="utf-8")
    return path


def verdicts_of(paths):
    """The verdicts of logs, in order, judged by few processes at a time."""
    with ThreadPoolExecutor(JUDGED_AT_ONCE) as pool:
        return list(pool.map(lambda path: judge(path, timeout=SECONDS), paths))


def environment(**more):
    """The environment of a process that finds the package."""
    return {**os.environ, "PYTHONPATH": str(PACKAGE), "PYTHONDONTWRITEBYTECODE": "1", **more}


def run_python(*words, python=sys.executable, folder=None, given=b"", **more):
    """Runs Python with these words, and gives the process that ended."""
    how = {"cwd": folder, "env": environment(**more), "capture_output": True, "timeout": SECONDS, "check": False}
    return subprocess.run([python, *map(str, words)], input=given, **how)
