#!/usr/bin/env python3
"""Runs the tests of the Python package, python/tests, over a program.

    python3 tests/process/python_package.py [--long] [--module NAME] -- PROGRAM

Each module of tests is a process, two at a time. `--long` runs as many cases as are worth an hour, and `--module` the tests of one module.
What a test needs and the machine lacks is named as skipped, with the line that installs it.
"""

import argparse
import os
import pathlib
import subprocess
import sys
import unittest
from collections import Counter
from concurrent.futures import ThreadPoolExecutor

import folders  # noqa: F401
from command_words import with_program
from counting import end, read_last_line

PACKAGE = pathlib.Path(__file__).resolve().parents[2] / "python"
TESTS = PACKAGE / "tests"
LONGEST = ("test_replicated_store", "test_processes")
AT_ONCE = 2


class Counting(unittest.TestResult):
    """Counts tests, and prints those that fail."""

    def __init__(self):
        super().__init__()
        self.passed, self.failed, self.reasons = 0, 0, Counter()

    def addSuccess(self, test):
        self.passed += 1

    def addFailure(self, test, error):
        self.show(test, error)

    def addError(self, test, error):
        self.show(test, error)

    def addSubTest(self, test, subtest, error):
        if error:
            self.show(subtest, error)

    def addUnexpectedSuccess(self, test):
        self.failed += 1
        print(f"{test.id()}: passed, and was to fail", flush=True)

    def addSkip(self, test, reason):
        self.reasons[reason] += 1

    def show(self, test, error):
        self.failed += 1
        print(f"{test.id()}: {self._exc_info_to_string(error, test)}", flush=True)


def run_module(name):
    """Runs the tests of a module in this process."""
    result = Counting()
    unittest.defaultTestLoader.loadTestsFromName(name).run(result)
    for reason, count in result.reasons.items():
        print(f"{name}: {count} skipped: {reason.removeprefix('skipped: ')}", flush=True)
    end(result.passed, result.failed, result.reasons.total())


def run_apart(name, given):
    """What a process says that runs the tests of a module, and their counts. A process that ends otherwise has failed."""
    paths = os.pathsep.join(map(str, (PACKAGE, TESTS)))
    asked = {"CAUSAL_JUDGE": given.program[0], "CAUSAL_JUDGE_LONG": str(int(given.long))}
    variables = {**os.environ, **asked, "PYTHONPATH": paths, "PYTHONDONTWRITEBYTECODE": "1"}
    words = [sys.executable, __file__, "--module", name, "--", *given.program]
    how = {"stdin": subprocess.DEVNULL, "stdout": subprocess.PIPE, "stderr": subprocess.STDOUT, "env": variables}
    done = subprocess.run(words, check=False, text=True, errors="replace", **how)
    counts = read_last_line(done.stdout)
    if counts == (0, 0, 0):
        return "", counts
    if counts is None or done.returncode != int(counts[1] > 0):
        return f"{done.stdout}{name}: status {done.returncode}", (0, 1, 0)
    return done.stdout.rpartition("\n")[0].rpartition("\n")[0], counts


def modules(given):
    """The modules of tests, those that take longest first."""
    names = sorted(path.stem for path in TESTS.glob("test_*.py"))
    return [given.module] if given.module else sorted(names, key=lambda name: name not in LONGEST)


def main():
    parser = argparse.ArgumentParser(description=__doc__, formatter_class=argparse.RawDescriptionHelpFormatter)
    parser.add_argument("--long", action="store_true")
    parser.add_argument("--module")
    given = with_program(parser)
    if given.module and str(TESTS) in os.environ.get("PYTHONPATH", "").split(os.pathsep):
        run_module(given.module)
    total = [0, 0, 0]
    with ThreadPoolExecutor(AT_ONCE) as pool:
        for text, counts in pool.map(lambda name: run_apart(name, given), modules(given)):
            print(text, end="\n" if text else "", flush=True)
            total = [sum(pair) for pair in zip(total, counts)]
    end(*total)


if __name__ == "__main__":
    main()
