#!/usr/bin/env python3
"""Runs examples/redis, and with --long those of etcd, postgresql and zookeeper, over real servers on the loopback, and says which runs came
out wrong.

    python3 tests/process/live_stores.py [--long] -- PROGRAM

- Where reads are those of one copy, no run is a `no`: at the primary of redis, also while servers or relays are stopped, so that clients
  get no answers and their writes take effect later or never; with --long by linearizable reads of etcd, also while members are stopped. So
  it is where each client stays at one standby of PostgreSQL or in one session of ZooKeeper, also where connections break.
- Where replicas answer from what they have, and a client moves between them, a run is a `no` within 40. The page that is kept is what
  PROGRAM explains of the kept log, and the plain judge gives the same lines.
- A series that is interrupted ends its servers and leaves no file. Without a program or a server the status says that nothing was judged.
- Writes that are answered with faults are recorded as the examples say (live_faults.py).

A seed gives the same calls, but threads and servers take turns as they like, so no two runs are the same.
"""

import argparse
import os
import pathlib
import re
import signal
import subprocess
import sys
import tempfile
from concurrent.futures import ThreadPoolExecutor
from typing import NamedTuple

import folders  # noqa: F401
from command_words import with_program
from counting import counted, end
from installed import is_installed

ROOT = pathlib.Path(__file__).resolve().parents[2]
TESTS = ROOT / "tests"
SECONDS, JOBS, MOST_STALE_RUNS = 600, 4, 40
# PostgreSQL runs as another user than root, and has to reach its folder.
OPEN = 0o711
YES = "cc yes; cm yes; ccv yes"
RUN = re.compile(r"seed \d+: (.*) \(\d+ calls, \d+ failed, (\d+) lost, (\d+) of them read\)")
ALL_YES, NOT_JUDGED, ONE_NO, INTERRUPTED = 0, 2, 5, 130
COMPARES = ("--compare-and-sets",)


class Steady(NamedTuple):
    """Runs of a mode in which none may be a `no`: their seeds, at least how many calls they lose, and how many lost writes are read; and
    further words of theirs."""

    mode: str
    seeds: range
    lost: int
    read: int
    more: tuple = ()


class Example(NamedTuple):
    """An example: the Python that runs it, the module and the programs and files that it needs, what installs these, its modes, and which
    word of the environment hides which of its needs."""

    name: str
    python: str
    module: str
    needs: tuple
    install: str
    steady: tuple
    stale: str
    hidden: tuple

    def lacks(self):
        """Whether this machine lacks something."""
        return not is_installed(self.python, (self.module,), self.needs)


REDIS = Example(
    "redis",
    "/usr/bin/python3",
    "redis",
    ("redis-server",),
    "apt-get install redis-server python3-redis",
    (
        Steady("primary", range(1, 21), 0, 0),
        Steady("paused", range(51, 61), 40, 4, COMPARES),
        Steady("paused", range(1, 26), 150, 25),
        Steady("paused", range(26, 51), 150, 25),
    ),
    "replicas",
    ("PATH", "redis-server"),
)
ETCD = Example(
    "etcd",
    sys.executable,
    "http.client",
    ("etcd",),
    "apt-get install etcd-server",
    (
        Steady("linearizable", range(1, 21), 0, 0),
        Steady("paused", range(41, 51), 40, 1, COMPARES),
        Steady("paused", range(1, 21), 100, 5),
        Steady("paused", range(21, 41), 100, 5),
    ),
    "serializable",
    ("PATH", "etcd"),
)
POSTGRESQL = Example(
    "postgresql",
    "/usr/bin/python3",
    "psycopg2",
    ("/usr/lib/postgresql/*/bin/initdb",),
    "apt-get install postgresql python3-psycopg2",
    (Steady("applied", range(1, 21), 0, 0), Steady("broken", range(1, 21), 50, 10), Steady("broken", range(21, 41), 50, 10)),
    "moving",
    ("POSTGRES", "initdb"),
)
ZOOKEEPER = Example(
    "zookeeper",
    sys.executable,
    "http.client",
    ("java", "javac", "/usr/share/java/zookeeper.jar"),
    "apt-get install libzookeeper-java default-jdk-headless",
    (Steady("sessions", range(1, 16), 0, 0), Steady("synced", range(1, 16), 0, 0), Steady("paused", range(1, 11), 5, 0)),
    "pool",
    ("CLASSPATH", "Is ZooKeeper installed?"),
)


class Place:
    """Where a series runs: a folder of its own for the logs that it keeps, and one for what it has to remove."""

    def __init__(self, room, program):
        self.folder = pathlib.Path(tempfile.mkdtemp(dir=room))
        self.logs, self.passing = self.folder / "logs", self.folder / "passing"
        self.passing.mkdir()
        self.folder.chmod(OPEN)
        self.environment = {**os.environ, "CAUSAL_JUDGE": program, "TMPDIR": str(self.passing)}

    def start(self, example, *words, **changed):
        """Starts a series."""
        command = [example.python, str(ROOT / "examples" / example.name / "run.py"), *words, "--logs", str(self.logs)]
        how = {"stdin": subprocess.DEVNULL, "stdout": subprocess.PIPE, "stderr": subprocess.PIPE, "text": True}
        return subprocess.Popen(command, env={**self.environment, **changed}, **how)

    def ended(self, process):
        """The status of a series, and what it wrote to both outputs."""
        try:
            text, errors = process.communicate(timeout=SECONDS)
        except subprocess.TimeoutExpired:
            process.kill()
            text, errors = process.communicate()
        return process.returncode, text, errors

    def is_clean(self):
        """Whether the series left no file, and no process that works in its folder."""
        numbers = [name for name in os.listdir("/proc") if name.isdigit()]
        return not any(self.passing.iterdir()) and not any(works_in(number, self.passing) for number in numbers)


def works_in(number, folder):
    """Whether a process has its working folder below this one."""
    try:
        return os.readlink(f"/proc/{number}/cwd").startswith(f"{folder}/")
    except OSError:
        return False


def steady_cases(example, steady, place):
    """A series of runs none of which may be a `no`: a case for each run, and for the whole."""
    seeds = ["--seed", str(steady.seeds.start), "--runs", str(len(steady.seeds))]
    status, text, errors = place.ended(place.start(example, steady.mode, *seeds, *steady.more, "--all"))
    name, runs = " ".join((example.name, steady.mode, *steady.more)), RUN.findall(text)
    for seed, (lines, *_) in zip(steady.seeds, runs):
        yield f"{name}, seed {seed}: {lines}", lines == YES
    yield f"{name}: status {status}, {len(runs)} runs, {errors}", (status, len(runs), errors) == (ALL_YES, len(steady.seeds), "")
    lost, read = (sum(int(run[at]) for run in runs) for at in (1, 2))
    yield f"{name}: {lost} calls lost, {read} of them read", lost >= steady.lost and read >= steady.read
    yield f"{name}: files or processes are left", place.is_clean()


def said_of(command, log):
    """What a command writes about a log."""
    with log.open("rb") as stream:
        return subprocess.run(command, stdin=stream, capture_output=True, check=False, timeout=SECONDS).stdout.decode()


def stale_cases(example, program, place):
    """A series that ends with a `no`: its lines, and what is kept of it."""
    status, text, errors = place.ended(place.start(example, example.stale, "--runs", str(MOST_STALE_RUNS)))
    name, lines = f"{example.name} {example.stale}", [run[0] for run in RUN.findall(text)]
    is_no = status == ONE_NO and lines and " no " in lines[-1] and set(lines[:-1]) <= {YES}
    yield f"{name}: status {status}, {lines}, {errors}", bool(is_no)
    logs = sorted(place.logs.glob("*.jsonl")) if place.logs.is_dir() else []
    yield f"{name}: kept {logs}", len(logs) == 1
    for log in logs:
        page, due = log.with_suffix(".txt").read_text(encoding="utf-8"), said_of([program, "explain", "--long", "--events"], log)
        yield f"{name}: the page of {lines[-1]} is\n{page}", page == due and page in text
        plain = said_of([sys.executable, TESTS / "plain" / "plain_events.py", "--judge"], log)
        yield f"{name}: {lines[-1]}, and the plain judge says\n{plain}", plain == lines[-1].replace("; ", "\n") + "\n"
    yield f"{name}: files or processes are left", place.is_clean()


def interrupted_cases(example, number, place):
    """A series that a signal ends after its first run."""
    process = place.start(example, example.steady[-1].mode)
    first = process.stdout.readline()
    process.send_signal(number)
    status, _, errors = place.ended(process)
    name = f"{example.name}, ended by signal {number}"
    yield f"{name}: status {status}, {first}{errors}", (status, errors) == (INTERRUPTED, "") and bool(RUN.match(first))
    yield f"{name}: files or processes are left", place.is_clean()


def missing_cases(example, what, place, **changed):
    """A series that lacks something."""
    status, text, errors = place.ended(place.start(example, example.stale, "--runs", "1", **changed))
    is_said = errors.startswith("not judged: ") and what in errors
    yield f"{example.name} without {what}: status {status}, {text}{errors}", (status, text, is_said) == (NOT_JUDGED, "", True)
    yield f"{example.name} without {what}: files or processes are left", place.is_clean()


def fault_cases(example):
    """Writes that are answered with faults."""
    command = [example.python, TESTS / "servers" / "live_faults.py", example.name]
    done = subprocess.run(command, capture_output=True, check=False, text=True, timeout=SECONDS)
    yield f"{example.name}: status {done.returncode}, {done.stdout}{done.stderr}", (done.returncode, done.stderr) == (0, "")


def parts_of(example, program, room):
    """The parts of the test of an example, each a function that gives its cases. The longest comes first."""
    for steady in reversed(example.steady):
        yield lambda steady=steady: steady_cases(example, steady, Place(room, program))
    yield lambda: stale_cases(example, program, Place(room, program))
    for number in (signal.SIGINT, signal.SIGTERM):
        yield lambda number=number: interrupted_cases(example, number, Place(room, program))
    yield lambda: missing_cases(example, "causal_judge", Place(room, f"{room}/causal_judge"))
    word, need = example.hidden
    yield lambda: missing_cases(example, need, Place(room, program), **{word: room})
    yield lambda: fault_cases(example)


def main():
    parser = argparse.ArgumentParser(description=__doc__, formatter_class=argparse.RawDescriptionHelpFormatter)
    parser.add_argument("--long", action="store_true")
    given = with_program(parser)
    program, counts, skipped = str(pathlib.Path(given.program[0]).resolve()), (0, 0), 0
    with tempfile.TemporaryDirectory(prefix="live-stores-") as room, ThreadPoolExecutor(JOBS) as pool:
        os.chmod(room, OPEN)
        for example in (REDIS, ETCD, POSTGRESQL, ZOOKEEPER) if given.long else (REDIS,):
            if example.lacks():
                print(f"{example.name} is left out: {example.install}", flush=True)
                skipped += 1
                continue
            for cases in pool.map(lambda part: list(part()), parts_of(example, program, room)):
                counts = tuple(map(sum, zip(counts, counted(cases))))
    end(*counts, skipped)


if __name__ == "__main__":
    main()
