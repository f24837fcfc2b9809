#!/usr/bin/env python3
"""Has GNU parallel judge many histories and logs on two hosts by ssh, one of which dies meanwhile, and compares with one process.

    python3 examples/cluster/by_parallel.py [PROGRAM] [--histories N] [--logs N] [--seed N] [--answers FILE]
    python3 examples/cluster/by_parallel.py [PROGRAM] --lines FILE --log FILE --log FILE ..

It needs two packages of Debian: apt-get install parallel openssh-server. Both hosts are this machine: an ordinary user runs the script, and
it starts an sshd for each, which ends with it. PROGRAM is the one that CAUSAL_JUDGE names, or causal_judge, where none is given.

The status is 0 where each input was judged as one process alone judges it, 1 where one was refused, has no answer or another one, and 2
where nothing was judged.
"""

import argparse
import os
import shlex
import shutil
import subprocess
import sys
import time
from collections.abc import Callable
from pathlib import Path
from typing import NamedTuple

import summary
from inputs import Inputs, parser_for
from judging import KEPT
from ssh_hosts import SshHosts

NAMES = ("one", "two")
MOST_SECONDS, LOOK_SECONDS = 3600, 0.02
# Each try of a job goes to a host on which it failed least: so it has three on each of the two hosts, however they fail.
RETRIES = "6"
BATCH, FEW_JOBS = 500, 6
NO_RETRIES: tuple[list[str], ...] = ([], ["--halt", "now,fail=1"])
# A job whose lines or whose log are refused has done its work: status 1 is no failure.
HISTORIES = "{} judge --lines --workers 1 || test $? -eq 1"
LOG = "{} judge --long --events --workers 1 < {{}} 2>&1 || test $? -eq 1"
NOT_WHOLE = "last line is not whole: passed over"


class Job(NamedTuple):
    """A line of the joblog: the number of the job from 1, the host of its last try, and its status there, as of a shell."""

    number: int
    host: str
    status: int


class Ended(NamedTuple):
    """A run of parallel: its status, the jobs that ended, the lines that each job wrote, and what parallel and ssh said."""

    status: int
    jobs: list[Job]
    written: dict[int, list[str]]
    said: list[str]


def jobs_of(joblog: Path) -> list[Job]:
    """The jobs that ended so far, in the order of their numbers."""
    rows = [line.split("\t") for line in joblog.read_text().splitlines()[1:]] if joblog.is_file() else []
    return sorted(Job(int(row[0]), row[1], int(row[6]) or int(row[7]) and 128 + int(row[7])) for row in rows if len(row) > 8)


def written_by(output: str) -> dict[int, list[str]]:
    """What each job wrote: its number stands before each line."""
    found: dict[int, list[str]] = {}
    for number, _, line in (line.partition("\t") for line in output.splitlines()):
        found.setdefault(int(number), []).append(line)
    return found


class Runner:
    """Runs parallel on the hosts, with its files in the folder."""

    def __init__(self, hosts: SshHosts, folder: Path) -> None:
        self.hosts = hosts
        self.folder = folder
        self.runs = 0
        (folder / "hosts").write_text("".join(f"1/{name}\n" for name in hosts.names))

    def run(self, words: list[str], given: str, meanwhile: Callable[[list[Job]], None] | None = None) -> Ended:
        """One run over what it is given. `meanwhile` is told now and then which jobs have ended."""
        self.runs += 1
        room = self.folder / f"run-{self.runs}"
        room.mkdir()
        (room / "input").write_text(given, encoding="utf-8", errors=KEPT)
        command = ["parallel", "--ssh", shlex.join(self.hosts.ssh), "--sshloginfile", str(self.folder / "hosts")]
        command += ["--keep-order", "--tagstring", "{#}", "--joblog", str(room / "joblog"), *words]
        environment = {**os.environ, "PARALLEL_HOME": str(self.folder), "PARALLEL": ""}
        with (room / "input").open() as source, (room / "output").open("wb") as output, (room / "said").open("wb") as said:
            process = subprocess.Popen(command, stdin=source, stdout=output, stderr=said, env=environment)
            status = watched(process, room / "joblog", meanwhile)
        lines = (room / "said").read_text(errors="replace").splitlines()
        return Ended(status, jobs_of(room / "joblog"), written_by((room / "output").read_text(errors="replace")), lines)


def watched(process: "subprocess.Popen[bytes]", joblog: Path, meanwhile: Callable[[list[Job]], None] | None) -> int:
    """The status of a run, which is killed where it takes too long or this script is to end."""
    until = time.monotonic() + MOST_SECONDS
    try:
        while process.poll() is None and time.monotonic() < until:
            if meanwhile:
                meanwhile(jobs_of(joblog))
            time.sleep(LOOK_SECONDS)
    finally:
        process.kill()
    return process.wait()


class Killer:
    """Kills a host when so many jobs have ended and it is at work on another one."""

    def __init__(self, hosts: SshHosts, name: str, many: int) -> None:
        self.hosts = hosts
        self.name = name
        self.many = many
        self.before = hosts.logins(name)
        self.after: int | None = None

    def working(self, jobs: list[Job]) -> int:
        """How many jobs began on the host and did not end well there."""
        return self.hosts.logins(self.name) - self.before - hosts_of(jobs).count(self.name)

    def __call__(self, jobs: list[Job]) -> None:
        if self.after is None and len(jobs) >= self.many and self.working(jobs):
            self.after = len(jobs)
            self.hosts.kill(self.name)

    def told(self, jobs: list[Job]) -> str:
        """Says when the host was killed, of whose jobs these have ended: now, where it was not at work when it should have been killed."""
        if self.after is None:
            self.hosts.kill(self.name)
            return f"host {self.name} was killed at the end"
        return f"after {self.after} jobs host {self.name} was killed, at work on {self.working(jobs)}"


def done_by(ended: Ended) -> dict[int, list[str]]:
    """What those jobs wrote that ended well. A job that failed may have written a part of its answers, which does not count."""
    return {job.number: ended.written.get(job.number, []) for job in ended.jobs if job.status == 0}


def answers_to_histories(ended: Ended, many: int, size: int) -> summary.Answers:
    """The answers to so many histories, of which each job had so many."""
    done = done_by(ended)
    found: summary.Answers = []
    for number, first in enumerate(range(0, many, size), 1):
        lines, wanted = done.get(number, []), min(size, many - first)
        found += lines if len(lines) == wanted else (None for _ in range(wanted))
    return found


def answers_to_logs(ended: Ended, many: int) -> summary.Answers:
    """The answers to so many logs, each of which was a job."""
    done = done_by(ended)
    return ["; ".join(line for line in done.get(number + 1, []) if line != NOT_WHOLE) or None for number in range(many)]


def hosts_of(jobs: list[Job]) -> list[str]:
    """The host of each job that ended well."""
    return [job.host for job in jobs if job.status == 0]


def tell(what: str, ended: Ended, more: str) -> None:
    """Says how a run ended: how many jobs ended well on each host, how many failed, and the status of parallel."""
    done = hosts_of(ended.jobs)
    hosts = ", ".join(f"{done.count(name)} on {name}" for name in NAMES)
    print(f"{what}\n    {more}{hosts}, {len(ended.jobs) - len(done)} failed; status {ended.status}", flush=True)
    for number, said in [line.split("\t", 1) for line in ended.said if "\t" in line][:1]:
        print(f"    job {number}: {said}", flush=True)


def judge_logs(runner: Runner, logs: list[str], program: str) -> summary.Answers:
    """Has each log judged by a job, which finds it under its path: all hosts have this folder."""
    ended = runner.run(["--retries", RETRIES, LOG.format(program)], "".join(f"{path}\n" for path in logs))
    tell(f"{len(logs)} logs, each a job", ended, "")
    return answers_to_logs(ended, len(logs))


def judge_histories(runner: Runner, lines: list[str], program: str, size: int) -> summary.Answers:
    """Has the histories judged by jobs of so many each. When a third of these has ended, a host is killed."""
    killer = Killer(runner.hosts, NAMES[1], -(-len(lines) // size) // 3)
    words = ["--retries", RETRIES, "--pipe", "-N", str(size), HISTORIES.format(program)]
    ended = runner.run(words, "".join(f"{line}\n" for line in lines), killer)
    tell(f"{len(lines)} histories, {size} a job", ended, f"{killer.told(ended.jobs)}: ")
    return answers_to_histories(ended, len(lines), size)


def show_dead_host(runner: Runner, lines: list[str], program: str, size: int) -> None:
    """Says what comes of a few jobs while a host is dead, without --retries."""
    few = lines[: FEW_JOBS * size]
    for words in NO_RETRIES:
        ended = runner.run([*words, "--pipe", "-N", str(size), HISTORIES.format(program)], "".join(f"{line}\n" for line in few))
        missing = answers_to_histories(ended, len(few), size).count(None)
        what = f"{len(few)} histories, host {NAMES[1]} dead, {' '.join(words) or 'no --retries'}"
        tell(what, ended, f"{missing} without an answer: ")


def judged(inputs: Inputs, given: argparse.Namespace, folder: Path) -> summary.Answers:
    """Has all inputs judged on two hosts: the logs, then the histories, while which a host is killed."""
    program = shlex.quote(given.program)
    with SshHosts(folder, NAMES) as hosts:
        runner = Runner(hosts, folder)
        logs = judge_logs(runner, inputs.logs, program) if inputs.logs else []
        if not inputs.lines:
            return logs
        answers = judge_histories(runner, inputs.lines, program, given.batch)
        show_dead_host(runner, inputs.lines, program, given.batch)
    return answers + logs


def main() -> int:
    parser = parser_for(__doc__, BATCH)
    given = parser.parse_args()
    if not shutil.which("parallel"):
        parser.error("parallel is missing: apt-get install parallel")
    return summary.run(parser, given, judged)


if __name__ == "__main__":
    sys.exit(main())
