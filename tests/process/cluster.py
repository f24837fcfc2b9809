#!/usr/bin/env python3
"""Tests examples/cluster: a Dask cluster, and GNU parallel over ssh, judge many runs while a worker and a host are killed.

    python3 tests/process/cluster.py [--long] -- PROGRAM

Each script of the example is run over a program: with 300 histories and 3 short logs, or with --long with the 10,000 and the 50 of its
README.md. The answers have to be, byte for byte, what the program says of each input, in the order of the inputs. Then it is given inputs
that are refused, a log that is missing, and a program that is killed the first time that it gets an input; one that is missing; with --long
one that kills its worker. And it is interrupted: no process and no file of it may be left.

The example is run by /usr/bin/python3, for Debian's modules. sshd is started by an ordinary user: where the test runs as root, it makes one
that is there for this test alone. What is missing is named as skipped, with the line that installs it.
"""

import argparse
import os
import pathlib
import re
import shutil
import signal
import subprocess
import sys
import tempfile
import time
from typing import NamedTuple

import folders  # noqa: F401
from cluster_scripts import (
    DEADLY,
    END_SECONDS,
    EXAMPLE,
    FLAKY,
    LOOK_SECONDS,
    PYTHON,
    SLOW,
    START_SECONDS,
    Script,
    end_group,
    gone,
    has_shell,
    is_started,
    ordinary_user,
    processes_of,
)
from command_words import with_program
from counting import end

sys.dont_write_bytecode = True
sys.path.insert(0, str(EXAMPLE))

import generating  # noqa: E402

SECONDS, LONG_SECONDS = 300, 7200
COUNTS = re.compile(r" {8}((?:cc|cm|ccv) +\d+ .*)")
HISTORY = '["memory",[[["w",0,1]],[["r",0,1]]]]'
MARKED = '["memory",[[["w",7,7777777]]]]'
MIXED = [HISTORY.encode(), b"no history", b'["memory"', b'"\xff"', HISTORY.replace('"r",0,1', '"r",0,0').encode(), HISTORY.encode(), b""]
LOGS = {
    "good": '["begin","a",["w","k",1]]\n["end","a","ok"]\n',
    "bad": '["begin","a",["r","k"]]\n["end","a",7]\n',
    "refused": '["begin","a",["r","k"]]\n["begin","a",["r","k"]]\n',
    "torn": '["begin","a",["w","k",1]]\n["end","a',
}


class Sizes(NamedTuple):
    """How large a run is: its seed, histories, histories of a batch, logs and the most operations of one; and how long it may take."""

    seed: int
    histories: int
    batch: int
    logs: int
    operations: int
    seconds: int


SHORT, LONG = Sizes(6, 300, 20, 3, 1_000, SECONDS), Sizes(52, 10_000, 100, 50, 20_000, LONG_SECONDS)


def said_of_lines(program, text):
    """What the program says of each line of a text."""
    done = subprocess.run([program, "judge", "--lines"], input=text, capture_output=True, check=False, timeout=LONG_SECONDS)
    return done.stdout.decode().splitlines()


def said_of_log(program, path):
    """What the program says of a log, in a line."""
    with path.open("rb") as log:
        done = subprocess.run([program, "judge", "--long", "--events"], stdin=log, capture_output=True, check=False, timeout=LONG_SECONDS)
    return "; ".join((done.stderr if done.returncode else done.stdout).decode().splitlines())


def fault_in(what, *faults):
    """What is wrong with a run, if anything: the names of what does not hold, and what the script wrote."""
    found = [name for name, is_right in faults if not is_right]
    return f"{', '.join(found)}:\n{what.text}" if found else None


def due_answers(program, sizes):
    """What the program says of each generated input."""
    lines = "".join(f"{line}\n" for line in generating.histories(sizes.seed, sizes.histories))
    with tempfile.TemporaryDirectory() as room:
        logs = generating.write_logs(sizes.seed, sizes.logs, sizes.operations // 10, sizes.operations, pathlib.Path(room))
        return said_of_lines(program, lines.encode()), [said_of_log(program, path) for path in logs]


def shown_counts():
    """The counts that README.md of the example shows, of its own run."""
    return COUNTS.findall((EXAMPLE / "README.md").read_text(encoding="utf-8"))


def whole_fault(script, sizes):
    """What is wrong with a run over generated inputs."""
    words = ["--seed", sizes.seed, "--histories", sizes.histories, "--logs", sizes.logs, "--operations", sizes.operations]
    ended = script.run("./causal_judge", [*words, "--batch", sizes.batch], sizes.seconds)
    of_histories, of_logs = due_answers(script.program, sizes)
    again = re.search(r"(\d+) tasks were handed out again", ended.text)
    return fault_in(
        ended,
        ("status", ended.status == 0),
        ("answers", ended.answers == of_histories + of_logs and (len(of_histories), len(of_logs)) == (sizes.histories, sizes.logs)),
        ("a history and a log with a no", "cc no" in "".join(of_histories) and "cc no" in "".join(of_logs)),
        ("a killed worker or host", " was killed" in ended.text),
        ("tasks again", script.name != "by_dask" or again is not None and int(again[1]) > 0),
        ("a dead host", script.name != "by_parallel" or "dead, no --retries" in ended.text and "Connection refused" in ended.text),
        ("the counts of README.md", sizes is SHORT or shown_counts() and all(counts in ended.text for counts in shown_counts())),
    )


def mixed_inputs(script):
    """The words that name inputs of which some are refused and one is missing, and the answers that are due."""
    lines = script.files / "lines"
    lines.write_bytes(b"".join(line + b"\n" for line in MIXED))
    words, due = ["--lines", lines, "--batch", 2], said_of_lines(script.program, lines.read_bytes())
    for name, text in LOGS.items():
        path = script.files / f"{name}.jsonl"
        path.write_text(text)
        words += ["--log", path]
        due.append(said_of_log(script.program, path))
    return [*words, "--log", script.files / "missing.jsonl"], [*due, "no answer"]


def mixed_fault(script):
    """What is wrong with a run over such inputs, by a program that is killed the first time that it gets one of them."""
    words, due = mixed_inputs(script)
    flaky = script.shell("flaky", FLAKY)
    said_of_lines(flaky, (script.files / "lines").read_bytes())  # as what judges all of them alone is to find it
    ended = script.run(flaky, words, SECONDS)
    refused = sum(answer.startswith("refused") for answer in due)
    return fault_in(
        ended,
        ("status", ended.status == 1),
        ("answers", ended.answers == due and refused >= 5),
        ("the refused lines", "4 refused: 2 (refused 1), 3 (refused 1), 4 (refused 1), 7 (refused 1)" in ended.text),
        ("the refused log", "1 refused: refused (refused 30 2; " in ended.text),
        ("the missing log", "1 without an answer: missing" in ended.text and "missing.jsonl" in ended.text),
        ("the comparison", f"{len(due) - 1} of {len(due)} answers are those of one process alone" in ended.text),
    )


def missing_fault(script):
    """What is wrong with a run by a program that is missing."""
    words, due = mixed_inputs(script)
    ended = script.run("/none/causal_judge", [*words, "--no-comparison"], SECONDS)
    return fault_in(
        ended,
        ("status", ended.status == 1),
        ("answers", ended.answers == ["no answer"] * len(due)),
        ("the program", "/none/causal_judge" in ended.text),
        ("no comparison", "of one process alone" not in ended.text),
    )


def deadly_fault(script):
    """What is wrong with a run by a program that kills each worker that hands it a certain history."""
    lines = script.files / "lines"
    lines.write_text("".join(f"{MARKED if number == 9 else HISTORY}\n" for number in range(12)))
    ended = script.run(script.shell("deadly", DEADLY), ["--lines", lines, "--batch", 1, "--workers", 6], SECONDS)
    yes = "cc yes; cm yes; ccv yes"
    return fault_in(
        ended,
        ("status", ended.status == 1),
        ("answers", ended.answers == ["no answer" if number == 9 else yes for number in range(12)]),
        ("the batch", "histories 10 to 10: KilledWorker" in ended.text),
    )


def judging(script):
    """A run of the script over a slow program, once it judges; and whether it does."""
    process = script.started(script.shell("slow", SLOW), ["--histories", 100, "--logs", 2, "--operations", 100, "--batch", 5])
    until = time.monotonic() + START_SECONDS
    while time.monotonic() < until and process.poll() is None:
        if any(b"/slow\0judge" in words for words in processes_of(script).values()):
            return process, True
        time.sleep(LOOK_SECONDS)
    return process, False


def ended_by(script, process, seconds):
    """What a run writes until it ends, and what is left of it then."""
    try:
        text = process.communicate(timeout=seconds)[0]
    except subprocess.TimeoutExpired:
        text = "no end"
    left = gone(script)
    end_group(process)
    return text, left


def interrupted_fault(script, sign, is_group):
    """What is wrong with a run that is interrupted while it judges: by a signal to it alone, or to its group, as by Ctrl-C."""
    process, is_judging = judging(script)
    (os.killpg if is_group else os.kill)(process.pid, sign)
    text, left = ended_by(script, process, END_SECONDS)
    is_right = is_judging and process.returncode not in (None, 0, 1, 2) and not left
    return None if is_right else f"{signal.Signals(sign).name}: status {process.returncode}, left {left}:\n{text}"


def headless_fault(script):
    """What is wrong with a run whose scheduler is killed."""
    process, is_judging = judging(script)
    for number, words in processes_of(script).items():
        if b"dask_scheduler" in words:
            os.kill(number, signal.SIGKILL)
    text, left = ended_by(script, process, SECONDS)
    is_right = is_judging and process.returncode == 1 and not left and "the scheduler is gone" in text and "without an answer" in text
    return None if is_right else f"status {process.returncode}, left {left}:\n{text}"


def dask_checks(script, given):
    """The faults of runs by Dask, each with a name."""
    yield "by_dask.py, all", whole_fault(script, LONG if given.long else SHORT)
    yield "by_dask.py, refused inputs", mixed_fault(script)
    yield "by_dask.py, Ctrl-C", interrupted_fault(script, signal.SIGINT, True)
    if given.long:
        yield "by_dask.py, no program", missing_fault(script)
        yield "by_dask.py, a batch that kills its workers", deadly_fault(script)
        yield "by_dask.py, a killed scheduler", headless_fault(script)
        yield "by_dask.py, SIGTERM", interrupted_fault(script, signal.SIGTERM, False)


def parallel_checks(script, given):
    """The faults of runs by GNU parallel, each with a name."""
    yield "by_parallel.py, all", whole_fault(script, LONG if given.long else SHORT)
    yield "by_parallel.py, refused inputs", mixed_fault(script)
    yield "by_parallel.py, SIGTERM", interrupted_fault(script, signal.SIGTERM, False)
    if given.long:
        yield "by_parallel.py, no program", missing_fault(script)
        yield "by_parallel.py, Ctrl-C", interrupted_fault(script, signal.SIGINT, True)


def lacks_dask():
    """Why the runs by Dask are skipped, if they are."""
    is_there = is_started(PYTHON, "-c", "import dask.bag, distributed")
    return "" if is_there else "Dask is missing: apt-get install python3-distributed"


def lacks_parallel(script):
    """Why the runs by GNU parallel are skipped, if they are."""
    for tool, package in (("parallel", "parallel"), ("ssh", "openssh-client"), ("/usr/sbin/sshd", "openssh-server")):
        if not shutil.which(tool):
            return f"{tool} is missing: apt-get install {package}"
    if not is_started("parallel", "--pipe", "--version"):
        return "parallel is another program: apt-get install parallel"
    if not is_started(*script.prefix, "true"):
        return "no ordinary user can be made: run this as one"
    if not script.prefix and not has_shell():
        return "this user has no shell: run this as one who has"
    return "" if is_started(*script.prefix, script.program, "help") else "an ordinary user can't start the program"


def tested(script, checks, missing, given):
    """Makes the checks of a script, and counts those that passed and failed, and whether they were skipped."""
    print(f"{script.name}.py: skipped: {missing}" if missing else f"{script.name}.py", flush=True)
    counts = [0, 0, int(bool(missing))]
    for what, fault in () if missing else checks(script, given):
        counts[fault is not None] += 1
        print(f"{what}: {fault[:4000]}" if fault else f"{what}: as it has to be", flush=True)
    return counts


def main():
    parser = argparse.ArgumentParser(description=__doc__, formatter_class=argparse.RawDescriptionHelpFormatter)
    parser.add_argument("--long", action="store_true")
    given = with_program(parser)
    # a shell that starts this in the background has it ignored, and what is started here would ignore it too
    signal.signal(signal.SIGINT, signal.default_int_handler)
    with tempfile.TemporaryDirectory(prefix="tests-") as room:
        os.chmod(room, 0o755)
        by_dask = Script("by_dask", given.program[0], pathlib.Path(room, "dask"))
        by_parallel = Script("by_parallel", given.program[0], pathlib.Path(room, "parallel"))
        by_parallel.prefix = ordinary_user(by_parallel.room)
        counts = tested(by_dask, dask_checks, lacks_dask(), given), tested(by_parallel, parallel_checks, lacks_parallel(by_parallel), given)
    end(*map(sum, zip(*counts)))


if __name__ == "__main__":
    main()
