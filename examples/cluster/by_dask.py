#!/usr/bin/env python3
"""Has a Dask cluster judge many histories and logs, kills one of its workers meanwhile, and compares the answers with those of one process.

    /usr/bin/python3 examples/cluster/by_dask.py [PROGRAM] [--histories N] [--logs N] [--seed N] [--workers N] [--answers FILE]
    /usr/bin/python3 examples/cluster/by_dask.py [PROGRAM] --lines FILE --log FILE --log FILE ..

It needs Dask: apt-get install python3-distributed. The cluster is a scheduler and three workers on this machine, which end with the script.
PROGRAM is the one that CAUSAL_JUDGE names, or causal_judge, where none is given.

The status is 0 where each input was judged as one process alone judges it, 1 where one was refused, has no answer or another one, and 2
where nothing was judged.
"""

# Dask tells mypy little of its types.
# mypy: allow-untyped-calls

import argparse
import logging
import sys
import time
from collections import Counter
from collections.abc import Callable, Iterable, Mapping
from pathlib import Path
from typing import Any, NamedTuple

try:
    from dask.bag.core import from_sequence
    from distributed import Client, Future, TimeoutError
except ImportError:
    print("Dask is missing: apt-get install python3-distributed, and start this by /usr/bin/python3", file=sys.stderr)
    sys.exit(2)

import judging
import summary
from dask_cluster import DaskCluster
from inputs import Inputs, parser_for

NAMES = ("one", "two", "three", "four", "five", "six")
BATCH = 100
RETRIES = 2
CONNECT_SECONDS, STEP_SECONDS, MOST_SECONDS = 30, 30, 3600
LOOK_SECONDS = 0.01
SHOWN = 300


class Batch(NamedTuple):
    """What one task judges: how many inputs, what they are called, and its future, which is Dask's name for what will be its result."""

    many: int
    name: str
    future: Future


def computed(client: Client, bag: Any) -> list[Future]:
    """Hands out the parts of a bag, each of which is a task. One whose process fails is tried again."""
    return list(client.compute(bag.to_delayed(), retries=RETRIES))


def batches_of(client: Client, inputs: Inputs, program: str, size: int) -> list[Batch]:
    """Hands out all inputs as two bags: the histories in batches, and each log alone."""
    found = []
    if inputs.lines:
        lines = from_sequence(inputs.lines, partition_size=size).map_partitions(judging.judge_histories, program)
        for place, future in enumerate(computed(client, lines)):
            first, last = place * size + 1, min((place + 1) * size, len(inputs.lines))
            found.append(Batch(last - first + 1, f"histories {first} to {last}", future))
    if inputs.logs:
        logs = from_sequence(inputs.logs, partition_size=1).map(judging.judge_log, program)
        found += [Batch(1, path, future) for path, future in zip(inputs.logs, computed(client, logs))]
    return found


def wait_for(batches: list[Batch], many: int, until: float) -> int:
    """Waits until so many tasks are done, and returns how many are."""
    while (done := len([batch for batch in batches if batch.future.done()])) < many and time.monotonic() < until:
        time.sleep(LOOK_SECONDS)
    return done


def counts_of(found: Mapping[str, Iterable[Any]], batches: list[Batch]) -> Counter[str]:
    """How many of these tasks each worker has, by its address."""
    keys = {str(batch.future.key) for batch in batches}
    return Counter({address: len(keys.intersection(map(str, some))) for address, some in found.items()})


def kill_one(client: Client, cluster: DaskCluster, batches: list[Batch]) -> str:
    """Kills the worker that has most to do, and says which, and what it had."""
    due, held = counts_of(client.processing(), batches), counts_of(client.has_what(), batches)
    names = {address: worker["name"] for address, worker in client.scheduler_info()["workers"].items()}
    address = max(names, key=lambda address: (due[address], held[address]))
    cluster.kill(names[address])
    return f"worker {names[address]} was killed, which had {due[address]} to do and held {held[address]} results"


def asked(question: Callable[[], str]) -> str:
    """What the scheduler says, where it is there."""
    try:
        return question()
    except OSError:
        return "the scheduler is gone"


def outcome_of(batch: Batch, cluster: DaskCluster, until: float) -> list[str] | str:
    """The answers of a task, or what is said instead. What a worker did that ended meanwhile, Dask gives to another one."""
    while time.monotonic() < until and cluster.has_workers():
        if not batch.future.done():
            time.sleep(LOOK_SECONDS)
            continue
        try:
            return list(batch.future.result(timeout=STEP_SECONDS))
        except TimeoutError:  # the worker that held the answers ended just now
            continue
        except Exception as fault:  # what the task raised, or Dask: whatever it is, it is told in the place of the answers
            return f"{type(fault).__name__}: {fault}"
    return "no answer in time" if cluster.has_workers() else "no worker is left"


def told_again(client: Client, batches: list[Batch]) -> str:
    """Says how often the scheduler gave a task to a worker which it had given to one before."""
    story = client.story(*(str(batch.future.key) for batch in batches), on_error="ignore")
    often = Counter(key for teller, key, _, state, *_ in story if teller == "scheduler" and state == "processing")
    return f"{sum(often.values()) - len(often)} tasks were handed out again"


def found_by(cluster: DaskCluster, batches: list[Batch]) -> tuple[summary.Answers, list[str]]:
    """The answers of all tasks, in the order of the inputs, and what is said instead of some."""
    until = time.monotonic() + MOST_SECONDS
    answers: summary.Answers = []
    faults = []
    for batch in batches:
        outcome = outcome_of(batch, cluster, until)
        if isinstance(outcome, str):
            faults.append(f"{batch.name}: {outcome[:SHOWN]}")
            answers += [None] * batch.many
        else:
            answers += outcome
    return answers, faults


def judged(inputs: Inputs, given: argparse.Namespace, folder: Path) -> summary.Answers:
    """Has all inputs judged by a cluster, of which a worker is killed when a third of the tasks is done. Says which were not judged."""
    cluster = DaskCluster(folder, NAMES[: given.workers])
    with cluster, Client(scheduler_file=cluster.scheduler_file, timeout=CONNECT_SECONDS) as client:
        cluster.wait_for_workers(client)
        client.upload_file(judging.__file__)
        begun = time.monotonic()
        batches = batches_of(client, inputs, given.program, given.batch)
        print(f"{len(inputs.lines)} histories and {len(inputs.logs)} logs in {len(batches)} tasks, by {given.workers} workers", flush=True)
        done = wait_for(batches, len(batches) // 3, begun + MOST_SECONDS)
        print(f"    after {done} tasks {asked(lambda: kill_one(client, cluster, batches))}", flush=True)
        answers, faults = found_by(cluster, batches)
        print(f"    {asked(lambda: told_again(client, batches))}; it took {time.monotonic() - begun:.1f} seconds", flush=True)
    print(*faults, sep="\n", end="\n" if faults else "", flush=True)
    return answers


def main() -> int:
    parser = parser_for(__doc__, BATCH)
    parser.add_argument("--workers", type=int, default=3, choices=range(2, len(NAMES) + 1))
    # It warns of each result that a killed worker held. What goes wrong is what a task comes to.
    logging.getLogger("distributed.client").setLevel(logging.CRITICAL)
    return summary.run(parser, parser.parse_args(), judged)


if __name__ == "__main__":
    sys.exit(main())
