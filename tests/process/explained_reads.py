#!/usr/bin/env python3
"""Wants an order that explains every read of runs of correct stores in which keys are deleted.

    python3 tests/process/explained_reads.py RUNS -- PROGRAM

RUNS runs of the correct stores of deleting_stores.py, a seed a run, in which 5, 20 or 40% of the writes are deletes. `explain` is asked of each,
in the order of time and without it:

- What the store promises is a `yes`.
- In the order of time an order has to explain every read in at least the shares of the table LEAST of the runs whose store promises the
  criterion. Without it the shares are printed alone.

It prints for each criterion in how many runs an order explains every read, and how many reads were left out of the other histories.
"""

import argparse
import random
from collections import Counter

import folders  # noqa: F401
import deleting_stores
import order_remarks
from command_words import CRITERIA, with_program
from counting import counted_faults, end
from deleting_stores import DELETES, Setting
from many_logs import kept, said_of
from recorded_stores import KINDS

EXPLAIN = ["explain", "--long", "--events"]
TIMED, ORDER = {True: "in the order of time", False: "without the order of time"}, b'["order","time"]\n'
SIZES = ((4, 25, 4), (4, 50, 20), (8, 60, 4), (8, 60, 20))
LEAST = {"cc": 0.95, "cm": 0.8, "ccv": 0.95}


def setting_of(seed):
    """The setting of a seed: each kind of a store by each size by each share of deletes, in turn."""
    kind, rest = KINDS[seed % len(KINDS)], seed // len(KINDS)
    clients, calls, keys = SIZES[rest % len(SIZES)]
    return Setting(kind, clients, calls, keys, DELETES[rest // len(SIZES) % len(DELETES)])


def log_of(seed):
    """The log of the run of a seed."""
    return deleting_stores.run_of(setting_of(seed), random.Random(f"explained {seed}"))[0].encode()


def run_faults(promised, text, counts):
    """What is wrong with an explanation of a run of a store that promises these criteria. What is explained is counted."""
    try:
        explained, remark = order_remarks.explained_in(text), order_remarks.remark_in(text)
    except order_remarks.NotRead as fault:
        return [f"words on reads that found nothing: {fault}"]
    counts.update(("runs", criterion) for criterion in promised)
    counts.update(("explained", criterion) for criterion in explained & set(promised))
    counts["left out"] += remark.left_out if remark else 0
    counts["asked"] += remark.asked if remark else 0
    return [f"{criterion}: no yes, which the store promises" for criterion in promised if criterion not in order_remarks.met_in(text)]


def shares_faults(counts, is_timed):
    """Prints the shares of runs whose reads are all explained, and says which of them are too small."""
    for criterion in CRITERIA:
        runs, explained = counts["runs", criterion], counts["explained", criterion]
        print(f"{criterion} {TIMED[is_timed]}: an order explains every read in {explained} of {runs} runs", flush=True)
        least = LEAST[criterion] if is_timed else 0
        yield [] if explained >= least * runs else [f"{criterion} {TIMED[is_timed]}: {explained} of {runs} runs, due {least:.0%}"]
    print(f"{TIMED[is_timed]}: {counts['left out']} reads stay open in what is judged, and {counts['asked']} more beside them are asked", flush=True)


def all_faults(given):
    """The faults of each run in the order of time and without it, and of the shares."""
    logs = [log_of(seed) for seed in range(given.runs)]
    for is_timed in TIMED:
        counts, some = Counter(), [ORDER * is_timed + log for log in logs]
        for seed, (log, said) in enumerate(zip(some, said_of(given.program, EXPLAIN, some))):
            wrong = run_faults(setting_of(seed).kind.promised, said.text, counts)
            yield [kept(log), *wrong] if wrong else []
        yield from shares_faults(counts, is_timed)


def main():
    parser = argparse.ArgumentParser(description=__doc__, formatter_class=argparse.RawDescriptionHelpFormatter)
    parser.add_argument("runs", type=int)
    given = with_program(parser)
    end(*counted_faults(all_faults(given)))


if __name__ == "__main__":
    main()
