#!/usr/bin/env python3
"""Prints what a call takes, from C and from Python, and what a process of the program takes, in microseconds, for some examples.

    python3 embed/measure.py [--costly DIR]

The number is the least of five rounds. With --costly the inputs are the costliest ones within the limits, as bench/costly_inputs.py
makes them, in DIR, where they are kept: then it prints the seconds of one call and its stack. What embed/run.py builds has to be
there. It ends with status 1 where a call takes more than half of the stack that the header asks for.
"""

import argparse
import pathlib
import re
import subprocess
import sys
import time

import causal_judge
from run import HERE, OUT, PROGRAM, ROOT, run

sys.path.insert(0, str(ROOT / "bench"))
from costliest import make_missing  # noqa: E402
from costly_inputs import INPUTS as COSTLY  # noqa: E402

EXAMPLES = (
    ("stale_read", "judge"),
    ("healthy_run", "judge"),
    ("many_clients", "judge"),
    ("repeated_verdict", "judge"),
    ("checked_run", "check"),
    ("stale_read", "explain"),
    ("stale_read", "explain_words"),
    ("stale_read", "explain_page"),
    ("refuted_run", "refute"),
    ("many_clients", "long_judge"),
    ("events_lost_write", "log_judge"),
    ("events_lost_write", "log_explain_page"),
    ("events_lost_write", "log_events"),
)

# What is asked of a costly history: each call that reads it in a way of its own.
OF_HISTORIES = ("judge", "explain", "explain_page", "check", "refute", "long_judge", "long_explain_page", "long_refute", "log_explain_page")


def stack_wanted():
    """How much stack the header asks for."""
    return int(re.search(r"CAUSAL_JUDGE_STACK_BYTES (\d+)", (HERE / "causal_judge.h").read_text())[1])


def in_c(command, path, rounds, calls):
    """The microseconds of a call from C, and its bytes of stack."""
    with path.open("rb") as data:
        words = [OUT / "measure", command, str(rounds), str(calls)]
        done = subprocess.run(words, stdin=data, capture_output=True, check=True).stdout.split()
    return float(done[0]), int(done[1])


def least(calls, call):
    """The least mean of five rounds of calls, in microseconds."""
    found = []
    for _ in range(5):
        start = time.perf_counter()
        for _ in range(calls):
            call()
        found.append((time.perf_counter() - start) / calls * 1e6)
    return min(found)


def of_examples():
    """Prints the table of the examples, and gives the most stack."""
    most = 0
    print("| input | command | bytes | C | Python | a process | stack |\n|---|---|---|---|---|---|---|")
    for name, command in EXAMPLES:
        path = ROOT / "examples" / (f"{name}.jsonl" if command.startswith("log_") else f"{name}.json")
        data = path.read_bytes()
        words = [PROGRAM, *causal_judge.COMMANDS[command].split()]
        micros, stack = in_c(command, path, 5, 500)
        in_python = least(500, lambda: causal_judge.ask(command, data))
        process = least(40, lambda: subprocess.run(words, input=data, capture_output=True, check=False))
        print(f"| {name} | {command} | {len(data)} | {micros:.1f} | {in_python:.1f} | {process:.0f} | {stack} |", flush=True)
        most = max(most, stack)
    return most


def of_costly(folder):
    """Prints the table of the costliest inputs, and gives the most stack."""
    inputs = [it for it in COSTLY if it.words[0] in ("judge", "check")]
    folder.mkdir(parents=True, exist_ok=True)
    make_missing(folder, inputs)
    most = 0
    print("| input | command | seconds | stack |\n|---|---|---|---|")
    for it in inputs:
        for command in OF_HISTORIES if it.words[0] == "judge" else ("check",):
            micros, stack = in_c(command, folder / f"{it.name}.json", 1, 1)
            print(f"| {it.name} | {command} | {micros / 1e6:.2f} | {stack} |", flush=True)
            most = max(most, stack)
    return most


def main():
    parser = argparse.ArgumentParser(description=__doc__, formatter_class=argparse.RawDescriptionHelpFormatter)
    parser.add_argument("--costly", type=pathlib.Path, metavar="DIR")
    given = parser.parse_args()
    run("cc", "-std=c11", "-O2", "-o", OUT / "measure", "measure.c", OUT / "libcausal_judge.a", "-pthread")
    most = of_costly(given.costly) if given.costly else of_examples()
    print(f"\nat most {most} bytes of stack, of {stack_wanted()}")
    sys.exit(1 if 2 * most > stack_wanted() else 0)


if __name__ == "__main__":
    main()
