#!/usr/bin/env python3
"""Drives clients over the stores with fixed inputs, and checks what is said of the histories that are recorded.

    python3 tests/process/live_clients.py [--eager-runs N] -- PROGRAM

What a run records depends on how its clients meet, so nothing is compared but what holds of every run: how many histories there
are, that the causal store answers causally, and that full runs with causal delivery show no pattern: in none of their seals, which are
taken while other clients record, is a value read that nobody wrote. Eager delivery is caught by a
pattern in one of at most so many full runs: a run shows one where a client is interrupted while it tells the others of a write.
The last line is `N passed, M failed`, and the status is 1 where something failed.
"""

import argparse
import itertools
import json
import pathlib
import subprocess

import folders  # noqa: F401
from command_words import with_program
from counting import end_after
from driven import taken_apart
from objects import UNKNOWN

EXAMPLE = pathlib.Path(__file__).resolve().parents[2] / "examples" / "many_clients.json"
SESSIONS = 16
EXAMPLE_TURNS, FULL_TURNS = 16, 64
MOST_SEALS = 8
ONE_CLIENT = ["counter", [[["inc"], ["inc"], ["get", "?"], ["inc", "?"]]]]
THREE_CLIENTS = [
    "memory",
    [
        [["w", 0, 1], ["r", 1, "?"], ["w", 0, 2, "?"]],
        [["w", 1, 3], ["r", 0, "?"], ["r", 0, "?"]],
        [["r", 0, "?"], ["r", 1, "?"], ["w", 2, 4, "?"]],
    ],
]


def turns(session, many):
    """The calls of a session of turns, each a write of a value that no other writes, and three reads, which go round all variables."""
    calls = []
    for turn in range(many):
        near, far, farther = session + turn + 1, session + 3 * turn + 2, session + 5 * turn + 3
        calls.append(["w", session, 1 + 256 * session + turn, UNKNOWN])
        calls += [["r", key % SESSIONS, UNKNOWN] for key in (near, far, farther)]
    return calls


def many_clients(many):
    """The input with 16 sessions of so many turns of four calls."""
    return ["memory", [turns(session, many) for session in range(SESSIONS)]]


def reports(program, words, history, seals):
    """The lines that a run says of each history that it writes; none where it fails or writes another number of histories."""
    text = json.dumps(history, separators=(",", ":"))
    done = subprocess.run([*program, "drive", *words], input=text, capture_output=True, check=False, text=True)
    found = taken_apart(done.stdout, seals) if done.returncode == 0 else None
    return None if found is None else [report for _, report in found]


def sealed(program, store, history, seals, *words):
    """The same of a run that is to seal so many histories while its clients run."""
    return reports(program, [store, "--seals", str(seals), *words], history, seals)


def are_causal(found):
    """Whether each history that was written is causally consistent, of some."""
    return bool(found) and all("cc yes" in report.split("\n") for report in found)


def show_no_pattern(found):
    """Whether no line is a `no`, of some."""
    return bool(found) and not any(" no " in report for report in found)


def is_caught(program, store, most):
    """Whether one of so many full runs with eager delivery shows a pattern; a run that fails ends them."""
    for _ in range(most):
        found = reports(program, [store, "--eager"], many_clients(FULL_TURNS), 0)
        if not found or " no " in found[0]:
            return bool(found)
    return False


def small_cases(program):
    """A name and an outcome for each case of a few clients."""
    for seals in (0, 1, 8):
        yield f"one client, {seals} seals: one history for each and one more", sealed(program, "lamport", ONE_CLIENT, seals) is not None
    for workers in (1, 2, 16):
        found = sealed(program, "causal", THREE_CLIENTS, 4, "--workers", str(workers))
        yield f"three clients of the causal store are answered causally by {workers} workers", are_causal(found)


def large_cases(program, eager_runs):
    """A name and an outcome for each case of 16 clients."""
    example = many_clients(EXAMPLE_TURNS)
    yield f"{EXAMPLE.name} has 16 turns", json.loads(EXAMPLE.read_text(encoding="utf-8")) == example
    found = reports(program, ["causal"], example, 0)
    yield f"{EXAMPLE.name} is answered causally", found == ["cc yes\ncm yes\nccv yes\n"]
    found = sealed(program, "causal", many_clients(FULL_TURNS), MOST_SEALS)
    yield "full runs of the causal store are consistent", are_causal(found) and show_no_pattern(found)
    found = sealed(program, "lamport", many_clients(FULL_TURNS), MOST_SEALS)
    yield "full runs of the lamport store show no pattern", show_no_pattern(found)
    for store in ("causal", "lamport"):
        yield f"eager delivery of the {store} store is caught within {eager_runs} runs", is_caught(program, store, eager_runs)


def main():
    parser = argparse.ArgumentParser(description=__doc__, formatter_class=argparse.RawDescriptionHelpFormatter)
    parser.add_argument("--eager-runs", type=int, default=200)
    given = with_program(parser)
    end_after(itertools.chain(small_cases(given.program), large_cases(given.program, given.eager_runs)))


if __name__ == "__main__":
    main()
