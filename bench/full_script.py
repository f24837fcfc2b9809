#!/usr/bin/env python3
"""Writes a script of the world of full size: 65,536 steps, 16 full sessions and 64 cases.

    python3 bench/full_script.py > SCRIPT

Each session of a memory writes a variable of its own and reads it back, 256 operations in all. One sealer, told of half of
them, reads all. What it sealed is filed 64 times, with a certificate by program order and one list of all operations. The
remaining steps take pieces, check them and put their verdicts, so each verdict explains its piece.
"""

import json
import sys

SESSIONS = 16
OPERATIONS = 256
CASES = 64
STEPS = 65_536


def recorded():
    for i in range(OPERATIONS):
        for s in range(SESSIONS):
            value = SESSIONS * i + s + 1
            yield ["begin", s, ["w", s, value] if i % 2 == 0 else ["r", s]]
            yield ["end", s, "ok" if i % 2 == 0 else value - SESSIONS]


def certificate():
    vectors = [[[i + 1 if t == s else 0 for t in range(SESSIONS)] for i in range(OPERATIONS)] for s in range(SESSIONS)]
    return ["ccv", vectors, [s for _ in range(OPERATIONS) for s in range(SESSIONS)]]


def pieces():
    operations = [(c, s, i) for c in range(CASES) for s in range(SESSIONS) for i in range(OPERATIONS)]
    for verdict, (c, s, i) in enumerate(operations):
        yield from (["take"], ["work", c, s, i], ["put", c, verdict])


def script():
    looks = SESSIONS * OPERATIONS
    steps = [*recorded(), ["start", [OPERATIONS // 2] * SESSIONS], ["look", 0, looks]]
    steps += [["file", 0, certificate()]] * CASES
    left = STEPS - (len(steps) - 1 + looks)
    steps += [step for step, _ in zip(pieces(), range(left))]
    return ["memory", SESSIONS, steps]


def main():
    json.dump(script(), sys.stdout, separators=(",", ":"))


if __name__ == "__main__":
    main()
