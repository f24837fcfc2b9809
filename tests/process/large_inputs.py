#!/usr/bin/env python3
"""Runs a program on inputs of the largest sizes: a script of 65,536 steps, histories with about 100,000 happened-before pairs, derivations
of 100,000 lines, and texts of 67,108,864 bytes.

    python3 tests/process/large_inputs.py -- PROGRAM

The script records nothing, so its sealer is done after two looks: each further look is refused, and each step has its line. The last of as
many steps may be bad. In each history the happened-before relation of an operation has as many pairs, or a few more or fewer, as the makers
of certificates keep of one that the causal order does not have: it is decided all the same, and `explain` shows its pattern, or says in words
and as JSON whether it has a certificate of causal memory. Each line of a derivation holds, and one line more than there may be is one too
many; so is one byte more of a text. The last line is `N passed, M failed`, and the status is 1 where something failed.
"""

import argparse
import json
import subprocess

import folders  # noqa: F401
from command_words import with_program
from counting import end_after

STEPS = 65_536
IDLE = ["r", 9, 0]
MET = "cc yes\ncm yes\nccv yes\n"
CYCLIC = "cc yes\ncm no CyclicHB\nccv no CyclicCF\n"
PAIRS = ((0, False), (248, False), (249, False), (0, True), (244, True), (245, True))
WRITTEN = "  An order explains every known return: explain --json --certificates writes it."
GIVEN_UP = "  An order explains every known return, but no certificate is written: a happened-before relation has more than 100,000 pairs."
CYCLE = ["memory", [[["w", 0, 1]], [["w", 0, 2], ["r", 0, 1], ["r", 0, 2]]]]
MOST_LINES = 100_000
MOST_BYTES = 67_108_864
ONE_WRITE = ["memory", [[["w", 0, 1]]]]


def full_script():
    """A script of 65,536 steps in eight: each look stands for as many as it says, 9,999 at most."""
    return ["memory", 1, [["start"], ["look", 0, 5541], *[["look", 0, 9999]] * 6]]


def full_replies():
    return "ok 0\nnone\nnone\n" + "refused 26\n" * (STEPS - 3)


def rivals(key, idle_before, idle_after):
    """Two sessions. The first has so many idle reads, a write of a variable and a mark; the second has another write of the variable,
    so many idle reads and a mark."""
    first = [IDLE] * idle_before + [["w", key, 1], ["w", 10 + key, 1]]
    return [first, [["w", key, 2], *[IDLE] * idle_after, ["w", 20 + key, 1]]]


def many_pairs(more, is_cyclic):
    """A history whose last session sees, of each pair of sessions, the write of the second as the later one. So in its happened-before
    relation all up to the first write is before all of the second: 250 * 250 + 250 * 149 + 2 + `more` pairs, and four more where the
    session has a cycle of its own."""
    sessions = [*rivals(1, 249, 248), *rivals(2, 249, 147), *rivals(3, 0, more)]
    if is_cyclic:
        sessions.append([["w", 8, 1]])
    last = [["w", 8, 2], ["r", 8, 1], ["r", 8, 2]] if is_cyclic else []
    last += [["r", mark, 1] for mark in (11, 12, 13, 21, 22, 23)]
    return ["memory", [*sessions, last + [["r", key, 2] for key in (1, 2, 3)]]]


def derivation(lines):
    """A claim whose derivation has so many lines. The first four show that a write is before another, and that one before it; each
    further one shows from both that the second is before itself."""
    first = ["co", [[1, 0], [1, 1]], [[1, 1], [1, 2]]], ["rf", 0, [1, 1]], ["co", [[0, 0], [1, 1], [1, 2]], [[1, 2]]], ["rf", 2, [1, 2]]
    return [CYCLE, "cm", ["CyclicHB", [1, 2], [*first, *[["tr", 1, 3]] * (lines - len(first))]]]


def said(program, command, value, size=0):
    """The status of a run and what it wrote. Behind the value stand blanks up to so many bytes."""
    text = json.dumps(value, separators=(",", ":")).ljust(size)
    done = subprocess.run([*program, *command.split()], input=text, capture_output=True, check=False, text=True)
    return done.returncode, done.stdout, done.stderr


def cases_of_pairs(program):
    """The cases of histories with about 100,000 happened-before pairs."""
    for more, is_cyclic in PAIRS:
        found = said(program, "judge", many_pairs(more, is_cyclic))
        yield f"pairs {more} {is_cyclic}", found == (0, CYCLIC if is_cyclic else MET, "")
        if is_cyclic:
            status, text, _ = said(program, "explain --json", many_pairs(more, True))
            shown = [reason[2][0] for reason in json.loads(text)[1:]] if status == 0 else []
            yield f"pairs {more} with a pattern", shown == ["CyclicHB", "CyclicCF"]
    for more, line in ((248, WRITTEN), (249, GIVEN_UP)):
        wanted = f"cc yes\n{WRITTEN}\ncm yes\n{line}\nccv yes\n{WRITTEN}\n"
        yield f"pairs {more} in words", said(program, "explain", many_pairs(more, False)) == (0, wanted, "")
        status, text, _ = said(program, "explain --json --certificates", many_pairs(more, False))
        certificates = [reason[2] is not None for reason in json.loads(text)] if status == 0 else []
        yield f"pairs {more} with certificates", certificates == [True, line == WRITTEN, True]


def cases(program):
    """A name and an outcome for each case."""
    yield f"each of {STEPS} steps is answered", said(program, "replay", full_script()) == (0, full_replies(), "")
    bad_last = ["memory", 1, [["start"]] * (STEPS - 1) + [["stop"]]]
    yield f"the last of {STEPS} steps is bad", said(program, "replay", bad_last) == (1, "", f"refused 28 {STEPS - 1}\n")
    yield from cases_of_pairs(program)
    yield f"{MOST_LINES} lines", said(program, "refute", derivation(MOST_LINES)) == (0, "cm no CyclicHB\n", "")
    yield f"{MOST_LINES} lines and one", said(program, "refute", derivation(MOST_LINES + 1)) == (1, "", "refused 23\n")
    yield f"{MOST_BYTES} bytes", said(program, "judge", ONE_WRITE, MOST_BYTES) == (0, MET, "")
    yield f"{MOST_BYTES} bytes and one", said(program, "judge", ONE_WRITE, MOST_BYTES + 1) == (1, "", "refused 9\n")


def main():
    given = with_program(argparse.ArgumentParser(description=__doc__, formatter_class=argparse.RawDescriptionHelpFormatter))
    end_after(cases(given.program))


if __name__ == "__main__":
    main()
