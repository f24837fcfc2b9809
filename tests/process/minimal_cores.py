#!/usr/bin/env python3
"""Leaves operations out of the cores that `explain` and `explain --long` show of random memories.

    python3 tests/process/minimal_cores.py SEED ROUNDS -- PROGRAM

In a round each command explains memories in which each kind was planted (planted.py), and some of random_memories.py; those of
`explain --long` have more sessions than `judge` takes. Of each core that stands below a `no`, each operation in turn is left out, of a write
with the reads from it. `judge` says something of what is left, and not that it is a `no` of the same kind for the same criterion. The words
before the core have to name its operations and no others. A core of more than 512 operations is only counted.

A wide fault goes through many sessions or takes many steps to derive, so its core has a hundred operations and more. A few of them are
explained by each command, among other operations, with some reads made twice. Of the fixed cases some have a choice: several of the operations would do. There the whole core is compared.

Each kind has to come in as many cores of each command as there are rounds, less a sixth. It prints a line for each
memory with a fault, with its form, and how often each thing came.
"""

import argparse
import json
import random
import subprocess
from collections import Counter

import folders  # noqa: F401
import planted
import random_memories
from command_words import with_program
from counting import end
from explained import core_in, said, sections
from explained_long import OPERATION
from patterns import AGAINST
from random_memories import Shape

MOST = 512
ORGANIC = 4
WIDE_SIZE = 65
WIDE = (("CyclicHB,CyclicCF", 14), ("CyclicHB", 40), ("WriteHBInitRead", 60))
COMMANDS = (("explain",), ("explain", "--long"))
FIXED = (
    (
        [[["w", 0, 1], ["w", 1, 1]], [["r", 1, 1], ["r", 0, 2], ["r", 0, 1], ["r", 0, 2]], [["w", 0, 2]]],
        {
            "cm no CyclicHB": [[["w", 0, 1], ["w", 1, 1]], [["r", 1, 1], ["r", 0, 2], ["r", 0, 1]], [["w", 0, 2]]],
            "ccv no CyclicCF": [[["w", 0, 1], ["w", 1, 1]], [["r", 1, 1], ["r", 0, 2], ["r", 0, 1]], [["w", 0, 2]]],
        },
    ),
    (
        [[["w", 0, 1], ["w", 0, 2], ["w", 0, 3]], [["w", 0, 4], ["r", 0, 1], ["r", 0, 3], ["r", 0, 4], ["r", 0, 3]]],
        {
            "cm no CyclicHB": [[["w", 0, 1]], [["w", 0, 4], ["r", 0, 1], ["r", 0, 4]]],
            "ccv no CyclicCF": [[["w", 0, 1]], [["w", 0, 4], ["r", 0, 1], ["r", 0, 4]]],
        },
    ),
)


def read_again(rng, session):
    """A session in which some reads are made twice, one after the other."""
    return [again for op in session for again in [op] * (2 if op[0] == "r" and rng.random() < 0.5 else 1)]


def planted_memory(rng, fault, is_long, width=None):
    """A causally consistent memory in which a fault was planted, a wide one in as many sessions as an ordinary history may have or more."""
    few, many = (17, 24) if is_long else (5, 8) if width is None else (16, 16)
    shape = Shape(rng.randint(few, many), rng.choice((2, 4, 8)), rng.choice((2, 8, 30)))
    sessions = random_memories.weak(rng, shape, 0)
    planted.plant(sessions, fault, width or rng.randint(1, 3), shape.keys, rng)
    sessions = sessions if width is None else [read_again(rng, session) for session in sessions]
    return ["memory", [list(map(list, session)) for session in sessions]]


def memories(rng, is_long):
    """The memories of a round."""
    some = [planted_memory(rng, fault, is_long) for fault in planted.FAULTS]
    return some + [random_memories.wide(rng)[0] if is_long else random_memories.small(rng) for _ in range(ORGANIC)]


def without(core, at):
    """A core without an operation: of a write, without the reads from it too."""
    word, key, value = core[1][at[0]][at[1]][:3]
    gone = lambda s, i, op: (s, i) == at or (word == "w" and op == ["r", key, value])
    return [core[0], [[op for i, op in enumerate(session) if not gone(s, i, op)] for s, session in enumerate(core[1])], *core[2:]]


def size(core):
    return sum(map(len, core[1]))


def remainders(core):
    """What is left of a core without each of its operations."""
    return [without(core, (s, i)) for s, session in enumerate(core[1]) for i in range(len(session))]


def verdicts(program, forms):
    """The lines of `judge` for each form."""
    text = "".join(f"{json.dumps(form)}\n" for form in forms)
    ran = subprocess.run([*program, "judge", "--lines"], input=text, capture_output=True, text=True, check=False)
    return [line.split("; ") for line in ran.stdout.splitlines()]


def cores(program, command, form):
    """Of each `no` its line, the lines below it, and the core among them, if there is one."""
    status, text = said(program, command, form)
    if status != 0:
        return [], [f"status {status} of {' '.join(command)}"]
    below = [(line, reason) for line, reason in sections(text) if line.split()[1] == "no"]
    return [(line, reason, next(filter(None, map(core_in, reason)), None)) for line, reason in below], []


def core_faults(program, line, reason, core):
    """What is wrong with a core."""
    found, rests = [], remainders(core)
    judged = verdicts(program, [core, *rests])
    if len(judged) != 1 + len(rests) or any(len(lines) != 3 for lines in judged):
        return [f"judge does not answer each part of {json.dumps(core)}"]
    if line not in judged[0]:
        found.append(f"of the core {json.dumps(core)} of {line!r} judge says {judged[0]}")
    found += [f"{json.dumps(rest)} is left of {json.dumps(core)}, and {line!r} too" for rest, lines in zip(rests, judged[1:]) if line in lines]
    named, is_cut = sum(bool(OPERATION.fullmatch(words)) for words in reason), any("more steps are left out" in words for words in reason)
    is_right = named < size(core) if is_cut else named == size(core)
    return found + ([] if is_right else [f"the words name {named} operations of {json.dumps(core)}"])


def wide_cores(command):
    return f"{' '.join(command)}: cores of {WIDE_SIZE} operations and more"


def faults(program, command, form, seen):
    """What is wrong with the cores of a memory."""
    shown, found = cores(program, command, form)
    for line, reason, core in shown:
        what = "no core" if core is None else "a large core" if size(core) > MOST else "a core"
        seen[f"{' '.join(command)}: {what} of {line}"] += 1
        seen[wide_cores(command)] += what == "a core" and size(core) >= WIDE_SIZE
        found += core_faults(program, line, reason, core) if what == "a core" else []
    return found


def fixed_faults(program):
    """What is wrong with the cores of the fixed cases."""
    for sessions, due in FIXED:
        shown, found = cores(program, COMMANDS[0], ["memory", sessions])
        got = {line: core for line, _, core in shown}
        wanted = {line: ["memory", core] for line, core in due.items()}
        yield found + ([] if got == wanted else [f"the cores of {json.dumps(sessions)} are {json.dumps(got)}, due {json.dumps(wanted)}"])


def wide_faults(program, rng, seen):
    """What is wrong with the cores of memories in which a wide fault was planted."""
    for command in COMMANDS:
        for fault, width in WIDE:
            form, before = planted_memory(rng, fault, "--long" in command, width), seen[wide_cores(command)]
            found = faults(program, command, form, seen)
            found += [] if seen[wide_cores(command)] > before else ["its cores are small"]
            yield [f"{fault} of {width}, {' '.join(command)}", *found] if found else []


def main():
    parser = argparse.ArgumentParser(description=__doc__, formatter_class=argparse.RawDescriptionHelpFormatter)
    parser.add_argument("seed", type=int)
    parser.add_argument("rounds", type=int)
    given = with_program(parser)
    rng, seen, outcomes = random.Random(given.seed), Counter(), list(fixed_faults(given.program))
    outcomes += wide_faults(given.program, random.Random(given.seed), seen)
    for _ in range(given.rounds):
        for command in COMMANDS:
            for form in memories(rng, "--long" in command):
                found = faults(given.program, command, form, seen)
                outcomes.append([f"{json.dumps(form)} {' '.join(command)}", *found] if found else [])
    for found in filter(None, outcomes):
        print(*found, sep="\n  ", flush=True)
    for what, times in sorted(seen.items()):
        print(f"{times:8} {what}")
    for command in COMMANDS:
        for kind, some in AGAINST.items():
            for criterion in some:
                times = seen[f"{' '.join(command)}: a core of {criterion} no {kind}"]
                rare = times < given.rounds * 5 // 6
                outcomes.append([f"rare: {criterion} no {kind} of {' '.join(command)}"] if rare else [])
                print(*outcomes[-1], sep="\n", end="\n" if rare else "")
    wrong = sum(map(bool, outcomes))
    end(len(outcomes) - wrong, wrong)


if __name__ == "__main__":
    main()
