#!/usr/bin/env python3
"""Looks at the pictures of `explain --svg` and `explain --long --svg`, of the histories in examples/ and of random ones.

    python3 tests/process/drawn.py SEED COUNT -- PROGRAM

The first histories are those in examples/, and the others are memories: runs of a store, most with one planted fault of each kind in turn,
and small random ones. pictures.py says what each picture has to hold, and its title has to say what `judge` says. Each kind of pattern and
of edge has to be drawn, and a folded picture. It prints a line for each history with a fault, with the file in which its form is kept.
"""

import itertools
import json
import pathlib

import folders  # noqa: F401
import pictures
import planted
import random_memories
from explained import said
from patterns import AGAINST
from random_histories import run_random
from random_memories import Shape

FAULTS = tuple(planted.FAULTS)
EXAMPLES = pathlib.Path(__file__).resolve().parents[2] / "examples"
USAGE = 2


def is_history(form):
    """Whether a form is that of a history, and not of a script or of a claim."""
    return type(form) is list and len(form) > 1 and type(form[0]) is str and type(form[1]) is list


def examples():
    """The histories in examples/."""
    forms = (json.loads(path.read_text(encoding="utf-8")) for path in sorted(EXAMPLES.glob("*.json")))
    return filter(is_history, forms)


def run_of(rng, fault):
    """A run of a store, with a fault of this kind where one is named."""
    shape = Shape(rng.randint(3, 12), rng.choice((2, 5, 30)), rng.choice((1, 4, 20)))
    sessions = random_memories.of_store(rng, shape)
    if fault:
        planted.plant(sessions, fault, rng.choice((1, 1, 2, 3)), shape.keys, rng)
    return ["memory", [list(map(list, session)) for session in sessions]]


def histories():
    """Makes histories, one a call: the examples, and then random ones."""
    forms = examples()
    faults = itertools.cycle((*FAULTS, None))

    def make(rng):
        form = next(forms, None)
        if form is None:
            fault = next(faults)
            form = run_of(rng, fault) if fault or rng.random() < 0.5 else random_memories.small(rng)
        return form

    return make


def title_of(lines):
    """The title of the picture of what `judge` says: the first `no` of a pattern, or all lines."""
    first = next((line for line in lines.splitlines() if " no " in line), None)
    return first or ", ".join(lines.splitlines())


def picture_faults(program, words, form, lines, seen):
    """What is wrong with a picture."""
    status, text = said(program, words, form)
    if status != 0:
        return [f"status {status} of {' '.join(words)}"]
    found = pictures.faults_of(text, form[1])
    if not found:
        picture = pictures.Picture(text)
        seen.update(f"edge of {kind}" for kind in set(map(pictures.kind_of, picture.edges)))
        seen[f"picture of {picture.title.split()[2]}" if " no " in picture.title else "picture without a pattern"] += 1
        seen["folded picture"] += bool(picture.gaps) and " no " not in picture.title
        if picture.title != title_of(lines):
            found.append(f"the title {picture.title!r}, due {title_of(lines)!r}")
    return [f"{' '.join(words)}: {fault}" for fault in found]


def faults(program, form, rng, seen):
    """What is wrong with the pictures of a history."""
    status, lines = said(program, ["judge"], form)
    if status == USAGE:
        return []
    if status != 0:
        return [f"status {status} of judge"]
    found = picture_faults(program, ["explain", "--svg"], form, lines, seen)
    if form[0] == "memory" and " no " in lines:
        found += picture_faults(program, ["explain", "--long", "--svg"], form, lines, seen)
    return found


def main():
    drawn = [f"picture of {kind}" for kind in AGAINST] + [f"edge of {kind}" for kind in pictures.EDGES]
    run_random(__doc__, "drawn", histories(), faults, [*drawn, "picture without a pattern", "folded picture"])


if __name__ == "__main__":
    main()
