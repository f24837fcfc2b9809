"""How a test of random histories is run: by a seed and a number, counting what it saw, and what it never saw but should have."""

import argparse
import json
import random
import tempfile
from collections import Counter

from command_words import with_program
from counting import end

ENOUGH = 4


def kept(prefix, form):
    """The name of a file with a form, which stays."""
    with tempfile.NamedTemporaryFile("w", prefix=f"{prefix}-", suffix=".json", delete=False) as file:
        json.dump(form, file)
    return file.name


def run_random(text, prefix, make, faults, named):
    """Makes histories from a seed by `make`, prints those in which `faults` finds something, and all of `named` that it never saw, where there
    are enough histories: four for each of them."""
    parser = argparse.ArgumentParser(description=text, formatter_class=argparse.RawDescriptionHelpFormatter)
    parser.add_argument("seed", type=int)
    parser.add_argument("count", type=int)
    given = with_program(parser)
    rng, seen, wrong = random.Random(given.seed), Counter(), 0
    for _ in range(given.count):
        form = make(rng)
        found = faults(given.program, form, rng, seen)
        wrong += bool(found)
        if found:
            print(kept(prefix, form), *found, sep="\n  ", flush=True)
    for what, times in sorted(seen.items()):
        print(f"{times:8} {what}")
    asked = named if given.count >= ENOUGH * len(named) else []
    missing = [what for what in asked if not seen[what]]
    for what in missing:
        print(f"never seen: {what}")
    end(given.count + len(asked) - wrong - len(missing), wrong + len(missing))
