#!/usr/bin/env python3
"""Makes a memory history of any length on standard output, the same one each time.

    python3 bench/long_runs.py [--fault KIND] [--width N] [--lost N] [--writes PERCENT] [--gap N] \
        STORE SESSIONS OPERATIONS KEYS SEED > HISTORY

Each history is a run of a store of tests/generators/store_runs.py: of `arrival`, which meets cc and cm, of `stamps`, which meets cc and ccv, or of
`copy`, which meets all three. A session takes in what another one has each N of its own operations on average (8 unless given). The
sessions have OPERATIONS operations in all: PERCENT of a hundred (50 unless given) are writes, of KEYS keys at random.

With `--fault`, operations of new keys are added, as tests/generators/planted.py has them: at the beginning of some sessions, before all else, and at
the end. They show a kind, or two, and of a wide fault through many sessions: N is its width.

`--lost N` takes the answer away from N writes whose values are read. Each of them gets a session of its own. A write of a new key stands in
its old place; the new session reads that key and then has the write, with an unknown return. All that is sure of the lines stays sure.
"""

import argparse
import gc
import pathlib
import sys

sys.path.insert(0, str(pathlib.Path(__file__).resolve().parent.parent / "tests"))
import folders  # noqa: E402, F401
from planted import FAULTS  # noqa: E402
from store_runs import STORES, history, pieces  # noqa: E402


def arguments():
    parser = argparse.ArgumentParser(description=__doc__, formatter_class=argparse.RawDescriptionHelpFormatter)
    parser.add_argument("store", choices=STORES)
    for name in ("sessions", "operations", "keys", "seed"):
        parser.add_argument(name, type=int)
    parser.add_argument("--fault", choices=FAULTS)
    parser.add_argument("--width", type=int, default=1, metavar="N")
    parser.add_argument("--lost", type=int, default=0, metavar="N")
    parser.add_argument("--writes", type=float, default=50, metavar="PERCENT")
    parser.add_argument("--gap", type=float, default=8, metavar="N")
    return parser.parse_args()


def main():
    given = arguments()
    gc.disable()
    sys.stdout.writelines(pieces(history(**vars(given))))


if __name__ == "__main__":
    main()
