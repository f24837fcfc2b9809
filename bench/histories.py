#!/usr/bin/env python3
"""Makes memory histories of full size for measuring, the same ones each time.

    python3 bench/histories.py OUTDIR

They are those of tests/generators/short_runs.py: runs of a replicated store, and beside each the same history with one fault. The files are named
SIZE-SHAPE-STATE.json, such as 16x256-keys64-healthy.json. The shapes are keys1, keys64 and mutual; a state is healthy, or one of the faults
stale, thin, init and swap.
"""

import argparse
import pathlib
import sys

sys.path.insert(0, str(pathlib.Path(__file__).resolve().parent.parent / "tests"))
import folders  # noqa: E402, F401
from short_runs import SESSIONS, SHAPES, SIZES, histories_of, text_of  # noqa: E402


def main():
    parser = argparse.ArgumentParser(description=__doc__, formatter_class=argparse.RawDescriptionHelpFormatter)
    parser.add_argument("folder", metavar="OUTDIR", type=pathlib.Path)
    folder = parser.parse_args().folder
    folder.mkdir(parents=True, exist_ok=True)
    for operations in SIZES:
        for shape in SHAPES:
            for state, sessions in histories_of(shape, operations):
                name = f"{SESSIONS}x{operations}-{shape}-{state}.json"
                (folder / name).write_text(text_of(sessions), encoding="ascii")


if __name__ == "__main__":
    main()
