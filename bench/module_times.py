"""Prints which functions of a crate take long to prove, from what a check of it kept.

    rt check --jobs 1                                      in the folder of a crate that keeps nothing yet
    python3 bench/module_times.py crates/NAME/out/incremental 30

A check keeps a file for each module that it made for a function and checked. The seconds of a function are those that went by
before each of its files was written, on the clock: they are right where one job wrote all files, and nothing else ran. The
columns after them are for the modules that take most:

    Lts    what is to be shown along each path of the function
    Tie    how what it calls fits what it is called with, for each object or other type that it names
    Proof  the search for a proof of each goal that has no answer in `Answers.antt`

The megabytes are those of `Lts`, and are the same on each machine.
"""

import pathlib
import re
import sys
from collections import defaultdict

SHOWN = ("Lts", "Tie", "Proof")
MADE = re.compile(r"^(?:Lts|Proof|Tie|Kinds|Code|Mir|Statement|Met|Goals|Given|Answers|Invariants|Reads|Layout|Named|Carried|View|Symbol|Passed|TheLink)")


def function_of(name):
    """The function that a module was made for, or the library of a module that is written by hand."""
    _, found, path = name.partition("-proofs.")
    if not found:
        return "(specs)"
    parts = path.split(".")
    while len(parts) > 1 and MADE.match(parts[-1]):
        parts.pop()
    return ".".join(parts)


def kept_modules(folder):
    """The files of modules in the order in which they were written: the time, the bytes and the name."""
    for path in folder.rglob("*.oantt"):
        stat = path.stat()
        yield stat.st_mtime, stat.st_size, path.name.removesuffix(".oantt").removesuffix(".decls")


def main():
    if len(sys.argv) not in (2, 3):
        sys.exit(__doc__)
    seconds, paths = defaultdict(lambda: defaultdict(float)), defaultdict(int)
    modules = sorted(kept_modules(pathlib.Path(sys.argv[1])))
    for (before, _, _), (after, size, name) in zip(modules, modules[1:]):
        function, kind = function_of(name), name.rpartition(".")[2].partition("-")[0]
        for column in ("all", kind):
            seconds[function][column] += after - before
        if kind == "Lts":
            paths[function] = max(size, paths[function])
    total = sum(of["all"] for of in seconds.values())
    print(f"{len(modules)} modules, {total:.0f} seconds: " + ", ".join(f"{kind} {sum(of[kind] for of in seconds.values()):.0f}" for kind in SHOWN))
    print("     all" + "".join(f"{kind:>8}" for kind in SHOWN) + "      MB")
    most = int(sys.argv[2]) if len(sys.argv) == 3 else 30
    for name in sorted(seconds, key=lambda it: seconds[it]["all"], reverse=True)[:most]:
        columns = "".join(f"{seconds[name][kind]:8.1f}" for kind in ("all", *SHOWN))
        print(f"{columns}{paths[name] / 1e6:8.1f}  {name}")


if __name__ == "__main__":
    main()
