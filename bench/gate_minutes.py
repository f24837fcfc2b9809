"""Prints what each crate takes in a gate, in minutes of a processor.

    python3 bench/gate_minutes.py ./check           runs a command, and looks at its processes until it ends
    python3 bench/gate_minutes.py --process NUMBER  looks at the processes of a command that runs already

The table has a row for each crate: its proof, that of its tests, its must-fail edits, and making programs of it by both
compilers. The rest, as running tests and programs, is a sum of its own. It looks twice a second, so it misses the last half
second of each process and most of what is shorter; what ended before it looked is missed too. The last line says what
`getrusage` counts for a command that it ran itself.
"""

import os
import resource
import subprocess
import sys
import time
from collections import defaultdict
from typing import NamedTuple

TICKS = os.sysconf("SC_CLK_TCK")
KINDS = ("proof", "tests", "edits", "programs")


class Process(NamedTuple):
    """A process as it was seen: its number, when it started, its parent and the seconds of a processor that it took."""

    number: int
    start: int
    parent: int
    seconds: float


def seen_processes():
    """All processes of the machine, by their numbers."""
    found = {}
    for name in filter(str.isdigit, os.listdir("/proc")):
        try:
            with open(f"/proc/{name}/stat", encoding="ascii", errors="replace") as stat:
                fields = stat.read().rpartition(")")[2].split()
        except OSError:
            continue
        seconds = (int(fields[11]) + int(fields[12])) / TICKS
        found[int(name)] = Process(int(name), int(fields[19]), int(fields[1]), seconds)
    return found


def started_by(top, processes):
    """A process and all that it started, each after its parent."""
    children = defaultdict(list)
    for process in processes.values():
        children[process.parent].append(process)
    found = [processes[top]] if top in processes else []
    for process in found:
        found += children[process.number]
    return found


def task_of(number):
    """The crate and the kind of work of a process of the toolchain, or none."""
    try:
        with open(f"/proc/{number}/cmdline", encoding="utf-8", errors="replace") as words:
            words = words.read().split("\0")
        folder = os.readlink(f"/proc/{number}/cwd")
    except OSError:
        return None
    if not words[0].endswith("/rattle") or "--crate-name" not in words:
        return None
    crate = words[words.index("--crate-name") + 1]
    if "/rt-edit" in folder:
        return crate, "edits"
    if "--test" in words:
        return crate, "tests"
    return crate, "programs" if "--crate-checked" in words else "proof"


def watch(top, is_over):
    """The seconds of each process that a process started, with the task that it, or the nearest one above it, had."""
    seconds, tasks = {}, {}
    while not is_over():
        processes = seen_processes()
        if top not in processes:
            break
        for process in started_by(top, processes):
            key = process.number, process.start
            if tasks.get(key) is None:
                parent = processes.get(process.parent)
                tasks[key] = task_of(process.number) or (tasks.get((parent.number, parent.start)) if parent else None)
            seconds[key] = process.seconds
        time.sleep(0.5)
    return seconds, tasks


def print_table(seconds, tasks):
    """Prints a row for each crate, the costliest first, and the sums."""
    rows, rest = defaultdict(lambda: defaultdict(float)), 0.0
    for key, taken in seconds.items():
        if tasks[key] is None:
            rest += taken / 60
        else:
            crate, kind = tasks[key]
            rows[crate][kind] += taken / 60
    print(f"| crate | {' | '.join(KINDS)} |\n|---|{'---|' * len(KINDS)}")
    for crate, row in sorted(rows.items(), key=lambda it: -sum(it[1].values())):
        print(f"| {crate} | {' | '.join(f'{row[kind]:.1f}' if row[kind] else '' for kind in KINDS)} |")
    sums = [sum(row[kind] for row in rows.values()) for kind in KINDS]
    print(f"| sum | {' | '.join(f'{it:.1f}' for it in sums)} |\n\nThe rest took {rest:.1f}, and all {sum(sums) + rest:.0f} minutes.")


def main(words):
    """Does what the words say, and returns the exit status."""
    if len(words) == 2 and words[0] == "--process" and words[1].isdigit():
        print_table(*watch(int(words[1]), lambda: False))
        return 0
    if not words or words[0].startswith("-"):
        print(__doc__, file=sys.stderr)
        return 2
    with subprocess.Popen(words) as command:
        print_table(*watch(command.pid, lambda: command.poll() is not None))
    used = resource.getrusage(resource.RUSAGE_CHILDREN)
    print(f"The command took {(used.ru_utime + used.ru_stime) / 60:.0f} minutes of a processor.")
    return command.returncode


if __name__ == "__main__":
    sys.exit(main(sys.argv[1:]))
