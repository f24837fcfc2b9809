#!/usr/bin/env python3
"""Has `judge --long` judge a text of 1,073,741,824 bytes, and refuse one with a byte more. It is run by hand.

    python3 tests/process/longest_input.py [--workers N] FOLDER -- PROGRAM

The text is a history of 16 sessions that take turns: each reads what its neighbour wrote last, and writes a value of its own. Blanks fill
it up. It is written to FOLDER, which needs some 1.1 gigabytes, and is removed in the end. How many operations it has is printed, and the
seconds and the most memory of each run. The last line is `N passed, M failed`, and the status is 1 where something failed. The machine
needs some 12 gigabytes of memory.
"""

import argparse
import os
import pathlib
import tempfile
import time

import folders  # noqa: F401
from command_words import with_program
from counting import end_after

MOST_BYTES = 1_073_741_824
SESSIONS = 16
BLOCK = 10_000
MET = b"cc yes\ncm yes\nccv yes\n"


def turns(s, first, many):
    """The text of so many turns of a session, from this one on: a read of the neighbour's last value, and a write of the next."""
    key, asked = s, (s + 1) % SESSIONS
    return ",".join(
        f'["r",{asked},{turn * SESSIONS + asked + 1 - SESSIONS if turn else 0}],["w",{key},{turn * SESSIONS + s + 1}]'
        for turn in range(first, first + many)
    )


def blocks_within(room):
    """The first turn of each block of turns, as many as there is room for in all sessions: no session takes more than this one."""
    first, longest = 0, SESSIONS - 2
    while SESSIONS * (len(turns(longest, first, BLOCK)) + 1) <= room:
        room -= SESSIONS * (len(turns(longest, first, BLOCK)) + 1)
        yield first
        first += BLOCK


def write_history(file):
    """Writes a history that is as long as it may be, and gives the number of its operations."""
    blocks = list(blocks_within(MOST_BYTES - 100))
    file.write('["memory",[')
    for s in range(SESSIONS):
        file.write(",[" if s else "[")
        for first in blocks:
            file.write(("," if first else "") + turns(s, first, BLOCK))
        file.write("]")
    file.write("]]")
    file.write(" " * (MOST_BYTES - file.tell()))
    return 2 * BLOCK * SESSIONS * len(blocks)


def said(command, path):
    """The status of a run on a file, what it wrote to both streams, its seconds and the most memory that it took, in megabytes."""
    with tempfile.TemporaryFile() as output, tempfile.TemporaryFile() as errors, open(path, "rb") as reading:
        begin = time.monotonic()
        actions = [(os.POSIX_SPAWN_DUP2, file.fileno(), at) for at, file in enumerate((reading, output, errors))]
        process = os.posix_spawnp(command[0], command, os.environ, file_actions=actions)
        _, status, usage = os.wait4(process, 0)
        seconds = time.monotonic() - begin
        output.seek(0), errors.seek(0)
        return os.waitstatus_to_exitcode(status), output.read(), errors.read(), seconds, usage.ru_maxrss * 1024 // 1_000_000


def cases(program, workers, path):
    """A name and an outcome for each case."""
    command = [*program, "judge", "--long", "--workers", str(workers)]
    with open(path, "w", encoding="ascii") as file:
        operations = write_history(file)
    status, output, errors, seconds, memory = said(command, path)
    name = f"{MOST_BYTES} bytes, {operations} operations"
    print(f"{name}: {seconds:.0f} seconds, {memory} megabytes", flush=True)
    yield name, (status, output, errors) == (0, MET, b"")
    with open(path, "a", encoding="ascii") as file:
        file.write(" ")
    status, output, errors, seconds, memory = said(command, path)
    print(f"a byte more: {seconds:.0f} seconds, {memory} megabytes", flush=True)
    refused = b"refused 9\nthe input has more than 1073741824 bytes\n"
    yield f"{MOST_BYTES} bytes and one", (status, output, errors) == (1, b"", refused)


def main():
    parser = argparse.ArgumentParser(description=__doc__, formatter_class=argparse.RawDescriptionHelpFormatter)
    parser.add_argument("folder", metavar="FOLDER", type=pathlib.Path)
    parser.add_argument("--workers", metavar="N", type=int, default=1)
    given = with_program(parser)
    path = given.folder / "longest.json"
    try:
        end_after(cases(given.program, given.workers, path))
    finally:
        path.unlink(missing_ok=True)


if __name__ == "__main__":
    main()
