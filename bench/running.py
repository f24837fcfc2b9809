"""What the programs here share that run commands on files: how one is started, how a file is made, how a table is printed."""

import os


def started(command, path, output, errors=2):
    """The number of a process that reads a file, and writes to open files, which their numbers name."""
    actions = [
        (os.POSIX_SPAWN_OPEN, 0, path, os.O_RDONLY, 0),
        (os.POSIX_SPAWN_DUP2, output, 1),
        (os.POSIX_SPAWN_DUP2, errors, 2),
    ]
    return os.posix_spawnp(command[0], command, os.environ, file_actions=actions)


def made(path, write):
    """A file that a function writes where it is not there."""
    if not path.exists():
        part = path.with_suffix(".part")
        with open(part, "wb") as file:
            write(file)
        part.rename(path)
    return path


def print_table(head, rows):
    widths = [max(len(row[i]) for row in [head, *rows]) for i in range(len(head))]
    for row in [head, ["-" * width for width in widths], *rows]:
        print("| " + " | ".join(cell.ljust(width) for cell, width in zip(row, widths)) + " |")
    print()
