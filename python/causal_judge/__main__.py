"""Makes logs of events for the program causal_judge.

    python3 -m causal_judge merge a.jsonl b.jsonl > run.jsonl
    python3 -m causal_judge import jepsen < history.edn > run.jsonl

What was joined, or left out, is counted on standard error. The status is 0; 1
where a file can't be read or is refused; 2 where the command line is wrong.
"""

from __future__ import annotations

import argparse
import sys
from collections import Counter
from io import TextIOWrapper
from typing import Any, BinaryIO

from causal_judge.events import line_of
from causal_judge.importers import ABOUT, FORMATS
from causal_judge.merging import merge

NOT_WHOLE = b'"the history was refused, and this is a part of it"\n'


def standard_output() -> BinaryIO:
    """The standard output, buffered also where Python was told to buffer nothing: else a write might take some bytes alone."""
    return open(sys.stdout.fileno(), "wb", closefd=False)


def merge_files(given: argparse.Namespace) -> None:
    """Joins logs, and says what was joined."""
    with standard_output() as out:
        counts = merge(given.files, out)
    print(counts, file=sys.stderr)


def import_file(given: argparse.Namespace) -> None:
    """Writes the events of a history, and says what was left out.

    Where the history is refused, what was written until then ends with a line that is no event: a part of a history is not judged.
    """
    importer = FORMATS.get(given.format)
    if importer is None:
        raise ValueError(f"there is no format {given.format}: there are {', '.join(FORMATS)}")
    left_out: Counter[str] = Counter()
    with standard_output() as out:
        try:
            for event in importer(TextIOWrapper(sys.stdin.buffer, encoding="utf-8"), left_out):
                out.write(line_of(event))
        except ValueError:
            out.write(NOT_WHOLE)
            raise
    for reason, count in left_out.items():
        print(f"left out: {count} {reason}", file=sys.stderr)


MERGING = """Joins the logs of several processes, each with clients of its own.

    python3 -m causal_judge merge a.jsonl b.jsonl > run.jsonl

A torn end of a file is dropped, and each call that is pending there is recorded
as lost. The order of the files is no order of time: judge the joined log as a
whole, without --every. So the first line of a recorder, ["order","time"], is
left out, unless there is one file alone.
"""
IMPORTING = """Writes the log of a recording that another tool made.

    python3 -m causal_judge import FORMAT < RECORDING > run.jsonl

The formats, and where such a recording comes from:

{formats}

What is left out is counted on standard error. Where a recording is refused, the
last line written is no event: so no part of it is judged. Judge the log as a
whole, without --every. A log of jepsen or porcupine begins with the line
["order","time"], as these are in the order of time; a start comes after it.
docs/importers.md says what each form becomes, and why that blames no correct
store.
"""


class Parser(argparse.ArgumentParser):
    """A parser of words whose help is a text as it stands."""

    def __init__(self, **how: Any) -> None:
        super().__init__(formatter_class=argparse.RawDescriptionHelpFormatter, **how)


def about_formats() -> str:
    """The formats of imports in words, each with the source of such recordings."""
    room = max(map(len, ABOUT)) + 2
    return "\n".join(f"  {name:{room}}{what}\n  {'':{room}}{source}" for name, (what, source) in ABOUT.items())


def parser() -> Parser:
    """What reads the words of a command line."""
    outer = Parser(prog="python3 -m causal_judge", description=__doc__)
    commands = outer.add_subparsers(required=True, title="commands", metavar="COMMAND")
    merging = commands.add_parser("merge", help="join the logs of several processes", description=MERGING)
    merging.add_argument("files", nargs="+", metavar="FILE", help="a log of events")
    merging.set_defaults(action=merge_files)
    help_on_formats = f"write the log of a recording of another tool: FORMAT is {', '.join(ABOUT)}; `import --help` says more"
    importing = commands.add_parser("import", help=help_on_formats, description=IMPORTING.format(formats=about_formats()))
    importing.add_argument("format", metavar="FORMAT", help="one of the formats above")
    importing.set_defaults(action=import_file)
    return outer


def main() -> int:
    """Does what the words say; gives the status."""
    given = parser().parse_args()
    try:
        given.action(given)
    except BrokenPipeError:
        return 1
    except (OSError, ValueError) as error:
        print(f"refused: {error}", file=sys.stderr)
        return 1
    return 0


if __name__ == "__main__":
    sys.exit(main())
