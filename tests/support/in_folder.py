"""Runs the cases of a test in a folder of their own, and ends the process with their counts."""

import argparse
import pathlib
import tempfile

from command_words import with_program
from counting import end_after


def end_in_folder(document, cases):
    """`cases` takes the words of the program, with its whole path, and an empty folder, and yields a name and an outcome for each case."""
    given = with_program(argparse.ArgumentParser(description=document, formatter_class=argparse.RawDescriptionHelpFormatter))
    program = [str(pathlib.Path(given.program[0]).resolve()), *given.program[1:]]
    with tempfile.TemporaryDirectory() as folder:
        end_after(cases(program, pathlib.Path(folder)))
