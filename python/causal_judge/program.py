"""Finds the program causal_judge, and runs it over a log."""

from __future__ import annotations

import os
import pathlib
import shutil
import subprocess
import sysconfig

NAME = "causal_judge"
NAMED_BY = "CAUSAL_JUDGE"
HOW_TO_GET_IT = (
    f"Install a package of a release of {NAME}, as the section Install of its README says, so that the program is on PATH or in the"
    f" environment of this package; or name it by {NAMED_BY}=/path/to/{NAME}."
)


class ProgramMissing(RuntimeError):
    """There is no program to judge by. The message says how to get it."""


class Refused(ValueError):
    """The program refused a log: the message is what it said, with the number of the line and what is wrong there."""


def find_program(program: str | os.PathLike[str] | None = None) -> str:
    """The whole path of the program: that which is given, else that which CAUSAL_JUDGE names, else one next to the package or on PATH.

    Next to the package is its folder, and the folder for programs of the environment. Raises ProgramMissing where there is none, also
    where one is named that is not there.
    """
    named = os.fspath(program) if program is not None else os.environ.get(NAMED_BY)
    if named:
        found = shutil.which(named)
        if found is None:
            raise ProgramMissing(f"there is no program {named}{'' if program else f', which {NAMED_BY} names'}. {HOW_TO_GET_IT}")
        return os.path.abspath(found)
    for folder in (*_near_folders(), None):
        found = shutil.which(NAME, path=folder)
        if found is not None:
            return os.path.abspath(found)
    raise ProgramMissing(f"the program {NAME} is missing. {HOW_TO_GET_IT}")


def run_program(program: str, words: list[str], log: pathlib.Path, timeout: float | None) -> str:
    """What the program writes of a log.

    Raises Refused where it refuses the log, TimeoutError where it takes longer than this many seconds, RuntimeError where it ends
    otherwise, and OSError where the log can't be opened or the program can't be run.
    """
    with open(log, "rb") as stream:
        try:
            done = subprocess.run([program, *words], stdin=stream, capture_output=True, check=False, timeout=timeout)
        except subprocess.TimeoutExpired:
            raise TimeoutError(f"{program} {' '.join(words)} took more than {timeout} seconds for {log}") from None
    said = done.stderr.decode(errors="replace").strip()
    if done.returncode == 0:
        return done.stdout.decode(errors="replace")
    if said.startswith("refused "):
        raise Refused(f"{log}: {said}")
    raise RuntimeError(f"{program} {' '.join(words)} ended with status {done.returncode} for {log}: {said}")


def _near_folders() -> list[str]:
    """The folder of the package, and the folders for programs of the environment and of the user."""
    folders = [str(pathlib.Path(__file__).resolve().parent), sysconfig.get_path("scripts")]
    user = sysconfig.get_preferred_scheme("user")
    return [*folders, sysconfig.get_path("scripts", user)]
