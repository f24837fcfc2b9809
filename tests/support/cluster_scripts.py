"""Runs a script of examples/cluster for its test: in a folder of its own, as an ordinary user if need be, over programs that give trouble.

What a script started is found by its folder, which stands in the words of each such process.
"""

import contextlib
import os
import pathlib
import pwd
import shutil
import signal
import subprocess
import time
from typing import NamedTuple

EXAMPLE = pathlib.Path(__file__).resolve().parents[2] / "examples" / "cluster"
PYTHON = "/usr/bin/python3"
START_SECONDS, END_SECONDS, LOOK_SECONDS = 60, 20, 0.05
USER, FIRST_ID, MANY_IDS = "judges", 20_000, 1_000
AS_USER = 'mount --bind "$0" /etc/passwd && number=$1 && shift && exec setpriv --reuid="$number" --regid="$number" --clear-groups "$@"'
FLAKY = """#!/bin/sh
cat > "{room}/given.$$"
mkdir "{room}/seen.$(cksum < "{room}/given.$$" | tr ' ' .)" 2> /dev/null && kill -KILL $$
exec "{program}" "$@" < "{room}/given.$$"
"""
DEADLY = """#!/bin/sh
cat > "{room}/given.$$"
grep -q 7777777 "{room}/given.$$" && grep -q dask_worker "/proc/$PPID/cmdline" && kill -KILL "$PPID"
exec "{program}" "$@" < "{room}/given.$$"
"""
SLOW = """#!/bin/sh
sleep 3
exec "{program}" "$@"
"""


class Ended(NamedTuple):
    """How a script ended: its status, what it wrote to both outputs, and the answers."""

    status: int
    text: str
    answers: list


class Script:
    """A script of the example in a folder with all that it needs, and the words that start a command as its user."""

    def __init__(self, name, program, room):
        self.name, self.prefix = name, []
        self.room, self.files = room, room / "files"
        self.files.mkdir(parents=True)
        self.program = shutil.copy(program, room / "causal_judge")
        self.example = shutil.copytree(EXAMPLE, room / "example", ignore=shutil.ignore_patterns("__pycache__"))
        self.environment = {**os.environ, "TMPDIR": str(self.files), "HOME": str(self.files), "PYTHONDONTWRITEBYTECODE": "1"}

    def started(self, program, words):
        """The script as a process of a group of its own."""
        command = [*self.prefix, PYTHON, self.example / f"{self.name}.py", program, *words]
        how = {"env": self.environment, "stdin": subprocess.DEVNULL, "stdout": subprocess.PIPE, "stderr": subprocess.STDOUT}
        return subprocess.Popen(list(map(str, command)), cwd=self.room, text=True, errors="replace", start_new_session=True, **how)

    def run(self, program, words, seconds):
        """Runs the script to its end."""
        answers = self.files / "answers"
        process = self.started(program, [*words, "--answers", answers])
        try:
            text = process.communicate(timeout=seconds)[0]
        except subprocess.TimeoutExpired:
            text = f"no end within {seconds} seconds"
        finally:
            end_group(process)
        lines = answers.read_text(errors="replace").split("\n")[:-1] if answers.is_file() else []
        answers.unlink(missing_ok=True)
        return Ended(process.returncode, text, lines)

    def shell(self, name, text):
        """A program that is a shell script."""
        path = self.room / name
        path.write_text(text.format(program=self.program, room=self.files))
        path.chmod(0o755)
        return path


def end_group(process):
    """Ends a process, and what is left of its group."""
    with contextlib.suppress(ProcessLookupError):
        os.killpg(process.pid, signal.SIGKILL)
    process.wait()


def processes_of(script):
    """The processes whose words name the folder of a script."""
    found = {}
    for path in pathlib.Path("/proc").glob("[0-9]*/cmdline"):
        with contextlib.suppress(OSError):
            words = path.read_bytes()
            found.update({int(path.parent.name): words} if str(script.room).encode() in words else {})
    return found


def gone(script):
    """What is left of a script that ended, after some time if need be: processes, and folders of its own or of Dask."""
    until = time.monotonic() + END_SECONDS
    while (left := [*processes_of(script).values(), *folders_of(script)]) and time.monotonic() < until:
        time.sleep(LOOK_SECONDS)
    return left


def folders_of(script):
    """The temporary folders that a script made."""
    return [path for path in script.files.iterdir() if path.is_dir() and path.name.startswith(("cluster-", "dask-"))]


def is_started(*words):
    """Whether a command starts, and ends well."""
    try:
        done = subprocess.run(list(map(str, words)), stdin=subprocess.DEVNULL, capture_output=True, check=False, timeout=START_SECONDS)
    except OSError:
        return False
    return done.returncode == 0


def free_id():
    """A number that no user has."""
    taken = {entry.pw_uid for entry in pwd.getpwall()}
    return next(number for number in range(FIRST_ID, FIRST_ID + MANY_IDS) if number not in taken)


def ordinary_user(room):
    """The words that start a command as an ordinary user, who owns the folder. No other process sees that there is such a user."""
    if os.geteuid() != 0:
        return []
    number, users = free_id(), room / "passwd"
    users.write_text(f"{pathlib.Path('/etc/passwd').read_text()}{USER}:x:{number}:{number}::{room / 'files'}:/bin/sh\n")
    os.chown(room / "files", number, number)
    return ["unshare", "--mount", "sh", "-c", AS_USER, users, number]


def has_shell():
    """Whether this user may log in."""
    return pathlib.Path(pwd.getpwuid(os.geteuid()).pw_shell).name not in ("nologin", "false")
