#!/usr/bin/env python3
"""Looks at the line that says how far long work is: on terminals, on pipes, with --progress and without.

    python3 tests/process/progress.py -- PROGRAM

Inputs are given slowly, so that each run takes as long as the case needs. On a terminal the line is rewritten, and wiped before anything
else is written, and quick work shows none. On a pipe there is none without --progress; with it each stands in a line of its own, at most
one a second. Statuses and answers are those of a run that shows nothing. The last line is `N passed, M failed`, and the status is 1 where
something failed.
"""

import contextlib
import itertools
import os
import pty
import re
import subprocess
import threading
import time

import folders  # noqa: F401
from in_folder import end_in_folder

WIPE = "\r\x1b[K"
MET = "cc yes\ncm yes\nccv yes\n"
STALE = "cc no WriteCOInitRead\ncm no WriteCOInitRead\nccv no WriteCOInitRead\n"
MET_LINE = "cc yes; cm yes; ccv yes\n"
MEMORY = b'["memory",[[["w",0,1],["r",0,1]]]]'
STALE_MEMORY = b'["memory",[[["w",0,1],["r",0,0]]]]'
LOG = b'["begin","a",["w","x",1]]\n["end","a","ok"]\n["begin","b",["r","x"]]\n["end","b",1]\n'
SLOW = 2.6
LINE = re.compile(r"(?:[\w.]+: )?(reading|judging|explaining|checking|replaying|driving|writing): .*, (\d+) s")


class Seen:
    """What a run wrote: its status, standard output, standard error, and its seconds. Where both are one terminal, output has all."""

    def __init__(self, status, output, error, seconds):
        self.status, self.output, self.error, self.seconds = status, output, error, seconds


def plain_environment():
    """The environment, without a word on colours."""
    return {name: text for name, text in os.environ.items() if name != "NO_COLOR"}


def fed(stream, parts):
    """Writes some parts to a stream, with some seconds after each, and closes it."""
    with contextlib.suppress(BrokenPipeError), stream:
        for part, seconds in parts:
            stream.write(part)
            stream.flush()
            time.sleep(seconds)


def all_of(descriptor, kept):
    """Keeps what a terminal shows, until the program is gone."""
    with contextlib.suppress(OSError):
        while block := os.read(descriptor, 4096):
            kept.append(block)


class Terminal:
    """A terminal of its own: the end for the program, and what it showed."""

    def __init__(self):
        self.shown, self.end = pty.openpty()
        self.kept = []
        self.reader = threading.Thread(target=all_of, args=(self.shown, self.kept))
        self.reader.start()

    def text(self):
        """What was shown, once the program is gone."""
        os.close(self.end)
        self.reader.join()
        os.close(self.shown)
        return b"".join(self.kept).decode().replace("\r\n", "\n")


class Runs:
    """A program over the files of a folder."""

    def __init__(self, program, folder):
        self.program, self.folder = program, folder

    def on_pipes(self, *words, parts=()):
        """A run whose streams are pipes."""
        return self.run(words, parts, subprocess.PIPE, subprocess.PIPE)

    def run(self, words, parts, output, error):
        """A run whose input comes in parts, each with the seconds after it."""
        begun = time.monotonic()
        streams = {"stdin": subprocess.PIPE, "stdout": output, "stderr": error}
        process = subprocess.Popen([*self.program, *words], cwd=self.folder, env=plain_environment(), **streams)
        feeder = threading.Thread(target=fed, args=(process.stdin, parts))
        feeder.start()
        process.stdin = None
        outcome = process.communicate()
        feeder.join()
        texts = ["" if part is None else part.decode() for part in outcome]
        return Seen(process.returncode, *texts, time.monotonic() - begun)

    def on_terminal(self, *words, parts=()):
        """A run whose standard error is a terminal."""
        terminal = Terminal()
        seen = self.run(words, parts, subprocess.PIPE, terminal.end)
        seen.error = terminal.text()
        return seen

    def on_one_terminal(self, *words, parts=()):
        """A run whose standard output and standard error are one terminal."""
        terminal = Terminal()
        seen = self.run(words, parts, terminal.end, terminal.end)
        seen.output = terminal.text()
        return seen


def left_on(text):
    """What a terminal has in the end, which wipes a line where it is told to."""
    lines = []
    for line in text.split("\n"):
        _, mark, after = line.rpartition(WIPE)
        lines.append(after if mark else line)
    return "\n".join(lines)


def rewritten(text):
    """The lines that were shown and wiped."""
    return [part for part in re.split(r"[\n]|\r\x1b\[K", text) if LINE.fullmatch(part)]


def phases(lines):
    """What is done, by some lines, without repeats one after the other."""
    return [name for name, _ in itertools.groupby(LINE.fullmatch(line)[1] for line in lines)]


def are_seconds(lines):
    """Whether each line says more seconds than the one before it."""
    seconds = [int(LINE.fullmatch(line)[2]) for line in lines]
    return all(one < other for one, other in itertools.pairwise(seconds))


def halves(text, seconds=SLOW):
    """A text in two halves, with some seconds between."""
    middle = len(text) // 2
    return ((text[:middle], seconds), (text[middle:], 0))


def cases_of_pipes(runs):
    """On pipes."""
    seen = runs.on_pipes("judge", parts=halves(MEMORY))
    yield "nothing without the word", (seen.status, seen.output, seen.error) == (0, MET, "")
    seen = runs.on_pipes("judge", "--progress", parts=halves(MEMORY))
    lines = seen.error.splitlines()
    yield "the answer with the word", (seen.status, seen.output) == (0, MET)
    yield "lines with the word", all(LINE.fullmatch(line) for line in lines) and seen.error.endswith("\n")
    yield "a line from the start on", lines[:1] == ["reading: 0 bytes read, 0 s"]
    yield "one a second", 3 <= len(lines) <= 1 + seen.seconds and are_seconds(lines)
    yield "bytes so far", f"reading: {len(MEMORY) // 2} bytes read, 1 s" in lines
    seen = runs.on_pipes("judge", "--progress", "stale.json")
    yield "a quick answer", (seen.status, seen.output) == (0, STALE) and len(seen.error.splitlines()) <= 1 + seen.seconds
    yield "of how many", seen.error.splitlines()[:1] == [f"reading: 0 of {len(STALE_MEMORY)} bytes, 0%, 0 s"]
    seen = runs.on_pipes("check", "--progress", parts=((b"[]", 0),))
    yield "before a refusal", seen.status == 1 and seen.error.splitlines()[0] == "reading: 0 bytes read, 0 s"
    yield "the refusal", seen.error.splitlines()[-1] == "refused 2" and seen.output == ""


def cases_of_words(runs):
    """Each command takes the word, and says what it does. What it does takes no time here, so it is shown while it waits for input."""
    for words, text in (
        (("judge", "--lines"), b"\n"),
        (("check",), b""),
        (("explain",), STALE_MEMORY),
        (("explain", "--html"), STALE_MEMORY),
        (("refute",), b""),
        (("replay",), b""),
        (("drive", "causal"), b'["memory",[[["w",0,1]]]]'),
        (("events",), LOG),
        (("events", "--notes"), LOG),
    ):
        plain = runs.on_pipes(*words, parts=((text, 0),))
        seen = runs.on_pipes(*words, "--progress", parts=((text, 0),))
        first, *others = seen.error.splitlines(keepends=True)
        others = [line for line in others if not LINE.fullmatch(line.strip())]
        name = " ".join(words)
        yield f"{name}: a line", LINE.fullmatch(first.strip()) is not None
        yield f"{name}: the rest", (seen.status, seen.output, "".join(others)) == (plain.status, plain.output, plain.error)


def cases_of_terminals(runs):
    """Where standard error is a terminal."""
    seen = runs.on_terminal("judge", parts=((MEMORY, 0),))
    yield "quick work shows nothing", (seen.status, seen.output) == (0, MET) and (seen.error == "" or seen.seconds > 1)
    seen = runs.on_terminal("judge", parts=halves(MEMORY))
    lines = rewritten(seen.error)
    yield "the answer beside a terminal", (seen.status, seen.output) == (0, MET)
    yield "lines beside a terminal", len(lines) >= 3 and phases(lines)[0] == "reading"
    yield "none before a second", not any(line.endswith(", 0 s") for line in lines)
    yield "wiped", left_on(seen.error) == "" and seen.error.endswith(WIPE)
    yield "one line", "\n" not in seen.error
    seen = runs.on_terminal("judge", "--progress", parts=((MEMORY, 0),))
    yield "from the start on", rewritten(seen.error)[:1] == ["reading: 0 bytes read, 0 s"] and left_on(seen.error) == ""
    seen = runs.on_terminal("judge", "--why", parts=halves(b'["memory",[[["w",0]]]]'))
    told = left_on(seen.error)
    yield "wiped before a refusal", seen.status == 1 and told.startswith("refused 4 0.0\n") and len(rewritten(seen.error)) >= 3
    seen = runs.on_one_terminal("judge", "--color", "never", parts=halves(STALE_MEMORY))
    yield "wiped before an answer", seen.status == 0 and left_on(seen.output) == STALE and len(rewritten(seen.output)) >= 3
    parts = ((MEMORY + b"\n", SLOW), (MEMORY[:9], SLOW), (MEMORY[9:] + b"\n", SLOW))
    seen = runs.on_one_terminal("judge", "--lines", "--color=never", parts=parts)
    yield "between answers", seen.status == 0 and left_on(seen.output) == 2 * MET_LINE and phases(rewritten(seen.output)) == ["judging"]
    yield "after an answer", len(rewritten(seen.output.partition(MET_LINE)[2])) >= 3
    seen = runs.on_one_terminal("judge", "--events", "--every", "2", "--color=never", parts=halves(LOG))
    yield "between cuts", seen.status == 0 and left_on(seen.output) == f"2 {MET_LINE}4 {MET_LINE}" and len(rewritten(seen.output)) >= 3


def cases_of_files(runs):
    """Files that are named."""
    os.mkfifo(runs.folder / "slow")
    feeder = threading.Thread(target=lambda: fed(open(runs.folder / "slow", "wb"), halves(MEMORY)), daemon=True)
    feeder.start()
    seen = runs.on_terminal("judge", "stale.json", "slow")
    feeder.join(SLOW)
    wanted = "".join(f"{name}: {line}\n" for name, text in (("stale.json", STALE), ("slow", MET)) for line in text.splitlines())
    lines = rewritten(seen.error)
    yield "several files", (seen.status, seen.output, left_on(seen.error)) == (0, wanted, "")
    yield "the file's name", len(lines) >= 3 and all(line.startswith("slow: ") for line in lines)
    seen = runs.on_pipes("explain", "--html", "-o", "page.html", "--progress", "stale.json")
    yield "an answer in a file", seen.status == 0 and (runs.folder / "page.html").read_text().startswith("<!")
    seen = runs.on_pipes("explain", "-o", "folder/none/page", "--progress", "stale.json")
    yield "no such folder", seen.status == 3 and seen.error.endswith("folder/none/page: the answer can't be written there\n")


def cases(program, folder):
    """A name and an outcome for each case."""
    (folder / "stale.json").write_bytes(STALE_MEMORY)
    runs = Runs(program, folder)
    for part in (cases_of_pipes, cases_of_words, cases_of_terminals, cases_of_files):
        yield from part(runs)


if __name__ == "__main__":
    end_in_folder(__doc__, cases)
