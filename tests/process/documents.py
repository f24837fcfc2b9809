#!/usr/bin/env python3
"""Runs the commands that the documents show, and the files of examples/, on a program, and compares what it writes.

    python3 tests/process/documents.py [--long] [--root DIR] [--page PAGE] -- PROGRAM
    python3 tests/process/documents.py --installs NAME      prints the commands of README.md that install this package, and runs nothing

A command stands in README.md, in a page of docs/ or embed/, or in a page of examples/, in an indented block, behind `$ `. It is run by
bash in a copy of the repository whose crates/causal_judge/out/ has the program, and which finds it as `causal_judge`. What it writes to
both outputs has to be the lines that follow in the block, up to the next `$ `. The commands of one page are run in turn in one copy.
Lines that begin with `> ` right after a command belong to it, as those of a here-document.

    ...                                          in a block: any lines, or none
    <!-- not run: it needs Hadoop -->            before a block: its commands are left out
    <!-- installs: deb -->                       before a block: left out here, and run by release/test.sh
    <!-- long, any kind: threads take turns -->  before a block: run with --long alone, and `no KIND` stands for a no of any kind

Each link of a page leads to a file that is there, and README.md has at most 1,500 words. The pages of a package, with the library for C and
without it, name no file and no library that the package lacks. The commands that the program's own help shows,
that of each command too, are run in the same way.

The files of examples/ are judged, explained, checked, refuted, replayed and driven; those that end in .jsonl are logs of events. What is
said of them is below, or in the file of the same name that ends in .txt, or in the picture of that name in docs/. A file of which nothing is
said is a failure, and so is one in a folder of examples/ that no command of the README.md beside it names, of those that are run.
"""

import argparse
import json
import os
import pathlib
import re
import shutil
import subprocess
import sys
import tempfile
from typing import NamedTuple

import folders  # noqa: F401
import driven
import packed_pages
import plain_events
from command_words import STORES, order_of, with_program
from counting import end
from reading import read_driven

ROOT = pathlib.Path(__file__).resolve().parents[2]
PAGES = ("README.md", "docs/*.md", "embed/*.md", "examples/**/*.md")
BUILT = pathlib.Path("crates", "causal_judge", "out", "causal_judge")
MARK = re.compile(r"<!-- (not run|installs|long, any kind): (.*) -->")
MOST_WORDS = 1_500
COMMAND = re.compile(r"( {4,})\$ (.*)")
LEFT_OUT = ("not run", "installs")
PATH = re.compile(r"[\w./-]+")
MADE = ("out", "__pycache__")
KIND = re.compile(r"(?<= no )[A-Z]\w+")
SECONDS = 300
HELPED = ("judge", "check", "explain", "refute", "replay", "drive", "events")

# Of each file of examples/: the words of a command line, its lines, and its status where it is not 0.
YES, INITIAL, STALE, THIN = ("yes",) * 3, ("no WriteCOInitRead",) * 3, ("no WriteCORead",) * 3, ("no ThinAirRead",) * 3
JUDGED = {
    "healthy_run": YES,
    "diverging_replicas": ("yes", "yes", "no CyclicCF"),
    "lost_write": INITIAL,
    "missing_post": INITIAL,
    "stale_read": STALE,
    "thin_air_read": THIN,
    "explained_stale_read": STALE,
    "explained_own_write": ("yes", "no CyclicHB", "no CyclicCF"),
    "explained_repeated_value": ("unknown 2.2", "unknown", "unknown"),
    "explained_counter": ("unknown 1.0",) * 3,
}
SAID = {
    "checked_run": ("check", "cc yes"),
    "refuted_run": ("refute", "cc no WriteCORead"),
    "open_call": (
        "replay",
        "ok 0.0;ok 1.0;ok 1.0;ok 0;none;seen;none;seen;none;none;ok 0.0;"
        '["memory",[[["w",0,1,"?"]],[["r",0,1]]]];ok 0;verdict 0 explained;ok;verdict 1 explained;ok;yes',
    ),
    "repeated_verdict": (
        "replay",
        "ok 0.0;ok 0.0;ok 1.0;ok 1.0;ok 0;seen;none;seen;none;none;none;ok 0;ok 1;take 0 0.0;verdict 0 explained;verdict 1 explained;"
        "ok;refused 24;refused 25;open 1;verdict 2 explained;ok;yes;ok;open 1",
    ),
}
DRIVEN = ("many_clients",)
LOGGED = {
    "events_lost_write": (INITIAL, ""),
    "events_missing_post": (INITIAL, ""),
    "events_deletes": (STALE, ""),
    "events_vanished": (INITIAL, ""),
    "events_torn": (YES, plain_events.NOT_WHOLE),
}


class Command(NamedTuple):
    """A command of a page, the lines that it has to write, and the mark before its block."""

    place: str
    text: str
    wanted: list
    mark: str
    why: str


def commands_of(page, name):
    """The commands that a page shows, in order."""
    lines = page.read_text(encoding="utf-8").split("\n")
    mark, at = ("", ""), 0
    while at < len(lines):
        found = COMMAND.fullmatch(lines[at])
        if not found:
            if lines[at].strip() and not lines[at].startswith("    "):
                told = MARK.fullmatch(lines[at].strip())
                mark = told.groups() if told else ("", "")
            at += 1
            continue
        first, text, at = at, found[2], at + 1
        while text.endswith("\\"):
            text, at = f"{text}\n{lines[at].strip()}", at + 1
        while at < len(lines) and lines[at].startswith(f"{found[1]}> "):
            text, at = f"{text}\n{lines[at].removeprefix(f'{found[1]}> ')}", at + 1
        wanted = []
        while at < len(lines) and not COMMAND.fullmatch(lines[at]) and (lines[at].startswith(found[1]) or not lines[at].strip()):
            wanted.append(lines[at].removeprefix(found[1]))
            at += 1
        yield Command(f"{name}:{first + 1}", text, "\n".join(wanted).rstrip().split("\n"), *mark)


def is_written(wanted, found):
    """Whether the lines found are those that are wanted, where `...` stands for any lines."""
    if not wanted:
        return not found
    if wanted[0].strip() == "...":
        return any(is_written(wanted[1:], found[at:]) for at in range(len(found) + 1))
    return bool(found) and wanted[0] == found[0] and is_written(wanted[1:], found[1:])


def copy_of(root, program, folder):
    """A copy of the repository without its crates, with the program in its place, and the environment that finds it."""
    left_out = shutil.ignore_patterns(".git", "crates", "out", "__pycache__")
    shutil.copytree(root, folder / "copy", ignore=left_out)
    built, named = folder / "copy" / BUILT, folder / "bin" / "causal_judge"
    for path in (built, named):
        path.parent.mkdir(parents=True)
        path.symlink_to(pathlib.Path(program).resolve())
    return folder / "copy", {**os.environ, "PATH": f"{named.parent}:{os.environ['PATH']}", "PYTHONDONTWRITEBYTECODE": "1"}


def written_by(command, folder, environment):
    """The lines that a command writes to both outputs."""
    how = {"cwd": folder, "env": environment, "stdin": subprocess.DEVNULL, "stdout": subprocess.PIPE, "stderr": subprocess.STDOUT}
    try:
        done = subprocess.run(["bash", "-c", command.text], check=False, timeout=SECONDS, **how)
    except subprocess.TimeoutExpired:
        return [f"no end within {SECONDS} seconds"]
    return done.stdout.decode(errors="replace").rstrip().split("\n")


def fault_of(command, folder, environment):
    """What is wrong with what a command writes, in lines; none where it is as wanted."""
    found, wanted = written_by(command, folder, environment), command.wanted
    if command.mark:
        found, wanted = ([KIND.sub("KIND", line) for line in lines] for lines in (found, wanted))
    if is_written(wanted, found):
        return []
    return [f"{command.place}: {command.text}", *(f"    - {line}" for line in wanted), *(f"    + {line}" for line in found[:40])]


def try_page(page, given, folder):
    """The faults of each command of a page that is run."""
    copy, environment = copy_of(given.root, given.program[0], folder)
    for command in commands_of(page, str(page.relative_to(given.root))):
        if command.mark in LEFT_OUT or command.mark and not given.long:
            print(f"{command.place}: left out: {command.why}")
        else:
            yield fault_of(command, copy, environment)


def told_by(page, given):
    """The faults of what a page is: a link that leads nowhere, or more words than README.md may have."""
    text = page.read_text(encoding="utf-8")
    lost = [link for link in packed_pages.LINK.findall(text) if not (page.parent / link).exists()]
    yield [f"{page.relative_to(given.root)}: no file {link}" for link in lost]
    if page == given.root / "README.md":
        yield [f"README.md has {len(text.split())} words"] if len(text.split()) > MOST_WORDS else []


def try_pages(given):
    """The faults of each command that is run, page by page."""
    for page in sorted({page for pattern in given.page or PAGES for page in given.root.glob(pattern)}):
        if not any(part in MADE for part in page.parts):
            yield from told_by(page, given)
            with tempfile.TemporaryDirectory() as room:
                yield from try_page(page, given, pathlib.Path(room))


def packed_by(given):
    """The faults of the pages that a package has, without the library for C and with it."""
    for words in ((), ("--library",)):
        with tempfile.TemporaryDirectory() as room:
            copy, folder = copy_of(given.root, given.program[0], pathlib.Path(room, "run"))[0], pathlib.Path(room, "pages")
            packed_pages.written(copy, folder, *words)
            names = [*packed_pages.files_below(folder), *packed_pages.MADE]
            yield list(packed_pages.faults_of(packed_pages.pages_below(folder), names, packed_pages.files_below(copy), bool(words)))


def try_helps(given):
    """The faults of each command that the help shows."""
    for command in ("", *HELPED):
        words = [*given.program, *command.split(), "--help"]
        text = subprocess.run(words, capture_output=True, check=False, text=True, timeout=SECONDS).stdout
        with tempfile.TemporaryDirectory() as room:
            page = pathlib.Path(room, f"help {command}".strip())
            page.write_text("".join(f"  {line}\n" for line in text.splitlines()), encoding="utf-8")
            copy, environment = copy_of(given.root, given.program[0], pathlib.Path(room, "run"))
            (copy / "run.json").write_text('["memory",[[["w",0,1],["r",0,0]]]]\n', encoding="ascii")
            shown = list(commands_of(page, page.name))
            yield [] if shown else [f"{page.name}: no command is shown"]
            yield from (fault_of(one, copy, environment) for one in shown)


def outcome(program, words, path):
    """The status and both outputs of a run over a file."""
    done = subprocess.run([*program, *words], input=path.read_bytes(), capture_output=True, check=False, timeout=SECONDS)
    return done.returncode, done.stdout.decode(), done.stderr.decode()


def report_of(words):
    """The three lines in which these words stand for the criteria."""
    return "".join(f"{criterion} {word}\n" for criterion, word in zip(("cc", "cm", "ccv"), words))


def shown_beside(path):
    """The command lines that explain a file of examples/, with the text or the picture that is kept of it, where there is one."""
    for words, shown in ((["explain"], path.with_suffix(".txt")), (["explain", "--svg"], path.parent.parent / "docs" / f"{path.stem}.svg")):
        if shown.is_file():
            yield words, shown.read_text(encoding="utf-8")


def wanted_of_log(path):
    """The command lines for a log of events in examples/, with what is written to both outputs."""
    if path.stem in LOGGED:
        words, errors = LOGGED[path.stem]
        yield ["judge", "--long", "--events"], report_of(words), errors
        found = plain_events.read_log(path.read_bytes())
        yield ["events"], plain_events.text_of(plain_events.history_of(found.events, found.is_timed)), errors
        for words, shown in shown_beside(path):
            yield [words[0], "--long", "--events", *words[1:]], shown, errors


def wanted_of(path):
    """The command lines for a file of examples/ whose answer is known, with that answer."""
    name = path.stem
    if name in SAID:
        command, lines = SAID[name]
        yield command.split(), lines.replace(";", "\n") + "\n"
    if name in JUDGED:
        yield from ((["judge", "--workers", str(workers)], report_of(JUDGED[name])) for workers in (1, 2, 16))
    yield from shown_beside(path)


def runs_of(given):
    """The faults of each run over a file of examples/."""
    for path in sorted((given.root / "examples").glob("*.json*")):
        is_known = False
        for words, wanted, *errors in wanted_of_log(path) if path.suffix == ".jsonl" else wanted_of(path):
            is_known, found, due = True, outcome(given.program, words, path), (0, wanted, *(errors or [""]))
            yield [] if found == due else [f"{' '.join(words)} < examples/{path.name}: {found!r}, wanted {due!r}"]
        for store in STORES if path.stem in DRIVEN else ():
            is_known, words = True, ["drive", store]
            status, text, error = outcome(given.program, words, path)
            asked = read_driven(json.dumps(json.loads(path.read_text())).encode())
            faults = driven.faults(given.program, order_of(words), asked, text) if (status, error) == (0, "") else [status, error]
            yield [f"{' '.join(words)} < examples/{path.name}: {faults}"] if faults else []
        if not is_known:
            yield [f"examples/{path.name}: nothing is said of it"]


def named_by(page, name):
    """The paths in the commands of a page that are run; none where the page is not there."""
    commands = commands_of(page, name) if page.is_file() else ()
    return {path for command in commands if command.mark not in LEFT_OUT for path in PATH.findall(command.text)}


def folders_of(given):
    """The faults of each file of data in a folder of examples/: one that no command beside it names."""
    for path in sorted((given.root / "examples").glob("*/**/*.json*")):
        name = path.relative_to(given.root)
        if path.suffix in (".json", ".jsonl") and not any(part in MADE for part in name.parts):
            page = path.with_name("README.md")
            is_named = str(name) in named_by(page, str(page.relative_to(given.root)))
            yield [] if is_named else [f"{name}: no command of a README.md beside it names it"]


def show_installing(package):
    """Prints the commands of README.md that install a package."""
    commands = commands_of(ROOT / "README.md", "README.md")
    found = [command.text for command in commands if (command.mark, command.why) == ("installs", package)]
    if not found:
        sys.exit(f"README.md does not say how to install {package}")
    print(*found, sep="\n")


def main():
    parser = argparse.ArgumentParser(description=__doc__, formatter_class=argparse.RawDescriptionHelpFormatter)
    parser.add_argument("--long", action="store_true")
    parser.add_argument("--root", type=pathlib.Path, default=ROOT)
    parser.add_argument("--page", action="append", help="runs this page alone, and no files of examples/")
    if sys.argv[1:2] == ["--installs"]:
        show_installing(sys.argv[2])
        return
    given = with_program(parser)
    passed = failed = 0
    for faults in (*try_pages(given), *(() if given.page else (*packed_by(given), *try_helps(given), *runs_of(given), *folders_of(given)))):
        passed, failed = passed + (not faults), failed + bool(faults)
        if faults:
            print(*faults, sep="\n", flush=True)
    end(passed, failed)


if __name__ == "__main__":
    main()
