#!/usr/bin/env python3
"""Runs a program on files that its words name, and compares the status and both outputs byte for byte.

    python3 tests/process/file_operands.py -- PROGRAM

It tries one file and several, the form that is found of each, standard input as `-`, pipes, files that are not there, folders, answers that
go to a file, writes that begin too late in a log, colours, and how much a run asks. The last line is `N passed, M failed`, and the status
is 1 where something failed.
"""

import os
import pathlib
import subprocess
import threading

import folders  # noqa: F401
from in_folder import end_in_folder

ROOT = pathlib.Path(__file__).resolve().parents[2]
MET = "cc yes\ncm yes\nccv yes\n"
STALE = "cc no WriteCOInitRead\ncm no WriteCOInitRead\nccv no WriteCOInitRead\n"
LOG = b'["begin","a",["w","x",1]]\n["end","a","ok"]\n["begin","b",["r","x"]]\n["end","b",1]\n'
STALE_LOG = b'["begin","a",["w","x",1]]\n["end","a","ok"]\n["begin","a",["r","x"]]\n["end","a",null]\n'
LATE_LOG = b'["begin","b",["r","x"]]\n["end","b",2]\n["begin","a",["w","x",2]]\n["end","a","ok"]\n'
STALE_MEMORY = b'["memory",[[["w",0,1],["r",0,0]]]]'
MANY_SESSIONS = b'["memory",[' + b",".join(b'[["w",%d,1]]' % session for session in range(20)) + b"]]"
COUNTER = b'["counter",[[["inc"],["get",1]]]]'
SOURCES = ", reads that found nothing at deleted keys: with one possible source {}, several {}, none {}\n"
FILES = {
    "log.jsonl": LOG,
    "stale.jsonl": STALE_LOG,
    "late.jsonl": LATE_LOG,
    "late_refused.jsonl": LATE_LOG + b'["end","a","ok"]\n' + LATE_LOG.replace(b"2", b"3"),
    "refused_late.jsonl": LATE_LOG.replace(b'["begin","a"', b'["end","a","ok"]\n["begin","a"'),
    "late_torn.jsonl": LATE_LOG + b'["begin","a"',
    "spaced.jsonl": b' \n\t[ "begin" , "a",["w","x",1]]\n["end","a","ok"]\n',
    "started.jsonl": b'["start","x",7]\n' + LOG,
    "memory.json": b'["memory",[[["w",0,1]]]]',
    "stale.json": STALE_MEMORY,
    "many.json": MANY_SESSIONS,
    "counter.json": COUNTER,
    "plain.txt": b"no JSON at all\n",
    "empty": b"",
    "open_text.json": b'["mem',
    "lines.jsonl": b'["memory",[[["w",0,1]]]]\n' + STALE_MEMORY + b"\n",
    "claim.json": b"[" + STALE_MEMORY + b',"cc",["WriteCOInitRead",[[0,0],[0,1]]]]',
    "asked.jsonl": b'["begin","a",["d","x"]]\n["end","a","ok"]\n["begin","a",["r","x"]]\n["end","a",null]\n',
    "lacking.jsonl": b'["begin","a",["d","x"]]\n["end","a","ok"]\n["begin","a",["w","x",1]]\n["end","a","ok"]\n'
    b'["begin","a",["r","x"]]\n["end","a",null]\n',
    "timed.jsonl": b'["order","time"]\n["begin","a",["r","x"]]\n["end","a",null]\n["begin","b",["d","x"]]\n["end","b","ok"]\n',
    "deletes.jsonl": b'["begin","a",["d","x"]]\n["end","a","ok"]\n["begin","b",["r","x"]]\n["end","b",null]\n'
    b'["begin","b",["w","y",1]]\n["lost","b"]\n["begin","b",["w","y",1]]\n["fail","b"]\n',
    "causal": STALE_MEMORY,
    "two words.json": b'["memory",[]]',
}


class Runs:
    """A program over the files of a folder."""

    def __init__(self, program, folder):
        self.program, self.folder = program, folder

    def said(self, *words, given=b"", **environment):
        """The status of a run, and what it wrote."""
        plain = {name: text for name, text in os.environ.items() if name != "NO_COLOR"}
        done = subprocess.run(
            [*self.program, *words], cwd=self.folder, input=given, capture_output=True, check=False, env={**plain, **environment}
        )
        return done.returncode, done.stdout.decode(), done.stderr.decode()

    def content(self, name):
        """What a file of the folder has; none where it is not there."""
        path = self.folder / name
        return path.read_bytes() if path.is_file() else None


def labelled(name, text):
    """A text with the name of a file before each line."""
    return "".join(f"{name}: {line}\n" for line in text.splitlines())


def cases_of_forms(runs):
    """The form of a file is found."""
    for name in ("log.jsonl", "spaced.jsonl", "memory.json", "many.json", "counter.json", "two words.json"):
        yield f"judge {name}", runs.said("judge", name) == (0, MET, "")
        yield f"judge - of {name}", runs.said("judge", "-", given=runs.content(name)) == (0, MET, "")
    for name in ("stale.jsonl", "stale.json", "./causal"):
        yield f"judge {name}", runs.said("judge", name) == (0, STALE, "")
        yield f"judge {name} --expect", runs.said("judge", name, "--expect", "cc") == (5, STALE, "")
    yield "a value before the first call", runs.said("judge", "started.jsonl") == (0, MET, "")
    yield "many sessions on standard input", runs.said("judge", given=MANY_SESSIONS) == (1, "", "refused 6\n")
    yield "a log on standard input", runs.said("judge", given=LOG) == (1, "", "refused 1\n")
    yield "a log by its word", runs.said("judge", "--events", given=STALE_LOG) == (0, STALE, "")
    yield "a file by its word", runs.said("judge", "--events", "stale.jsonl") == (0, STALE, "")
    yield "every of a file", runs.said("judge", "--every", "2", "log.jsonl")[:2] == (0, runs.said("judge", "--events", "--every", "2", given=LOG)[1])
    yield "every of a history", runs.said("judge", "--every", "2", "memory.json")[0] == 2
    yield "lines of a file", runs.said("judge", "--lines", "lines.jsonl") == runs.said("judge", "--lines", given=runs.content("lines.jsonl"))
    yield "a claim", runs.said("refute", "claim.json") == (0, "cc no WriteCOInitRead\n", "")
    yield "the history of a log", runs.said("events", "log.jsonl") == (0, '["memory",[[["w",0,1]],[["r",0,1]]]]\n', "")
    for words in ((), ("--json",), ("--svg",), ("--html",), ("--all", "3")):
        wanted = runs.said("explain", "--events", *words, given=STALE_LOG)
        yield f"explain {words} of a log", wanted[0] == 0 and runs.said("explain", *words, "stale.jsonl") == wanted
        wanted = runs.said("explain", "--long", *words, given=STALE_MEMORY)
        yield f"explain {words} of a memory", wanted[0] == 0 and runs.said("explain", *words, "stale.json") == wanted
    wanted = runs.said("explain", "--json", "--certificates", given=runs.content("memory.json"))
    yield "certificates", wanted[0] == 0 and runs.said("explain", "--json", "--certificates", "memory.json") == wanted


def cases_of_refusals(runs):
    """Files that are refused, with the reason, and files that can't be read."""
    for name in ("plain.txt", "empty", "open_text.json"):
        wanted = runs.said("judge", "--why", given=runs.content(name))
        yield f"judge {name}", wanted[0] == 1 and wanted[2].count("\n") == 2 and runs.said("judge", name) == wanted
    yield "no such file", runs.said("judge", "none.json") == (3, "", "none.json: there is no such file\n")
    yield "a folder", runs.said("judge", "folder") == (3, "", "folder: it is a folder\n")
    yield "no word at all", runs.said("judge", "")[0] == 2
    yield "a wrong option", runs.said("judge", "--wrong", "none.json")[0] == 2
    yield "no store", runs.said("drive", "memory.json")[0] == 2
    yield "a store and a file", runs.said("drive", "causal", "memory.json")[:2] == (0, '["memory",[[["w",0,1]]]]\n' + MET)


def cases_of_several(runs):
    """Several files: each line has its file's name, and the status is the worst."""
    both = labelled("memory.json", MET) + labelled("stale.jsonl", STALE)
    yield "two files", runs.said("judge", "memory.json", "stale.jsonl") == (0, both, "")
    yield "an option between", runs.said("judge", "memory.json", "--workers", "2", "stale.jsonl") == (0, both, "")
    yield "expected", runs.said("judge", "--expect", "cc", "memory.json", "stale.jsonl")[0] == 5
    yield "the worst first", runs.said("judge", "--expect", "cc", "stale.jsonl", "memory.json")[0] == 5
    yield "one is missing", runs.said("judge", "none", "memory.json") == (3, labelled("memory.json", MET), "none: there is no such file\n")
    status, output, errors = runs.said("judge", "memory.json", "plain.txt", "stale.json")
    yield "one is refused", (status, output) == (1, labelled("memory.json", MET) + labelled("stale.json", STALE))
    yield "the refusal is named", errors.startswith("plain.txt: refused 1\nplain.txt: ")
    yield "standard input among them", runs.said("judge", "-", "memory.json", given=LOG)[1] == labelled("-", MET) + labelled("memory.json", MET)
    yield "a page of two", runs.said("explain", "--html", "memory.json", "stale.json")[:2] == (2, "")
    yield "two answers to a file", runs.said("explain", "-o", "out", "memory.json", "stale.json")[:2] == (2, "")
    names = ["memory.json"] * 3000
    yield "3,000 files", runs.said("judge", *names) == (0, labelled("memory.json", MET) * 3000, "")


def cases_of_answers(runs):
    """Answers that go to a file: a whole one or none."""
    wanted = runs.said("explain", "--html", "stale.jsonl")[1].encode()
    yield "a page in a file", runs.said("explain", "--html", "-o", "page.html", "stale.jsonl") == (0, "", "") and runs.content("page.html") == wanted
    yield "it is written over", runs.said("explain", "stale.json", "-o", "page.html")[0] == 0 and runs.content("page.html").startswith(b"cc no")
    yield "by one word", runs.said("explain", "stale.json", "-o=other.txt")[0] == 0 and runs.content("other.txt") == runs.content("page.html")
    before = runs.content("page.html")
    yield "a refused input leaves it", runs.said("explain", "-o", "page.html", "plain.txt")[0] == 1 and runs.content("page.html") == before
    yield "no folder", runs.said("explain", "-o", "no/page.html", "stale.json") == (3, "", "no/page.html: the answer can't be written there\n")
    yield "nothing is left over", not list(runs.folder.rglob("*.part"))
    (runs.folder / "link.html").symlink_to("page.html")
    yield "a link stays", runs.said("explain", "--svg", "-o", "link.html", "stale.json")[0] == 0 and (runs.folder / "link.html").is_symlink()
    yield "its file is written", runs.content("page.html").startswith(b"<svg")
    yield "a device stays", runs.said("explain", "-o", "/dev/null", "stale.json")[0] == 0 and not pathlib.Path("/dev/null").is_file()
    yield "from standard input", runs.said("explain", "-o", "piped.txt", given=STALE_MEMORY)[0] == 0 and runs.content("piped.txt").startswith(b"cc no")
    yield "judge has none", runs.said("judge", "-o", "x", "stale.json")[0] == 2


def cases_of_pipes(runs):
    """A named pipe is read once."""
    path = runs.folder / "pipe"
    os.mkfifo(path)
    for name, text, wanted in (("a log", STALE_LOG, STALE), ("a history", STALE_MEMORY, STALE)):
        writer = threading.Thread(target=path.write_bytes, args=(text,))
        writer.start()
        yield f"{name} through a pipe", runs.said("judge", "pipe") == (0, wanted, "")
        writer.join()


def cases_of_late_writes(runs):
    """A log in a file is read on after the judging ended, to find a write that begins too late; what is refused there is passed over."""
    ended = "2 cc no ThinAirRead; cm no ThinAirRead; ccv no ThinAirRead\n"
    hint = "the last line begins with a number of events: head -n NUMBER FILE | causal_judge explain - says why\n"
    late = "line 1 reads a value whose write begins on line 3: this log is not in the order of time\n"
    words = ("judge", "--every", "2", "--expect", "cc")
    for name in ("late.jsonl", "late_refused.jsonl", "late_torn.jsonl"):
        yield f"{name} is read on", runs.said(*words, name) == (5, ended, hint + late)
    yield "the write comes after a refused line", runs.said(*words, "refused_late.jsonl") == (5, ended, hint)
    yield "standard input is not read on", runs.said(*words, "-", given=LATE_LOG) == (5, ended, hint)
    status, output, errors = runs.said(*words, "late.jsonl", "log.jsonl")
    yield "late among several", (status, errors) == (5, labelled("late.jsonl", hint + late)) and output.startswith(labelled("late.jsonl", ended))
    path = runs.folder / "growing"
    os.mkfifo(path)
    is_over = threading.Event()

    def grow():
        """Writes a log, and leaves it open until the judge has ended."""
        with path.open("wb") as log:
            log.write(LATE_LOG)
            log.flush()
            is_over.wait(60)

    writer = threading.Thread(target=grow)
    writer.start()
    yield "a pipe is not read on", runs.said(*words, "growing") == (5, ended, hint) and not is_over.is_set()
    is_over.set()
    writer.join()


def cases_of_colors(runs):
    """The words of answers are coloured where that is asked for."""
    red, green = "\x1b[31mno\x1b[0m", "\x1b[32myes\x1b[0m"
    painted = STALE.replace("no", red)
    yield "always", runs.said("judge", "--color", "always", "stale.json") == (0, painted, "")
    yield "always and NO_COLOR", runs.said("judge", "--color=always", "stale.json", NO_COLOR="1") == (0, painted, "")
    yield "never", runs.said("judge", "--color", "never", "stale.json") == (0, STALE, "")
    yield "no terminal", runs.said("judge", "--color", "auto", "stale.json") == (0, STALE, "")
    yield "lines", runs.said("judge", "--lines", "--color", "always", "lines.jsonl")[1].startswith(f"cc {green}; cm {green}; ccv {green}\ncc {red} Write")
    yield "several", runs.said("judge", "--color", "always", "memory.json", "stale.json")[1].startswith(f"memory.json: cc {green}\n")
    yield "words of operations stay", runs.said("explain", "--color", "always", "stale.json")[1].count("\x1b") == 6
    yield "another word", runs.said("judge", "--color", "red", "stale.json")[0] == 2


def cases_of_counts(runs):
    """How much a run asks."""
    line = "clients 2, calls 2, writes 1, reads answered 1, lost 0, failed 0, reads that ask nothing 0, keys 1, values that repeat 0\n"
    yield "summary of a log", runs.said("judge", "--summary", "log.jsonl") == (0, MET, line)
    yield "summary by standard input", runs.said("judge", "--events", "--summary", given=LOG) == (0, MET, line)
    line = "clients 2, calls 4, writes 3, reads answered 1, lost 1, failed 1, reads that ask nothing 1, keys 2, values that repeat 1"
    yield "deletes and losses", runs.said("judge", "--summary", "deletes.jsonl")[2] == line + SOURCES.format(0, 1, 0)
    line = "clients 1, calls 2, writes 1, reads answered 1, lost 0, failed 0, reads that ask nothing 0, keys 1, values that repeat 0"
    yield "a read that is forced asks", runs.said("judge", "--summary", "asked.jsonl")[2] == line + SOURCES.format(1, 0, 0)
    line = "clients 1, calls 3, writes 2, reads answered 1, lost 0, failed 0, reads that ask nothing 0, keys 1, values that repeat 0"
    yield "a read with nothing left", runs.said("judge", "--summary", "lacking.jsonl")[2] == line + SOURCES.format(0, 0, 1)
    line = "clients 2, calls 2, writes 1, reads answered 1, lost 0, failed 0, reads that ask nothing 0, keys 1, values that repeat 0"
    yield "a read before a delete asks in time", runs.said("judge", "--summary", "timed.jsonl")[2] == line + SOURCES.format(1, 0, 0)
    line = "clients 1, calls 2, writes 1, reads answered 1, lost 0, failed 0, reads that ask nothing 0, keys 1, values that repeat 0\n"
    yield "summary of a history", runs.said("judge", "--summary", "stale.json") == (0, STALE, line)
    yield "enough reads", runs.said("judge", "--at-least-reads", "1", "log.jsonl") == (0, MET, "")
    few = "reads answered 1, where at least 2 are wanted\n"
    yield "few reads", runs.said("judge", "--at-least-reads", "2", "log.jsonl") == (6, MET, few)
    yield "few reads and a no", runs.said("judge", "--at-least-reads=2", "--expect", "cc", "stale.jsonl") == (5, STALE, few)
    yield "an empty log", runs.said("judge", "--events", "--at-least-reads", "1")[0] == 6
    yield "an empty log is met", runs.said("judge", "--events", "--expect", "cc")[0] == 0
    yield "no memory", runs.said("judge", "--at-least-reads", "1", "counter.json")[0] == 6
    yield "not of lines", runs.said("judge", "--lines", "--summary", "lines.jsonl")[0] == 2
    yield "no number", runs.said("judge", "--at-least-reads", "0", "log.jsonl")[0] == 2


PARTS = (cases_of_forms, cases_of_refusals, cases_of_several, cases_of_answers, cases_of_pipes, cases_of_late_writes, cases_of_colors, cases_of_counts)


def cases(program, folder):
    """A name and an outcome for each case."""
    for name, text in FILES.items():
        (folder / name).write_bytes(text)
    (folder / "folder").mkdir()
    runs = Runs(program, folder)
    for part in PARTS:
        yield from part(runs)


if __name__ == "__main__":
    end_in_folder(__doc__, cases)
