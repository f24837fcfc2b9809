#!/usr/bin/env python3
"""Refuses the allocations of a program, one in each run, and reports each run that does not end right.

    python3 tests/process/refused_memory.py [--threads N] [--tests PROGRAM] -- PROGRAM

Each input below is run again and again, with the next allocation refused each time, until a run makes no more. A run has to end with
its usual answer, or with status 4, `no memory` on standard error and nothing written. `judge --lines` and `judge --every` may have written
some first lines of their answer before. What `drive` writes may differ from run to run: driven.py has to find no fault in it. A refusal
keeps its status and its first line, and its second line may be missing or hold its fixed beginning alone.

The same is done with the tests below of crates/test_acceptance, which repeat a call where memory was refused to it. Each has to pass in
each run, and `abandoned` has to print each answer that a refusal can lead to. `rt ci` leaves the program that has these tests; without
it they are skipped.

A small library, which `cc` builds, replaces the allocations of the C library: malloc, calloc, realloc and their aligned kin. Without a
C compiler everything is skipped, and so is a program that `rt try` built, whose allocations are its own.
"""

import argparse
import itertools
import json
import os
import pathlib
import shutil
import subprocess
import tempfile
from concurrent.futures import ThreadPoolExecutor
from typing import NamedTuple

import folders  # noqa: F401
import driven
from command_words import OPTIONS, order_of, with_program
from counting import end
from reading import read_driven

MOST_SECONDS = 60
SHOWN = 3
WORKERS = ("1", "2")
NO_MEMORY = (4, b"", b"no memory\n")
TESTS = pathlib.Path(__file__).resolve().parents[2] / "crates" / "test_acceptance" / "out" / "test_acceptance_tests"

YES = "cc yes\ncm yes\nccv yes\n"
PLAIN = '["memory",[[["w",0,1]],[["r",0,1]]]]'
STALE = '["memory",[[["w",0,1],["w",1,1]],[["r",1,1],["w",0,2]],[["r",0,2],["r",0,1]]]]'
AGAINST_CM = '["memory",[[["w",2,1],["w",0,1],["w",1,1]],[["w",0,2],["r",2,0],["r",1,1],["r",0,2]]]]'
AGAINST_CCV = '["memory",[[["w",0,1],["r",0,2]],[["w",0,2],["r",0,1]]]]'
CYCLIC = '["memory",[[["w",0,1]],[["w",0,2],["r",0,1],["r",0,2]]]]'
REPEATED = '["memory",[[["w",0,1],["r",0,0]],[["w",3,1]],[["w",3,1]]]]'
POPS = '["queue",[[["push",5]],[["pop",5],["pop",null]]]]'
LOGGED = "\n".join((PLAIN, "[]", STALE, '["memory"', POPS, AGAINST_CM, ""))


def logged(*calls):
    """A log of calls, each a client, what it calls, and the event that ends it with its answer, if any."""
    events = [event for client, call, *end in calls for event in (["begin", client, call], [end[0], client, *end[1:]] if end else None)]
    return "".join(f"{json.dumps(event)}\n" for event in events if event)


WRITTEN = ("alice", ["w", "user:5", "v1"], "end", "ok")
LOST_LOG = logged(WRITTEN, ("bob", ["w", 7, True], "lost"), ("carol", ["r", 7], "end", True), ("carol", ["d", 7]))
STALE_LOG = logged(
    WRITTEN,
    ("alice", ["w", "user:5", "v2"], "end", "ok"),
    ("bob", ["d", "k"], "end", "ok"),
    ("bob", ["r", "k"], "end", None),
    ("bob", ["r", "user:5"], "end", "v2"),
    ("bob", ["r", "user:5"], "end", "v1"),
)
STARTED_LOG = '["start","user:5",-1]\n' + logged(("alice", ["r", "user:5"], "end", -1)) + '["begin"'
REFUSED_LOG = LOST_LOG + '["end","nobody","ok"]\n'


def long(text):
    """A history with more sessions than `judge` takes."""
    return text.removesuffix("]]") + ",[]" * 16 + "]]"


# Commands, each with an input that it refuses for a reason.
REFUSED_INPUTS = (
    ("judge --why", PLAIN.removesuffix("]")),
    ("judge --why", '["memory",[[["w",0,1]],[["r","x",1]]]]'),
    ("judge --why", f'["memory",[{",".join(["[]"] * 17)}]]'),
    ("judge --long", long(PLAIN).replace('"w",0', '"w",-1')),
    ("explain --why --html", '["counter",[],[[0,1]]]'),
    ("explain --long --json", '["map",[]]'),
    ("check --why", f'[{PLAIN},["cc",[],[]]]'),
    ("refute --why", f'[{PLAIN},"lin",["ThinAirRead",[0,0]]]'),
    ("refute --long", f'[{long(PLAIN)},"cc",["ThinAirRead",[0,0]]]'),
    ("replay --why", '["memory",1,[["start"],["look",0,10000]]]'),
    ("drive causal --why --stop 2", PLAIN),
)

# A command, an input, and a text in its usual answer.
INPUTS = (
    ("judge", PLAIN, YES),
    ("judge", STALE, "cc no WriteCORead\ncm no WriteCORead\nccv no WriteCORead\n"),
    ("judge", '["memory",[[["r",1,1],["w",0,1]],[["r",0,1],["w",1,1]]]]', "cc no CyclicCO\ncm no CyclicCO\nccv no CyclicCO\n"),
    ("judge", AGAINST_CM, "cc yes\ncm no WriteHBInitRead\nccv yes\n"),
    ("judge", AGAINST_CCV, "cc yes\ncm yes\nccv no CyclicCF\n"),
    ("judge", CYCLIC, "cc yes\ncm no CyclicHB\nccv no CyclicCF\n"),
    ("judge", '["memory",[[["w",0,1]],[["w",0,1]],[["r",0,1]]]]', YES),
    ("judge", '["memory",[[["r",0,5],["w",0,1]],[["r",0,1]]],[[0,5]]]', YES),
    ("judge", '["register",[[["w",1],["r",1]],[["r",0]]]]', YES),
    ("judge", '["counter",[[["inc"]],[["get",1]]]]', "cc unknown 1.0\ncm unknown 1.0\nccv unknown 1.0\n"),
    ("judge", '["set",[[["add",1],["has",1,true]],[["rem",1]]]]', YES),
    ("judge", POPS, "cc unknown 1.0\ncm unknown 1.0\nccv unknown 1.0\n"),
    ("judge", '["counters",[[["inc",3],["get",3,1]],[["get",3,0]]]]', YES),
    ("judge", '["sets",[[["add",1,2]],[["has",1,2,true]]]]', "cc unknown 1.0\ncm unknown 1.0\nccv unknown 1.0\n"),
    ("judge", '["queues",[[["push",1,5],["pop",1,5]],[["pop",1,null]]]]', YES),
    ("judge --expect cc,ccv", AGAINST_CCV, "cc yes\ncm yes\nccv no CyclicCF\n"),
    ("judge --lines", LOGGED, "cc yes; cm yes; ccv yes\nrefused 2\ncc no WriteCORead"),
    ("judge --long", PLAIN, YES),
    ("judge --long", long(PLAIN), YES),
    ("judge --long", long(STALE), "cc no WriteCORead\ncm no WriteCORead\nccv no WriteCORead\n"),
    ("judge --long", long(AGAINST_CM), "cc yes\ncm no WriteHBInitRead\nccv yes\n"),
    ("judge --long", long(AGAINST_CCV), "cc yes\ncm yes\nccv no CyclicCF\n"),
    ("judge --long", long(CYCLIC), "cc yes\ncm no CyclicHB\nccv no CyclicCF\n"),
    ("judge --long", long(REPEATED), "cc unknown\ncm unknown\nccv unknown\n"),
    ("judge --long", long('["memory",[[["r",0,5],["w",0,1]],[["r",0,1]]]]').removesuffix("]") + ",[[0,5]]]", YES),
    ("judge --long --lines", "\n".join((LOGGED, long(PLAIN), long(CYCLIC))), "ccv no WriteCORead\nrefused 1\nrefused 3\ncc yes; cm no WriteHBInitRead"),
    ("judge --long --events", LOST_LOG, YES),
    ("judge --long --events", STALE_LOG, "cc no WriteCORead\ncm no WriteCORead\nccv no WriteCORead\n"),
    ("judge --long --events", STARTED_LOG, YES),
    ("judge --long --events", REFUSED_LOG, ""),
    ("judge --long --events --every 3", STALE_LOG, "3 cc yes; cm yes; ccv yes\n"),
    ("judge --long --events --every 2 --expect cc", STALE_LOG, "12 cc no WriteCORead; cm no WriteCORead; ccv no WriteCORead\n"),
    ("events", LOST_LOG, '["memory",[[["w",0,1]],[["w",5,1]],'),
    ("events", STARTED_LOG, '["memory",[[["r",0,1]]],[[0,1]]]'),
    ("events --names", LOST_LOG, '[["alice","bob","carol"],["user:5",7],["v1",true]]'),
    (
        "check",
        '[["queue",[[["push",5]],[["pop",5]],[["pop",5]]]],["cc",[[[1,0,0]],[[1,1,0]],[[1,0,1]]],[[[0]],[[0,1]],[[0,2]]]]]',
        "cc yes\n",
    ),
    ("check", '[["memory",[[["w",0,1]],[["r",0,1]]]],["cm",[[[1,0]],[[1,1]]],[[[0]],[[0,1]]]]]', "cm yes\n"),
    ("check", '[["memory",[[["w",0,1]],[["r",0,2]]]],["cm",[[[1,0]],[[1,1]]],[[[0]],[[0,1]]]]]', "cm unknown 1.0\n"),
    ("check", '[["counter",[[["inc"]],[["get",1]]]],["ccv",[[[1,0]],[[1,1]]],[0,1]]]', "ccv yes\n"),
    ("explain", PLAIN, "cm yes\n  An order explains every known return: "),
    ("explain", REPEATED, "cc unknown 0.1\n"),
    ("explain", CYCLIC, "cm no CyclicHB\n"),
    ("explain --json", CYCLIC, '["cm","no",["CyclicHB",'),
    ("explain --json", POPS, '["ccv","unknown",[1,0]]'),
    ("explain --json --certificates", PLAIN, '["ccv","yes",["ccv",'),
    ("explain --json --certificates", AGAINST_CCV, '["ccv","no",["CyclicCF",'),
    ("explain --svg", STALE, "<title>cc no WriteCORead"),
    ("explain --svg", POPS, "<title>cc unknown 1.0"),
    ("explain --html", STALE, '["WriteCORead",[2,1],[0,0],[1,1]]'),
    ("explain --long", long(PLAIN), "cm yes\n"),
    ("explain --long", long(STALE), "  These operations alone are a no: "),
    ("explain --long --json", long(CYCLIC), '["cm","no",["CyclicHB",'),
    ("explain --long --json", long(AGAINST_CCV), '["ccv","no",["CyclicCF",'),
    ("explain --long --svg", long(STALE), "<title>cc no WriteCORead"),
    ("explain --long --events", LOST_LOG, "cm yes\n"),
    ("explain --long --events", STALE_LOG, "cc no WriteCORead\n"),
    ("explain --long --events --json", STALE_LOG, '["ccv","no",["WriteCORead",'),
    ("explain --long --events --svg", STALE_LOG, "<title>cc no WriteCORead"),
    ("explain --long --events --all 3", STALE_LOG, "WriteCORead: 1 read in 1 of "),
    ("explain --all 3", STALE, "  WriteCORead: 1 read in 1 of 3 sessions\n"),
    ("explain --long --all 3 --json", long(STALE), '["WriteCORead",[2,1],[0,0],[1,1]]'),
    ("refute --long", f'[{long(STALE)},"cc",["WriteCORead",[[0,0],[0,1],[1,0],[1,1]],[[1,1],[2,0],[2,1]]]]', "cc no WriteCORead\n"),
    ("refute", f'[{STALE},"cc",["WriteCORead",[[0,0],[0,1],[1,0],[1,1]],[[1,1],[2,0],[2,1]]]]', "cc no WriteCORead\n"),
    ("refute", f'[{AGAINST_CCV},"ccv",["CyclicCF",[["cf",[[1,0],[1,1]],[0,0]],["cf",[[0,0],[0,1]],[1,0]]]]]', "ccv no CyclicCF\n"),
    (
        "refute",
        f'[{CYCLIC},"cm",["CyclicHB",[1,2],[["co",[[1,0],[1,1]],[[1,1],[1,2]]],["rf",0,[1,1]],["co",[[0,0],[1,1],[1,2]],[[1,2]]],'
        '["rf",2,[1,2]],["tr",1,3]]]]',
        "cm no CyclicHB\n",
    ),
    (
        "replay",
        '["memory",2,[["start"],["look",0],["begin",0,["w",0,1]],["begin",1,["r",0]],["end",1,1],["look",0,5],["show",0]]]',
        '["memory",[[["w",0,1,"?"]],[["r",0,1]]]]',
    ),
    (
        "replay",
        '["memory",2,[["begin",0,["w",0,1]],["end",0,"ok"],["begin",1,["r",0]],["end",1,1],["start"],["look",0,6],'
        '["file",0,["cc",[[[1,0]],[[1,1]]],[[[0]],[[0,1]]]]],["work",0,0,0],["put",0,0],["ask",0],["take"],["work",0,1,0],["put",0,1],'
        '["ask",0]]]',
        "verdict 1 explained\nok\nyes\n",
    ),
    (
        "replay",
        '["memory",1,[["begin",0,["r",0]],["end",0,7],["start",[1]],["look",0,4],["file",0,"cc"],["refute",0,["ThinAirRead",[0,0]]],'
        '["ask",0]],[[1,3]]]',
        "no ThinAirRead\n",
    ),
    (
        "replay",
        '["queue",1,[["begin",0,["push",5]],["end",0,"ok"],["begin",0,["pop"]],["start",[1]],["look",0,4],["show",0],["file",0,"ccv"],'
        '["ask",0]]]',
        '["queue",[[["push",5],["pop","?"]]]]\nok 0\nunknown\n',
    ),
    *((command, text, "") for command, text in REFUSED_INPUTS),
    ("drive causal", '["memory",[[["w",0,1],["r",0,"?"]]]]', YES),
    ("drive causal --seals 1", '["memory",[[["w",0,1],["r",0,"?"]],[["r",0,"?"],["w",0,2,"?"]]],[[0,5]]]', "cc yes\n"),
    ("drive lamport --eager --stop 1", '["queue",[[["push",5],["pop","?"]],[["pop","?"],["push",6,"?"]]]]', '["queue",'),
)

# Tests of crates/test_acceptance, each with the texts that it has to print in some run.
REPEATING = (
    ("desks::file", ()),
    (
        "desks::abandoned",
        (
            "Refused(8), Asked(Open(3)), Number(2)",
            "Refused(8), Asked(Open(2)), Number(1)",
            "Refused(8), Asked(Open(1)), Number(0)",
        ),
    ),
)

LIBRARY = r"""
#define _GNU_SOURCE
#include <errno.h>
#include <fcntl.h>
#include <stdatomic.h>
#include <stdlib.h>
#include <unistd.h>

extern void *__libc_malloc(size_t);
extern void *__libc_calloc(size_t, size_t);
extern void *__libc_realloc(void *, size_t);
extern void *__libc_memalign(size_t, size_t);

static atomic_long asked;

// Whether this is the allocation to refuse. That one was refused is shown by a file.
static int is_refused(void) {
    const char *number = getenv("REFUSED_ALLOCATION");
    if (!number || atomic_fetch_add(&asked, 1) + 1 != atol(number))
        return 0;
    close(open(getenv("REFUSED_MARK"), O_CREAT | O_WRONLY, 0600));
    errno = ENOMEM;
    return 1;
}

void *malloc(size_t n) { return is_refused() ? NULL : __libc_malloc(n); }
void *calloc(size_t m, size_t n) { return is_refused() ? NULL : __libc_calloc(m, n); }
void *realloc(void *p, size_t n) { return is_refused() ? NULL : __libc_realloc(p, n); }
void *aligned_alloc(size_t a, size_t n) { return is_refused() ? NULL : __libc_memalign(a, n); }
void *memalign(size_t a, size_t n) { return is_refused() ? NULL : __libc_memalign(a, n); }

int posix_memalign(void **p, size_t a, size_t n) {
    if (is_refused())
        return ENOMEM;
    *p = __libc_memalign(a, n);
    return *p ? 0 : ENOMEM;
}
"""


class Sweep(NamedTuple):
    """What refuses: a folder with the library, and threads that run side by side."""

    folder: pathlib.Path
    pool: ThreadPoolExecutor
    threads: int


class Refused(NamedTuple):
    """How a run ended one of whose allocations was refused."""

    number: int
    found: tuple


def build_library(folder):
    """Builds the library that refuses."""
    source = folder / "refusing.c"
    source.write_text(LIBRARY)
    subprocess.run(["cc", "-shared", "-fPIC", "-O1", "-o", str(folder / "refusing.so"), str(source)], check=True)


def outcome(words, data, **extra):
    """How a run ends: its status, and what it wrote."""
    try:
        done = subprocess.run(words, input=data, capture_output=True, check=False, timeout=MOST_SECONDS, env={**os.environ, **extra})
    except subprocess.TimeoutExpired:
        return f"no end within {MOST_SECONDS} seconds", b"", b""
    return done.returncode, done.stdout, done.stderr


def refused_run(folder, words, data, number):
    """How a run ends with this allocation refused; none where it made fewer."""
    mark = folder / f"refused_{number}"
    found = outcome(words, data, LD_PRELOAD=str(folder / "refusing.so"), REFUSED_ALLOCATION=str(number), REFUSED_MARK=str(mark))
    if not mark.exists():
        return None
    mark.unlink()
    return Refused(number, found)


def refused_runs(sweep, words, data):
    """The runs of which one allocation was refused: the first, and then each next one."""
    numbers = itertools.count(1)
    while True:
        batch = list(itertools.islice(numbers, 2 * sweep.threads))
        runs = list(sweep.pool.map(lambda number: refused_run(sweep.folder, words, data, number), batch))
        yield from (run for run in runs if run)
        if None in runs:
            return


def command_lines(command):
    """The words of a command by each number of workers, where it has any."""
    words = command.split()
    if "--workers" not in OPTIONS[words[0]]:
        return [words]
    return [[*words, "--workers", workers] for workers in WORKERS]


def is_first_lines(text, usual):
    """Whether a text is some first lines of the usual one."""
    return usual.startswith(text) and text[-1:] in (b"", b"\n")


def is_short_of_reason(usual, found):
    """Whether a run ended as usual with a refusal, of whose second line some is left out."""
    (line, _, reason), (found_line, _, found_reason) = usual[2].partition(b"\n"), found[2].partition(b"\n")
    same = found[:2] == usual[:2] and found_line == line and line.startswith(b"refused ")
    return same and reason.startswith(found_reason.removesuffix(b"\n"))


def is_right(program, words, data, usual, found):
    """Whether a run may end like this: as usual, or for want of memory. Some first lines may be answered before, and what clients write
    may differ from run to run. What is said of lines besides their answers, and why an input is refused, may be left out for want of memory."""
    if found in (usual, NO_MEMORY) or is_short_of_reason(usual, found):
        return True
    if found[:2] == usual[:2] and usual[2].startswith(found[2]) and "--lines" in words:
        return True
    if "--lines" in words or "--every" in words:
        return (found[0], found[2]) == (4, b"no memory\n") and is_first_lines(found[1], usual[1])
    if words[0] != "drive" or (found[0], found[2]) != (0, b""):
        return False
    return not driven.faults(program, order_of(words), read_driven(data), found[1].decode())


def reported(name, runs, wrong):
    """Prints how many runs there were, and how some of those ended that are not right; gives both numbers."""
    print(f"{len(runs):5} refused, {len(wrong)} not right: {name}", flush=True)
    for run in wrong[:SHOWN]:
        print(f"      allocation {run.number}: {run.found!r}")
    return len(runs) - len(wrong), len(wrong)


def swept_input(sweep, program, words, text, wanted):
    """How many refusals of an input's run end right, and how many do not."""
    name = f"{' '.join(words)} {text[:60]!r}"
    usual = outcome([*program, *words], text.encode())
    if wanted.encode() not in usual[1]:
        print(f"without {wanted!r}, where nothing is refused: {name}: {usual!r}", flush=True)
        return 0, 1
    runs = list(refused_runs(sweep, [*program, *words], text.encode()))
    if not runs:
        print(f"no allocation was seen: {name}", flush=True)
        return 0, 1
    return reported(name, runs, [run for run in runs if not is_right(program, words, text.encode(), usual, run.found)])


def swept_inputs(sweep, program):
    """The same of each input, by each number of workers."""
    for command, text, wanted in INPUTS:
        for words in command_lines(command):
            yield swept_input(sweep, program, words, text, wanted)


def is_passed(found):
    """Whether a test passed, by what its program wrote."""
    return found[0] == 0 and found[1].endswith(b"\ntest result: ok\n")


def swept_test(sweep, tests, name, texts):
    """How many refusals of a test's run end right, and how many do not. A text that no run printed counts as one that does not."""
    usual = outcome([str(tests), name], b"")
    runs = list(refused_runs(sweep, [str(tests), name], b"")) if is_passed(usual) else []
    if not runs:
        print(f"not passed where nothing is refused, or without an allocation: {name}: {usual!r}", flush=True)
        return 0, 1
    passed, failed = reported(name, runs, [run for run in runs if not is_passed(run.found)])
    printed = usual[1] + b"".join(run.found[1] for run in runs)
    missing = [text for text in texts if text.encode() not in printed]
    for text in missing:
        print(f"      no run printed {text!r}", flush=True)
    return passed, failed + len(missing)


def swept_tests(sweep, tests):
    """The same of each test."""
    for name, texts in REPEATING:
        yield swept_test(sweep, tests, name, texts)


def swept(given, folder, skips):
    """How many refusals end right, and how many do not, of each run in turn."""
    with ThreadPoolExecutor(given.threads) as pool:
        sweep = Sweep(folder, pool, given.threads)
        if "program" not in skips:
            yield from swept_inputs(sweep, given.program)
        if "tests" not in skips:
            yield from swept_tests(sweep, given.tests)


def allocates_itself(path):
    """Whether a program was built with address checks, as `rt try` builds it: the C library's allocations are not its own then."""
    return path.is_file() and b"__asan_init" in path.read_bytes()


def skipped_parts(given):
    """The parts that are skipped, each with the reason."""
    skips = {}
    for part, path in (("program", pathlib.Path(given.program[0])), ("tests", given.tests)):
        if not shutil.which("cc"):
            skips[part] = "there is no C compiler: `apt-get install gcc` installs one"
        elif allocates_itself(path):
            skips[part] = f"{path} was built with address checks, and does not allocate by the C library"
    if not given.tests.is_file():
        skips["tests"] = f"there is no {given.tests}: `rt ci` builds it"
    return skips


def main():
    parser = argparse.ArgumentParser(description=__doc__, formatter_class=argparse.RawDescriptionHelpFormatter)
    parser.add_argument("--threads", type=int, default=os.cpu_count() or 2)
    parser.add_argument("--tests", type=pathlib.Path, default=TESTS)
    given = with_program(parser)
    skips = skipped_parts(given)
    numbers = []
    if len(skips) < 2:
        with tempfile.TemporaryDirectory() as name:
            build_library(pathlib.Path(name))
            numbers = list(swept(given, pathlib.Path(name), skips))
    for part, reason in skips.items():
        print(f"skipped: the allocations of the {part}, since {reason}")
    end(sum(passed for passed, _ in numbers), sum(failed for _, failed in numbers), len(skips))


if __name__ == "__main__":
    main()
