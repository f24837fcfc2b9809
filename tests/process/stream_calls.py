#!/usr/bin/env python3
"""Runs a program whose calls of read and write take few bytes, are interrupted or fail, and counts the calls.

    python3 tests/process/stream_calls.py -- PROGRAM

The rows below say which calls go wrong and how, what the program answers then, and how many read calls it makes. With the cases of
`tests/cases/lines.cases` each read call gives one byte, or seven: the answers stay the same. A line is printed for each run that ends
otherwise, and the status is 1 where there is one.

A small library, which `cc` builds, takes the calls of the C library for standard input and standard output. Without a C compiler
everything is skipped, and so is a program that `rt try` built, whose calls are its own.
"""

import argparse
import errno
import json
import os
import pathlib
import shutil
import struct
import subprocess
import tempfile
from concurrent.futures import ThreadPoolExecutor
from typing import NamedTuple

import folders  # noqa: F401
import tables
from command_words import with_program
from counting import end
from streams import is_unproved

MOST_SECONDS = 120
MOST_READS = 1 << 20
MOST_BYTES = 64 << 20
CHUNK = 1 << 16
EVER = 1 << 40

LIBRARY = r"""
#define _GNU_SOURCE
#include <errno.h>
#include <fcntl.h>
#include <stdlib.h>
#include <sys/mman.h>
#include <sys/syscall.h>
#include <unistd.h>

// What a row says of the calls for one stream, and how many there were.
struct calls { long piece, later, later_piece, first, end, fault, count, taken; };

static struct calls *streams(void) {
    static struct calls *both;
    if (!both) {
        int file = open(getenv("STREAM_CALLS"), O_RDWR);
        both = mmap(NULL, 2 * sizeof *both, PROT_READ | PROT_WRITE, MAP_SHARED, file, 0);
        close(file);
    }
    return both;
}

static ssize_t called(int number, int stream, const void *bytes, size_t n) {
    if (stream > 1 || (number == SYS_read) != (stream == 0))
        return syscall(number, stream, bytes, n);
    struct calls *its = &streams()[stream];
    its->count++;
    if (its->first <= its->count && its->count < its->end) {
        errno = its->fault;
        return -1;
    }
    size_t piece = its->taken < its->later ? its->piece : its->later_piece;
    ssize_t taken = piece ? syscall(number, stream, bytes, n < piece ? n : piece) : 0;
    its->taken += taken > 0 ? taken : 0;
    return taken;
}

ssize_t read(int stream, void *bytes, size_t n) { return called(SYS_read, stream, bytes, n); }
ssize_t write(int stream, const void *bytes, size_t n) { return called(SYS_write, stream, bytes, n); }
ssize_t __write(int stream, const void *bytes, size_t n) { return called(SYS_write, stream, bytes, n); }
"""


class Calls(NamedTuple):
    """How the calls of a stream go: each takes `piece` bytes at most, and after `later` bytes `later_piece`. Those from `first` on,
    and before `end`, fail with `fault`. The first call is 1."""

    piece: int = CHUNK
    later: int = EVER
    later_piece: int = CHUNK
    first: int = 0
    end: int = 0
    fault: int = 0

    def failing(self, first, end, fault=errno.EIO):
        return self._replace(first=first, end=end, fault=fault)


class Row(NamedTuple):
    """A run: its name, its words and its input, how its calls go, its status and both outputs, and how many read calls it makes, where
    that is given. Of standard error the first lines count, as many as are given; none where it is None. Where the run is cut off, the
    output may be any beginning of what is given."""

    name: str
    words: list
    data: bytes
    reads: Calls
    writes: Calls
    wanted: tuple
    many: int = None
    is_cut_off: bool = False


HISTORY = b'["memory",[[["r",0,7]]]]'
LONGER = b'["memory",[[["w",0,1]],[["r",0,1]]]]'
EMPTY = b'["memory",[]]\n'
KIND = b"no ThinAirRead"
ANSWER = b"cc %b\ncm %b\nccv %b\n" % (KIND, KIND, KIND)
MET = b"cc yes\ncm yes\nccv yes\n"
MET_LINE = b"cc yes; cm yes; ccv yes\n"
LINES = EMPTY + b"[]\n" + HISTORY
LINE_ANSWERS = b"%brefused 2\ncc %b; cm %b; ccv %b\n" % (MET_LINE, KIND, KIND, KIND)
READ_FAULT = (3, b"", b"read fault\n")

JUDGE, LONG, BY_LINES = ["judge"], ["judge", "--long"], ["judge", "--lines"]
ANY, BYTES = Calls(), Calls(piece=1, later_piece=1)
INTERRUPTED = BYTES.failing(2, 5, errno.EINTR)
INTERRUPTED_EVER = BYTES.failing(2, EVER, errno.EINTR)
HUNDREDS, THOUSANDS = Calls(piece=100, later_piece=100), Calls(piece=1000, later_piece=1000)
ANSWERED = ((EMPTY, MET_LINE), (b"[]\n", b"refused 2\n"), (HISTORY + b"\n", b"cc %b; cm %b; ccv %b\n" % (KIND, KIND, KIND)))


def read_rows():
    """Reads that bring a byte, are interrupted or fail."""
    blanks = b" " * (MOST_READS - 1 - len(HISTORY))
    yield Row("as many reads as may be", JUDGE, HISTORY + blanks, BYTES, ANY, (0, ANSWER, b""), MOST_READS)
    yield Row("one more read", JUDGE, HISTORY + blanks + b" ", BYTES, ANY, READ_FAULT, MOST_READS)
    yield Row("interrupted three times", JUDGE, HISTORY, INTERRUPTED, ANY, (0, ANSWER, b""), len(HISTORY) + 4)
    yield Row("interrupted ever since", JUDGE, HISTORY, INTERRUPTED_EVER, ANY, READ_FAULT, MOST_READS)
    longest = HISTORY + b" " * MOST_READS
    yield Row("a longer input by bytes", LONG, longest, BYTES, ANY, (0, ANSWER, b""), len(longest) + 1)
    yield Row("a long one interrupted three times", LONG, HISTORY, INTERRUPTED, ANY, (0, ANSWER, b""), len(HISTORY) + 4)
    yield Row("a long one interrupted ever since", LONG, HISTORY, INTERRUPTED_EVER, ANY, READ_FAULT, MOST_READS + 1)
    yield Row("a long one failing", LONG, HISTORY, BYTES.failing(9, 10), ANY, READ_FAULT, 9)
    last = len(LONGER) + 1
    for call in range(1, last + 1):
        yield Row(f"failing at read {call}", JUDGE, LONGER, BYTES.failing(call, call + 1), ANY, READ_FAULT, call)
    yield Row("failing after the last read", JUDGE, LONGER, BYTES.failing(last + 1, EVER), ANY, (0, MET, b""), last)


def length_rows():
    """Inputs as long as may be, and longer."""
    reads = MOST_BYTES // CHUNK + 1
    yield Row("an input as long as may be", JUDGE, b" " * MOST_BYTES, ANY, ANY, (1, b"", b"refused 1\n"), reads)
    after = ANY.failing(reads + 1, EVER)
    yield Row("nothing is read after the limit", JUDGE, b" " * (MOST_BYTES + 2), after, ANY, (1, b"", b"refused 9\n"), reads)


def write_rows():
    """Writes that take a byte or none, are interrupted or fail."""
    yield Row("interrupted writes", JUDGE, HISTORY, ANY, INTERRUPTED, (0, ANSWER, b""))
    yield Row("writes that take nothing", JUDGE, HISTORY, ANY, Calls(piece=0, later_piece=0), (3, b"", b"write fault\n"))
    for call in range(1, len(ANSWER) + 1):
        failing = BYTES.failing(call, call + 1)
        yield Row(f"failing at write {call}", JUDGE, HISTORY, ANY, failing, (3, ANSWER[: call - 1], b"write fault\n"))


def line_rows():
    """Lines of which a read fails, or that are too long."""
    for workers in (1, 4):
        words = [*BY_LINES, f"--workers={workers}"]
        in_second = BYTES.failing(18, EVER)
        yield Row(f"a fault in the second line, {workers}", words, EMPTY + EMPTY, in_second, ANY, (3, MET_LINE, b"read fault\n"))
        by_bytes = (1, LINE_ANSWERS, None)
        yield Row(f"lines by bytes, {workers}", [*words, "--expect=cc"], LINES, BYTES, ANY, by_bytes)
        too_long = b" " * (MOST_BYTES + CHUNK + 1)
        answers = (1, b"%brefused 9\n%b" % (MET_LINE, MET_LINE), None)
        yield Row(f"a line that is too long, {workers}", words, EMPTY + too_long + b" \n" + EMPTY, ANY, ANY, answers)
        passed_over = Calls(later=len(too_long), later_piece=1)
        rest = b" " * (MOST_READS + CHUNK)
        yield Row(f"a line that takes too many reads, {workers}", words, too_long + rest, passed_over, ANY, (3, b"refused 9\n", None))


def longest_line_rows():
    """Lines as long as may be, and a byte longer, also without a line feed."""
    longest = b"[" + b" " * (MOST_BYTES - 2) + b"]"
    for workers in (1, 4):
        words = [*BY_LINES, f"--workers={workers}"]
        answers = b"refused 2\n" + MET_LINE + b"refused 9\n" + MET_LINE + b"refused 9\n"
        data = longest + b"\n" + EMPTY + longest + b" \n" + EMPTY + longest + b" "
        yield Row(f"lines about as long as may be, {workers}", words, data, ANY, ANY, (1, answers, b""))


def shared_rows():
    """Many lines that workers share, also after a line that takes long, with a fault of a read or of a write."""
    picked = [ANSWERED[i * i % 7 % 3] for i in range(3000)]
    session = [["push", value] for value in range(128)] + [["pop", value] for value in range(128)]
    slow = json.dumps(["queue", [session] * 16]).encode() + b"\n"
    for workers in (1, 2, 3, 4):
        words = [*BY_LINES, f"--workers={workers}"]
        data, answers = (b"".join(it) for it in zip(*picked))
        yield Row(f"many lines, {workers}", words, data, HUNDREDS, ANY, (1, answers, b""))
        whole = data[:7100].count(b"\n")
        before = b"".join(answer for _, answer in picked[:whole])
        yield Row(f"many lines and a fault, {workers}", words, data, HUNDREDS.failing(72, EVER), ANY, (3, before, b"read fault\n"))
        data, answers = slow + data, MET_LINE + answers
        yield Row(f"many lines after a slow one, {workers}", words, data, ANY, ANY, (1, answers, b""))
        for first in (1, 2, 21):
            name = f"many lines after a slow one, failing from write {first}, {workers}"
            writes = THOUSANDS.failing(first, EVER)
            yield Row(name, words, data, ANY, writes, (3, answers, b"write fault\n"), is_cut_off=True)


def table_rows():
    """The cases of judge --lines, of which each read gives one byte, or seven."""
    for case in tables.read_tables(tables.DATA):
        for words in case.commands if case.place.startswith("lines.cases") else ():
            for piece in (1, 7):
                reads = Calls(piece=piece, later_piece=piece)
                yield Row(f"{case.name}, {piece}", words, case.input, reads, ANY, (case.status, case.output, case.errors))


def outcome(folder, program, number, row):
    """How a run ends: its status, what it wrote, and how many read calls it made."""
    file, data = folder / f"calls_{number}", folder / f"input_{number}"
    file.write_bytes(struct.pack("16q", *row.reads, 0, 0, *row.writes, 0, 0))
    data.write_bytes(row.data)
    environment = {**os.environ, "LD_PRELOAD": str(folder / "calls.so"), "STREAM_CALLS": str(file)}
    with data.open("rb") as stream:
        how = {"stdin": stream, "capture_output": True, "check": False, "timeout": MOST_SECONDS, "env": environment}
        done = subprocess.run([*program, *row.words], **how)
    many = struct.unpack("16q", file.read_bytes())[6]
    data.unlink()
    return (done.returncode, done.stdout, first_lines(done.stderr, row.wanted[2])), many


def first_lines(errors, wanted):
    """The lines of standard error that count."""
    if wanted is None:
        return None
    return b"".join(errors.splitlines(keepends=True)[: wanted.count(b"\n")]) if wanted else errors


def holds(folder, program, number, row):
    """Whether a run ends as its row says. What differs is printed."""
    try:
        found, many = outcome(folder, program, number, row)
    except subprocess.TimeoutExpired:
        found, many = f"no end within {MOST_SECONDS} seconds", None
    if row.is_cut_off and found and row.wanted[1].startswith(found[1]):
        row = row._replace(wanted=(row.wanted[0], found[1], row.wanted[2]))
    is_right = found == row.wanted and row.many in (None, many)
    if not is_right:
        print(f"{row.name}: {found} after {many} reads, and not {row.wanted} after {row.many}", flush=True)
    return is_right


def build_library(folder):
    source = folder / "calls.c"
    source.write_text(LIBRARY)
    subprocess.run(["cc", "-shared", "-fPIC", "-O1", "-o", str(folder / "calls.so"), str(source)], check=True)


def main():
    parser = argparse.ArgumentParser(description=__doc__, formatter_class=argparse.RawDescriptionHelpFormatter)
    program = with_program(parser).program
    if not shutil.which("cc") or is_unproved(program):
        print("skipped: there is no cc, or the program was not built by a gate")
        end(0, 0, 1)
    rows = [*read_rows(), *length_rows(), *write_rows(), *line_rows(), *longest_line_rows(), *shared_rows(), *table_rows()]
    with tempfile.TemporaryDirectory() as room, ThreadPoolExecutor(2) as pool:
        folder = pathlib.Path(room)
        build_library(folder)
        right = list(pool.map(lambda it: holds(folder, program, *it), enumerate(rows)))
    end(sum(right), len(right) - sum(right))


if __name__ == "__main__":
    main()
