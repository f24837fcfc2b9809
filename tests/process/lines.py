#!/usr/bin/env python3
"""Compares `judge --lines` with one run of `judge` a line, and measures it on many small histories.

    python3 tests/process/lines.py SEED LINES [--operations N] [--small N] [--rounds N] -- PROGRAM

LINES histories of all objects are made at random, and most are spoilt as mangled.py does it; some lines are blank. Each is judged by
a run of its own, and all by runs of `judge --lines` with 1, 2 and 4 workers, with and without criteria that are expected to be met,
whose lines come in one piece, or in pieces of random length. The lines that are written have to be those of the single runs: the
three of a report joined by `; `, or the one on standard error; and the status has to be what follows from them. With `--skip-blank` a
blank line has to answer each blank one, and nothing else changes. Standard error has to name the first blank line that is refused, and
the first that ends in the midst of a JSON text, and no other. A client that writes one line and waits for its answer has to get it, and one
that writes two lines and the beginning of a third has to get two answers. It ends with status 1 where something is wrong.

With `--operations N` runs of a store by short_runs.py, healthy ones and such with a fault, of N operations in all, are judged so by
1, 2, 4 and 16 workers: the healthy ones are causally consistent and a causal memory, the others are not, nothing is left unknown, and
each line is that of a run of its own.

With `--small N`, N small histories are then judged by 1, 2 and 4 workers, and a thousandth of that many by a run each. The table
has the least of some rounds (5 by default) on the clock, from the start of the process to its end, and what a line takes of that.
"""

import argparse
import itertools
import json
import os
import pathlib
import random
import re
import select
import subprocess
import tempfile
import time

import folders  # noqa: F401
import mangled
import short_runs
from command_words import with_program
from counting import end

WORKERS = (1, 2, 4)
PATIENCE = 10
MET = "cc yes; cm yes; "
EXPECTED = ("", "cc", "cm", "ccv", "cc,cm,ccv")


def line_of(rng):
    """A line, which may be blank, and is mostly no history."""
    return rng.choice((b"", b"  ", b"\t \r")) if rng.random() < 0.03 else mangled.mangled(rng, "judge").replace(b"\n", b" ")


def is_blank(line):
    return not line.strip(b" \t\r")


def is_broken(line):
    """Whether a line has a text or a bracket that it does not close, or closes a bracket that is not open."""
    outside = re.sub(rb'"(?:[^"\\]|\\.)*"', b"", line, flags=re.DOTALL)
    depths = list(itertools.accumulate((byte in b"[{") - (byte in b"]}") for byte in outside))
    return b'"' in outside or any(depth < 0 for depth in depths) or bool(depths and depths[-1])


def remarks_due(lines, skips_blank):
    """What standard error has to say of lines."""
    blank = next((number for number, line in enumerate(lines, 1) if is_blank(line)), None)
    broken = next((number for number, line in enumerate(lines, 1) if is_broken(line)), None)
    on_blank = f"line {blank} is blank: with --skip-blank a blank line answers it\n"
    on_broken = f"line {broken} ends in the midst of a JSON text: with --lines each line holds a whole history\n"
    return (on_blank if blank and not skips_blank else "") + (on_broken if broken else "")


def answer_alone(program, line):
    """What a run of its own says of a line."""
    done = subprocess.run([*program, "judge"], input=line, capture_output=True, check=False, timeout=120)
    said = done.stderr if done.returncode else done.stdout
    return said.decode().removesuffix("\n").replace("\n", "; ")


def is_answered(answer):
    return answer.startswith("cc ")


def said_for(answer, criterion):
    """What an answer says of a criterion."""
    return dict(part.split(" ", 1) for part in answer.split("; "))[criterion]


def status_due(answers, expected):
    """The status of a run over lines that are answered so."""
    if not all(map(is_answered, answers)):
        return 1
    said = [said_for(answer, criterion) for answer in answers for criterion in filter(None, expected.split(","))]
    if any(word.startswith("no ") for word in said):
        return 5
    return 0 if all(word == "yes" for word in said) else 6


def words_for(workers, expected, skips_blank=False):
    skipping = ["--skip-blank"] if skips_blank else []
    return ["judge", "--lines", "--workers", str(workers), *(["--expect", expected] if expected else []), *skipping]


def run_in_pieces(rng, command, text):
    """The status and the output of a run whose input comes in pieces of random length."""
    process = subprocess.Popen(command, stdin=subprocess.PIPE, stdout=subprocess.PIPE, stderr=subprocess.PIPE)
    writer = os.fork()
    if writer == 0:
        process.stdout.close()
        at = 0
        while at < len(text):
            until = at + rng.choice((1, 7, 100, 1_000, 70_000))
            os.write(process.stdin.fileno(), text[at:until])
            at = until
        os._exit(0)
    process.stdin.close()
    process.stdin = None
    written, remarks = process.communicate()
    os.waitpid(writer, 0)
    return process.returncode, written.decode(), remarks.decode()


def run_whole(command, text):
    done = subprocess.run(command, input=text, capture_output=True, check=False, timeout=600)
    return done.returncode, done.stdout.decode(), done.stderr.decode()


def compared(rng, program, lines):
    """How many runs over the lines had the outcome of the single runs, and how many another, each of which is printed."""
    answers = [answer_alone(program, line) for line in lines]
    answered = [i for i, answer in enumerate(answers) if is_answered(answer)]
    answered_or_blank = [i for i, answer in enumerate(answers) if is_answered(answer) or is_blank(lines[i])]
    runs = wrong = 0
    for kept, skips_blank in ((range(len(lines)), False), (range(len(lines)), True), (answered, False), (answered_or_blank, True)):
        text = b"\n".join(lines[i] for i in kept) + (b"\n" if kept and (rng.random() < 0.5 or not lines[kept[-1]]) else b"")
        said = ["" if skips_blank and is_blank(lines[i]) else answers[i] for i in kept]
        due, remarks = "".join(f"{answer}\n" for answer in said), remarks_due([lines[i] for i in kept], skips_blank)
        for workers, expected in itertools.product(WORKERS, EXPECTED):
            wanted = (status_due(list(filter(None, said)), expected), due, remarks)
            command = [*program, *words_for(workers, expected, skips_blank)]
            for found in (run_whole(command, text), run_in_pieces(rng, command, text)):
                runs += 1
                if found != wanted:
                    wrong += 1
                    print(f"{' '.join(command[1:])}: status {found[0]} for {wanted[0]}, {differing(found[1], due)}, {found[2]!r}")
    print(f"{len(lines)} lines, {len(answered)} of them answered")
    return runs - wrong, wrong


def differing(found, due):
    """The first line that is not as due."""
    pairs = zip(found.splitlines(), due.splitlines())
    at = next((i for i, (one, other) in enumerate(pairs) if one != other), None)
    return f"{found.count(chr(10))} lines for {due.count(chr(10))}" if at is None else f"line {at}: {found.splitlines()[at]!r}"


def talked(program):
    """How many times a client that writes a line and waits got its answer, and how many times another."""
    asked = wrong = 0
    for workers in WORKERS:
        how = {"stdin": subprocess.PIPE, "stdout": subprocess.PIPE, "stderr": subprocess.DEVNULL}
        process = subprocess.Popen([*program, *words_for(workers, "")], **how)
        for line in (b'["memory",[]]\n', b"\n", b'["memory",[[["r",0,7]]]]\n'):
            process.stdin.write(line)
            process.stdin.flush()
            asked += 1
            wrong += process.stdout.readline().decode().removesuffix("\n") != answer_alone(program, line)
        process.stdin.close()
        asked += 1
        wrong += process.wait() != 1
    return asked - wrong, wrong


def lines_within(process, many):
    """So many lines that a process writes, or fewer where it writes none for ten seconds."""
    text = b""
    while text.count(b"\n") < many and select.select([process.stdout], [], [], PATIENCE)[0]:
        text += os.read(process.stdout.fileno(), 65_536) or b"\n" * many
    return text.decode().splitlines()


def talked_in_part(program):
    """How many times a client that has begun a third line got the answers to two, and then to all, and how many times not."""
    wrong = 0
    lines = [b'["memory",[]]\n', b'["memory",[[["r",0,7]]]]\n', b'["counter",[]]\n']
    due = [answer_alone(program, line) for line in lines]
    for workers in (1, 2, 3, 4):
        how = {"stdin": subprocess.PIPE, "stdout": subprocess.PIPE, "stderr": subprocess.DEVNULL}
        with subprocess.Popen([*program, *words_for(workers, "")], **how) as process:
            for part, answers in ((lines[0] + lines[1] + lines[2][:5], due[:2]), (lines[2][5:], due[2:])):
                process.stdin.write(part)
                process.stdin.flush()
                found = lines_within(process, len(answers))
                if found != answers:
                    wrong += 1
                    print(f"a client that pauses, by {workers} workers: {found}")
    return 8 - wrong, wrong


def runs_of_store(most):
    """Runs of a store of so many operations in all, with what is wrong in each."""
    runs = [
        (state, short_runs.SESSIONS * size, short_runs.text_of(sessions).encode())
        for size in short_runs.SIZES
        for shape in short_runs.SHAPES
        if short_runs.SESSIONS * size <= most
        for state, sessions in short_runs.histories_of(shape, size)
    ]
    for state, operations, text in itertools.cycle(runs):
        if most < operations:
            return
        most -= operations
        yield state, text


def judged_by_many(program, most):
    """How many answers to runs of a store are as due, and how many are not, by each number of workers."""
    runs, alone, wrong = list(runs_of_store(most)), {}, 0
    for state, text in runs:
        if text not in alone:
            alone[text] = answer_alone(program, text)
            if alone[text].startswith(MET) != (state == "healthy") or "unknown" in alone[text]:
                wrong += 1
                print(f"a run that is {state}: {alone[text]}", flush=True)
    due = "".join(f"{alone[text]}\n" for _, text in runs)
    for workers in (*WORKERS, 16):
        status, found, _ = run_whole([*program, *words_for(workers, "")], b"".join(text for _, text in runs))
        if (status, found) != (0, due):
            wrong += 1
            print(f"{len(runs)} runs of a store by {workers} workers: status {status}, {differing(found, due)}", flush=True)
    return len(alone) + len(WORKERS) + 1 - wrong, wrong


def small_history(rng):
    """A memory of two or three sessions of up to four operations, with distinct values."""
    fresh = 0
    sessions = []
    for _ in range(rng.choice((2, 3))):
        session = []
        for _ in range(rng.randint(1, 4)):
            if rng.random() < 0.5:
                fresh += 1
                session.append(["w", rng.randrange(2), fresh])
            else:
                session.append(["r", rng.randrange(2), rng.randint(0, max(fresh, 1))])
        sessions.append(session)
    return json.dumps(["memory", sessions], separators=(",", ":"))


def time_of(command, path):
    """The time on the clock of one run in seconds."""
    with open(path, "rb") as text, open(os.devnull, "wb") as nothing:
        begin = time.perf_counter()
        subprocess.run(command, stdin=text, stdout=nothing, check=True)
        return time.perf_counter() - begin


def measured(rng, program, many, rounds):
    """Prints what small histories take."""
    lines = [small_history(rng) for _ in range(many)]
    with tempfile.TemporaryDirectory() as room:
        path = pathlib.Path(room) / "lines"
        path.write_text("".join(f"{line}\n" for line in lines), encoding="ascii")
        print(f"{many} histories, {path.stat().st_size} bytes")
        print("| run | milliseconds | microseconds a line |")
        print("|---|---|---|")
        for workers in WORKERS:
            least = min(time_of([*program, *words_for(workers, "")], path) for _ in range(rounds))
            print(f"| `--lines --workers {workers}` | {1000 * least:.1f} | {1_000_000 * least / many:.1f} |")
        few = max(1, many // 1000)
        begin = time.perf_counter()
        for line in lines[:few]:
            answer_alone(program, line.encode())
        taken = (time.perf_counter() - begin) / few
        print(f"| one run a line | - | {1_000_000 * taken:.1f} |")


def main():
    parser = argparse.ArgumentParser(description=__doc__, formatter_class=argparse.RawDescriptionHelpFormatter)
    parser.add_argument("seed", type=int)
    parser.add_argument("lines", type=int)
    parser.add_argument("--operations", type=int, default=0)
    parser.add_argument("--small", type=int, default=0)
    parser.add_argument("--rounds", type=int, default=5)
    given = with_program(parser)
    rng = random.Random(given.seed)
    counts = [compared(rng, given.program, [line_of(rng) for _ in range(given.lines)]), talked(given.program), talked_in_part(given.program)]
    if given.operations:
        counts.append(judged_by_many(given.program, given.operations))
    if given.small:
        measured(rng, given.program, given.small, given.rounds)
    end(*map(sum, zip(*counts)))


if __name__ == "__main__":
    main()
