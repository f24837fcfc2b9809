#!/usr/bin/env python3
"""Compares `judge --long` with `judge` on small memories, and with a plain judge on long ones.

    python3 tests/process/long_histories.py SEED MEMORIES HISTORIES [--long] -- PROGRAM

- MEMORIES random inputs, most of them small memories and many spoilt, with random options: where `judge` takes what `--long` takes, status
  and both outputs are those of `judge`, and else what reading.py and plain_long_judge.py say. So are those of each memory in
  tests/cases, and of all that stand in a line together by `--lines`.
- As many small memories, to which sessions of one write of a key of its own are added until there are 17: the lines are those that
  `judge` says without these, but for the kind of a `cm no`, and those of the plain judge.
- A history for each fault of planted.py and each of some stores, of more sessions and of more operations than `judge` takes, and one
  that writes an initial value, get the lines that are sure of them.
- HISTORIES random histories of up to 40 sessions and one more for each of up to 100 lost writes, or with sessions of 257 to some 400
  operations, get the lines of the plain judge. Each of the seven kinds is named among all these by each line that it is against, and each
  line says `yes` and `unknown` somewhere.
- Refusals, long tables, `--expect`, `--lines` with long lines, and words that are no command line.
- With `--long`: histories of a million operations, each within 300 seconds, and 22 million empty sessions, within 60; ten times as long for
  a program that `rt try` built.

It prints each case that has another outcome, with the file in which its input is kept, and how often each line came.
"""

import argparse
import itertools
import json
import random
import subprocess
import tempfile
from collections import Counter
from typing import NamedTuple

import folders  # noqa: F401
import mangled
import plain_long_judge
import planted
import random_memories
import reading
import store_runs
import tables
from command_words import order_of, with_program
from counting import end
from lines import remarks_due
from objects import MOST_ENTRIES, MOST_KEY, OBJECTS
from patterns import AGAINST, CRITERIA
from random_memories import Shape
from refusal_reasons import without_reason
from streams import is_unproved

LEAST_LONG = 17
MILLION = 1_000_000
EMPTY_SESSIONS = 22_000_000
SECONDS, READING_SECONDS, MILLION_SECONDS = 120, 60, 300
UNPROVED_TIMES = 10
MEMORY = b'["memory"'
LONG_LINE = 60_000
FEW = 600
MILLIONS = (
    ("arrival", 16, 64, None, 1, 0),
    ("stamps", 16, 10_000, None, 1, 0),
    ("copy", 16, 64, "WriteCORead", 4, 0),
    ("copy", 100, 64, "CyclicHB", 8, 0),
    ("arrival", 64, 10_000, None, 1, 5_000),
)


class Case(NamedTuple):
    """What was found of an input with these words, and what was due."""

    words: list
    data: bytes
    found: object
    due: object


def text_of(form):
    return json.dumps(form, separators=(",", ":")).encode()


def outcome(program, words, data, seconds=SECONDS):
    """The status of a run and both its outputs."""
    try:
        done = subprocess.run([*program, *words], input=data, capture_output=True, check=False, timeout=seconds)
    except subprocess.TimeoutExpired:
        return f"no end within {seconds} seconds", "", ""
    return done.returncode, done.stdout.decode(), without_reason(words, done.stderr.decode())


def refusal(read, data):
    """What a reader refuses an input for; none where it reads it."""
    try:
        read(data)
    except reading.Refused as refused:
        return "refused " + " ".join(map(str, refused.args)) + "\n"
    return None


def refusal_of_judge(data):
    return refusal(lambda text: reading.read_history(reading.read_text(text)), data)


def answered(text, expected=()):
    """The outcome of a run that writes these lines, where these criteria are expected to be met."""
    return mangled.status_of({"--expect": expected}, ["; ".join(text.splitlines())]), text, ""


def due_by_plain(data, expected=()):
    """The outcome that is due to an input beyond the limits of `judge`, or to a refused one."""
    refused = refusal(reading.read_long, data)
    return (1, "", refused) if refused else answered(plain_long_judge.report(*reading.read_long(data)), expected)


def joined(found):
    """The line of `--lines` for an outcome."""
    return (found[2] if found[0] == 1 else found[1]).removesuffix("\n").replace("\n", "; ")


def answers(program, words, lines):
    """The answers of a run over lines, as many as there are lines."""
    written = outcome(program, [*words, "--lines"], b"".join(line + b"\n" for line in lines))[1].splitlines()
    return [answer for answer, _ in itertools.zip_longest(written, lines, fillvalue="")]


def random_options(rng):
    """Options of `judge`, the criteria that they expect, and the same options with `--long` somewhere among them."""
    options = [mangled.option_words(rng, option) for option in ("--workers", "--expect") if rng.random() < 0.3]
    order = order_of(["judge", *sum(options, [])])
    at = rng.randrange(len(options) + 1)
    return sum(options, []), order.get("--expect", ()), sum([*options[:at], ["--long"], *options[at:]], [])


def random_form(rng):
    """A memory of few sessions and operations, or of about as many as `judge` takes."""
    if rng.random() < 0.9:
        return random_memories.small(rng)
    shapes = Shape(rng.randint(15, 18), 3, 2), Shape(rng.randint(1, 3), rng.randint(254, 258), 3)
    return random_memories.memory(rng, rng.choice(shapes))[0]


def random_input(rng):
    """A text, mostly of a memory, which may be spoilt in its value and in its text."""
    if rng.random() < 0.15:
        return mangled.mangled(rng, "judge")
    form = random_form(rng)
    for _ in range(rng.choice((0, 0, 0, 1, 2))):
        form = mangled.spoilt_value(rng, form) if type(form) is list else form
    text = json.dumps(form, separators=rng.choice(((",", ":"), (" , ", " : ")))).encode()
    return mangled.spoilt_text(rng, text) if rng.random() < 0.2 else text


def beside_judge(program, data, options=(), expected=(), long_options=("--long",)):
    """A case of an input, to which the outcome of `judge` is due where `judge` takes what `--long` takes."""
    is_alike = refusal_of_judge(data) == refusal(reading.read_long, data)
    due = outcome(program, ["judge", *options], data) if is_alike else due_by_plain(data, expected)
    words = ["judge", *long_options]
    return Case(words, data, outcome(program, words, data), due)


def lines_together(program, cases, workers):
    """The cases of inputs without a line feed, and the answers to them in a run of `--lines`."""
    alone = [case for case in cases if b"\n" not in case.data and case.due[0] != 2]
    words = ["judge", "--long", "--workers", str(workers)]
    for case, answer in zip(alone, answers(program, words, [case.data for case in alone])):
        yield Case([*words, "--lines"], case.data, answer, joined(case.due))


def same_answers(program, rng, count):
    """Random inputs, each alone, and all in one run of `--lines`."""
    cases = []
    for _ in range(count):
        cases.append(beside_judge(program, random_input(rng), *random_options(rng)))
        yield cases[-1]
    yield from lines_together(program, cases, rng.choice((1, 2, 4)))


def memories_of_cases():
    """Each text in the tables of cases that is a memory, or what `judge` refuses instead, and each memory that stands before a claim. The
    cases of `--long` say themselves what is wanted."""
    for case in tables.read_tables(tables.DATA):
        words = case.commands[0]
        if "--long" in words:
            continue
        if words[:1] == ["judge"]:
            yield from case.input.split(b"\n") if "--lines" in words else [case.input]
        try:
            value = json.loads(case.input)
        except (ValueError, RecursionError):
            continue
        if type(value) is list and value and type(value[0]) is list:
            value = value[0]
        if type(value) is list and value[:1] == ["memory"]:
            yield text_of(value)


def same_answers_to_cases(program):
    """The memories in tests/cases."""
    cases = [beside_judge(program, data) for data in dict.fromkeys(memories_of_cases())]
    yield from cases
    yield from lines_together(program, cases, 2)
    yield Case(["memories of cases"], b"", len(cases) > 100 and sum(case.data.startswith(MEMORY) for case in cases) > 100, True)


def padded(rng, sessions):
    """The sessions with others of one write of a key of its own among them, 17 in all."""
    found, key = list(sessions), 1 + max((operation[1] for session in sessions for operation in session), default=0)
    for more in range(LEAST_LONG - len(sessions)):
        found.insert(rng.randrange(len(found) + 1), [["w", key + more, 1]])
    return found


def without_kind(answer):
    """An answer, without the kind of a `no` of cm."""
    return "; ".join(part.rsplit(" ", 1)[0] if part.startswith("cm no ") else part for part in answer.split("; "))


def decided_padded(program, rng, count):
    """Small memories of distinct values, and what the long decision says of them."""
    lines, longer, dues = [], [], []
    while len(lines) < count:
        form = random_memories.memory(rng, Shape(rng.randint(1, 8), rng.randint(1, 8), rng.randint(1, 4)), 2)[0]
        if max((operation[1] for session in form[1] for operation in session), default=0) < MOST_KEY - LEAST_LONG:
            many_sessions = text_of([form[0], padded(rng, form[1]), *form[2:]])
            due = joined(due_by_plain(many_sessions))
            if "unknown" not in due:
                lines.append(text_of(form))
                longer.append(many_sessions)
                dues.append(due)
    short, words = answers(program, ["judge"], lines), ["judge", "--long"]
    for data, found, before, due in zip(longer, answers(program, words, longer), short, dues):
        yield Case([*words, "--lines"], data, without_kind(found), without_kind(before))
        yield Case([*words, "--lines"], data, found, due)


def sure_histories():
    """Histories of stores and of faults, and one that writes a value twice, with what is sure of their lines."""
    for sessions, operations, width in ((20, 300, 3), (40, 400, 8), (4, 1_200, 1), (8, 3_200, 3)):
        faults = [("copy", fault) for fault in planted.FAULTS if max(map(len, planted.FAULTS[fault](width))) <= sessions]
        for store, fault in [(store, None) for store in store_runs.STORES] + faults:
            run = store_runs.history(store, sessions, operations, 8, 1, fault, width)
            form = ["memory", [list(map(list, session)) for session in run]]
            yield form, store_runs.sure_lines(store, fault)
        form[1][-1] += [["w", 0, 0]]
        yield form, dict.fromkeys(CRITERIA, "unknown")


def said(answer):
    """What an answer says of each criterion."""
    return dict(part.partition(" ")[::2] for part in answer.split("; "))


def sure_of(found, lines):
    """What an outcome says where something is sure, and whether it says all that is decided, and nothing else was written."""
    text = said(joined(found))
    is_whole = text.keys() == set(CRITERIA) and found[::2] == (0, "")
    return {criterion: text.get(criterion) for criterion in lines}, is_whole and ("unknown" in text.values()) == ("unknown" in lines.values())


def decided_surely(program, seen):
    """Histories of which the lines are known from how they were made: the plain judge has to say them too, where it takes not too long."""
    for form, lines in sure_histories():
        data, words = text_of(form), ["judge", "--long"]
        found = outcome(program, words, data)
        yield Case(words, data, sure_of(found, lines), (lines, True))
        if sum(map(len, form[1])) <= FEW:
            due = due_by_plain(data)
            yield Case(words, data, found, due)
            yield Case(["plain_long_judge"], data, sure_of(due, lines), (lines, True))
        seen.update(f"{criterion} {line}" for criterion, line in lines.items())


def decided(program, rng, count, seen):
    """Long histories, and what the plain judge says of them."""
    cases = []
    for number in range(count):
        form, _ = random_memories.tall(rng) if number % 4 == 0 else random_memories.wide(rng)
        data, (_, expected, words) = text_of(form), random_options(rng)
        words = ["judge", *words]
        cases.append(Case(words, data, outcome(program, words, data), due_by_plain(data, expected)))
        seen.update(cases[-1].due[1].splitlines())
        yield cases[-1]
    for workers in (1, 4):
        yield from lines_together(program, cases, workers)


def lines_seen(seen):
    """Each kind has to be named by each line that it is against, and each line has to say yes and unknown too."""
    lines = [f"{criterion} no {kind}" for kind, against in AGAINST.items() for criterion in against]
    lines += [f"{criterion} {word}" for criterion in CRITERIA for word in ("yes", "unknown")]
    for line in lines:
        yield Case([line], b"", seen[line] > 0, True)


def many(session, sessions=20):
    """So many sessions, of which the last is given."""
    return [[["w", s, 1]] for s in range(sessions - 1)] + [session]


WRITES = [["w", key, 1] for key in range(300)]
REFUSED = (
    *((text_of([name, many([])]), "3") for name in (*OBJECTS, "memories", "Memory") if name != "memory"),
    (text_of(["counter", [[["get"]]], [[0, 0]]]), "3"),
    (text_of(["foo", [], 0]), "2"),
    (text_of(["memory", {}]), "2"),
    (text_of(["memory", many(0)]), "2"),
    (text_of(["memory", many([["w", 0]])]), "4 19.0"),
    (text_of(["memory", [[*WRITES, ["inc"]]]]), "4 0.300"),
    (text_of(["memory", [[*WRITES, ["w", 2**32, 1]]]]), "4 0.300"),
    (text_of(["memory", [[*WRITES, ["w", 0, 2**64]]]]), "4 0.300"),
    (text_of(["memory", [[*WRITES, ["r", 0, "?"], ["w", 0, 2, "?"], ["r", 0, 1]]]]), "5 0.302"),
    (text_of(["memory", [*many([["r", 0, "?"], ["r", 0, 1]]), [["x"]], 0], [[0, 0]]]), "5 19.1"),
    (text_of(["memory", [*many([["x"]]), 0], []]), "4 19.0"),
    (text_of(["memory", many([]), []]), "29"),
    (text_of(["memory", many([]), [[1, 5], [0, 5]]]), "29"),
    (text_of(["memory", many([]), [[0, 5], [0, 6]]]), "29"),
    (text_of(["memory", many([]), [[0, 5], [1, 0]]]), "29"),
    (text_of(["memory", many([]), [[key, 5] for key in range(MOST_ENTRIES + 1)] + [[9, 9]]]), "29"),
    (text_of(["memory", many([["x"]])])[:-1], "1"),
    (text_of(["counter", many([])])[:-1], "1"),
    (text_of(["memory", many(["N"])]).replace(b'"N"', b"1e400"), "1"),
    (text_of(["memory", many([["w", 0, "N"]])]).replace(b'"N"', b"[" * 124 + b"]" * 124), "1"),
    (text_of(["memory", many([["w", 0, "N"]])]).replace(b'"N"', b"[" * 123 + b"]" * 123), "4 19.0"),
)
TABLE = [[key, key + 2] for key in range(MOST_ENTRIES + 904)]
INITIAL = [["r", key, value] for key, value in TABLE[-3:]]
TABLES = (
    ["memory", [INITIAL], TABLE],
    ["memory", [[["w", 4_999, 1]], INITIAL], TABLE],
    ["memory", [[["w", 4_999, 1], *INITIAL]], TABLE],
    ["memory", [[["w", 4_999, 5_001]], INITIAL], TABLE],
    ["memory", [[["w", 4_999, 0]], [["r", 4_999, 0], ["r", 5_000, 0]]], TABLE],
    ["memory", [[["r", 4_999, 0]]], TABLE],
    ["memory", [[["w", 4_999, 1], ["w", 4_999, 1]]], TABLE],
)
DIVERGING = ["memory", many([["w", 99, 1], ["r", 99, 2]]) + [[["w", 99, 2], ["r", 99, 1]]]]
TWICE = ["memory", many([["w", 0, 1]])]
THIN = ["memory", [[*WRITES, ["r", 0, 7]]]]
MET, CONFLICT = "cc yes\ncm yes\nccv yes\n", "cc yes\ncm yes\nccv no CyclicCF\n"
NO, UNKNOWN = "".join(f"{criterion} no ThinAirRead\n" for criterion in CRITERIA), "".join(f"{criterion} unknown\n" for criterion in CRITERIA)
STATUSES = (
    (DIVERGING, "--expect=cc,cm", 0, CONFLICT),
    (DIVERGING, "--expect=cm,ccv", 5, CONFLICT),
    (TWICE, "--workers=16", 0, UNKNOWN),
    (TWICE, "--expect=ccv", 6, UNKNOWN),
    (THIN, "--expect=cc", 5, NO),
    (["memory", []], "--expect=cc,cm,ccv", 0, MET),
    (["memory", [[]] * 400], "--expect=cc,cm,ccv", 0, MET),
    (["memory", many(WRITES[20:])], "--expect=cc,cm,ccv", 0, MET),
)
NO_COMMAND_LINE = (
    ["judge", "--long", "--long"],
    ["judge", "--long=1"],
    ["judge", "--long", "--expect", "cc,cc"],
    ["judge", "--long", "--workers", "0"],
    ["check", "--long"],
    ["explain", "--long", "--long"],
    ["refute", "--long=1"],
    ["replay", "--long"],
    ["drive", "causal", "--long"],
)


def refused_as_lines():
    """Each refused input with what its line says, and one that is a byte too long for a line."""
    yield from REFUSED
    yield text_of(["memory", many([])]).ljust(reading.MOST_BYTES + 1), "9"


def single(program):
    """Refusals, long tables, statuses, and words that are no command line."""
    words = ["judge", "--long"]
    for data, place in REFUSED:
        yield Case(words, data, outcome(program, words, data), (1, "", f"refused {place}\n"))
    for form in TABLES:
        yield Case(words, text_of(form), outcome(program, words, text_of(form)), due_by_plain(text_of(form)))
    for form, option, status, text in STATUSES:
        for order in (["judge", "--long", option], ["judge", option, "--long"]):
            yield Case(order, text_of(form), outcome(program, order, text_of(form)), (status, text, ""))
    for wrong in NO_COMMAND_LINE:
        status, written, error = outcome(program, wrong, b'["memory",[]]')
        yield Case(wrong, b"", (status, written, error[:7]), (2, "", "error: "))


def together(program):
    """Lines of all lengths, answered and refused, with the status that follows from them."""
    long_line = text_of(["memory", [[["w", key, 1] for key in range(LONG_LINE)]]])
    answered_lines = [(text_of(form), answered(text)) for form, _, _, text in STATUSES] + [(long_line, answered(MET))]
    refused_lines = [(data, (1, "", f"refused {place}\n")) for data, place in refused_as_lines()] + [(b"", (1, "", "refused 1\n"))]
    for lines, is_refused in ((answered_lines, False), (answered_lines + refused_lines, True)):
        data = b"".join(line + b"\n" for line, _ in lines)
        due = "".join(f"{joined(answer)}\n" for _, answer in lines)
        for option, status in (("--workers=1", 0), ("--workers=4", 0), ("--expect=cc", 5), ("--expect=cm,ccv", 5)):
            words = ["judge", "--lines", option, "--long"]
            remarks = remarks_due([line for line, _ in lines], False)
            yield Case(words, data, outcome(program, words, data), (1 if is_refused else status, due, remarks))


def of_full_size(program):
    """A million operations, with what is sure of them, and as many empty sessions as an input has room for."""
    words, times = ["judge", "--long"], UNPROVED_TIMES if is_unproved(program) else 1
    data = b'["memory",[' + b"[]," * (EMPTY_SESSIONS - 1) + b"[]]]"
    yield Case(words, data, outcome(program, words, data, times * READING_SECONDS), (0, MET, ""))
    for store, sessions, keys, fault, width, lost in MILLIONS:
        data = "".join(store_runs.pieces(store_runs.history(store, sessions, MILLION, keys, 1, fault, width, lost=lost))).encode()
        found, lines = outcome(program, words, data, times * MILLION_SECONDS), store_runs.sure_lines(store, fault)
        yield Case(words, data, sure_of(found, lines), (lines, True))


def kept(data):
    """The name of a file with an input, which stays."""
    with tempfile.NamedTemporaryFile(prefix="long-histories-", suffix=".json", delete=False) as file:
        file.write(data)
    return file.name


def all_cases(program, given, rng, seen):
    yield from single(program)
    yield from together(program)
    yield from same_answers_to_cases(program)
    yield from same_answers(program, rng, given.memories)
    yield from decided_padded(program, rng, given.memories)
    yield from decided_surely(program, seen)
    yield from decided(program, rng, given.histories, seen)
    yield from lines_seen(seen)
    if given.long:
        yield from of_full_size(program)


def main():
    parser = argparse.ArgumentParser(description=__doc__, formatter_class=argparse.RawDescriptionHelpFormatter)
    parser.add_argument("seed", type=int)
    parser.add_argument("memories", type=int)
    parser.add_argument("histories", type=int)
    parser.add_argument("--long", action="store_true")
    given = with_program(parser)
    passed, failed, seen = 0, 0, Counter()
    for case in all_cases(given.program, given, random.Random(given.seed), seen):
        passed, failed = passed + (case.found == case.due), failed + (case.found != case.due)
        if case.found != case.due:
            print(f"{' '.join(case.words)} < {kept(case.data)}: {case.found!r}, due {case.due!r}", flush=True)
    for line, times in sorted(seen.items()):
        print(f"{times:8} {line}")
    end(passed, failed)


if __name__ == "__main__":
    main()
