#!/usr/bin/env python3
"""Compares the guarantees that `explain` says stale reads break with a plain reading of what it shows.

    python3 tests/process/guarantees.py SEED COUNT -- PROGRAM

Each input is a memory, small or of many sessions (random_memories.py), one whose reads return any earlier value, or one in which a read misses
a write that came to its session by some links, or a log of events (random_logs.py) of such a memory. It follows docs/definitions.md, the part
"Guarantees", and knows nothing of the program.

- The words of `explain`, with `--long` and, where the history is within its limits, without: each stale read is followed by the line
  `This breaks ..`, and nothing else is. The guarantee is that of the steps that the words show, from the missed write to the read. Where steps
  are left out, any guarantee may be named.
- `explain --json`: beside each pattern of a stale read, and beside no other, stands the guarantee of its path.
- The list of `explain --all`, as JSON and in words: each stale read has the first guarantee by which the missed write was due, which is
  searched for in the whole history, and each guarantee is counted.

Each guarantee has to be named in words, as JSON and in lists, and a lost write has to be on the way of some. It prints a line for each input with a
fault, and how often each guarantee came.
"""

import json
import re
import subprocess
from collections import Counter

import folders  # noqa: F401
import listed_faults
import plain_events
import plain_faults
import plain_remarks
import random_logs
import reading
from patterns import MemoryHistory
from plain_remarks import GUARANTEES, is_later, of_steps
from random_histories import run_random

NAME = r"(?:line \d+(?: \((?:call|later)\))?|\d+\.\d+)"
FOLLOWS = re.compile(rf"({NAME}) follows ({NAME}) in its session")
READS_FROM = re.compile(rf"({NAME}) reads from ({NAME})")
STALE = re.compile(rf"({NAME}) (?:read|found nothing at) .*, which ({NAME}) had overwritten in its past\.")
BREAKS = re.compile(r"This breaks (.*)\.")
COUNTED = re.compile(rf"({'|'.join(GUARANTEES)}): broken by (\d+) reads?")
LEFT_OUT = "more steps are left out here"
LISTED = 1000
WAY_OF_LOST = ("a lost write on the way of words", "a lost write on the way of a list", "a lost write on the way of JSON")


def steps_of(lines):
    """The steps that lines show: from each operation the later ones, each with whether it is of the same client."""
    steps = {}
    for line in lines:
        if found := FOLLOWS.fullmatch(line):
            later, before = found.groups()
            steps.setdefault(before, []).append((later, True))
        elif found := READS_FROM.fullmatch(line):
            read, write = found.groups()
            is_lost = write.endswith(" (call)") and read == write.replace("(call)", "(later)")
            steps.setdefault(write, []).append((read, is_lost))
    return steps


def way(steps, begin, end):
    """The shortest way from one operation to another: for each of its steps whether it is of the same client. None where there is none."""
    waiting, seen = [(begin, ())], {begin}
    for here, taken in waiting:
        if here == end:
            return taken
        for later, stays in steps.get(here, []):
            if later not in seen:
                seen.add(later)
                waiting.append((later, (*taken, stays)))
    return None


def shown_guarantee(lines, missed, read):
    """What the steps that lines show break. None where they show no way."""
    taken = way(steps_of(lines), missed, read)
    if not taken:
        return None
    return of_steps(taken)


def reasons_of(text):
    """The lines below each line of `judge`, and below each line on a history without some variables."""
    found = []
    for line in text.splitlines():
        if not line.startswith("  ") or line.startswith("  Without "):
            found.append([])
        else:
            found[-1].append(line.strip())
    return found


def reason_faults(lines, seen):
    """What is wrong with the guarantees that the lines of a reason name."""
    stale = [at for at, line in enumerate(lines) if STALE.fullmatch(line)]
    named = [at for at, line in enumerate(lines) if BREAKS.fullmatch(line)]
    if named != [at + 1 for at in stale]:
        return [f"guarantees are named by the lines {named} of {lines}"]
    found = []
    for at in stale:
        read, missed = STALE.fullmatch(lines[at]).groups()
        said, due = BREAKS.fullmatch(lines[at + 1])[1], shown_guarantee(lines[:at], missed, read)
        if said not in GUARANTEES or said != due and not any(LEFT_OUT in line for line in lines[:at]):
            found.append(f"{lines[at + 1]!r}, due {due}: {lines}")
        seen[f"{said} in words"] += 1
        seen[WAY_OF_LOST[0]] += any("(later)" in line for line in lines[:at])
    return found


class Whole:
    """A history whose reads are listed, by the names (session, index) of its operations. The sessions from `clients` on are those of lost
    writes: the first operation of each reads from the call of its write."""

    def __init__(self, form, clients):
        start, sessions = reading.read_long(json.dumps(form).encode())
        known = MemoryHistory(sessions, start)
        self.clients, self.source = clients, {op: known.source(op) for op in known.operations}
        self.found = plain_faults.faults(start, sessions)

    def seen_before(self, read):
        """What was read directly by a session before a read."""
        return {self.source[read[0], index] for index in range(read[1])} - {None}

    def place(self, write):
        """Where a write is in its client: a lost one is where its call is."""
        return self.source[write[0], 0] if write[0] >= self.clients else write

    def due(self, missed, read, place):
        """The first guarantee by which a write was due to a read, with these places of writes."""
        seen = [place(write) for write in self.seen_before(read)]
        is_seen_after = lambda op: any(other[0] == op[0] and other[1] > op[1] for other in seen)
        readers = [op for op, source in self.source.items() if source == missed]
        ways = missed[0] == read[0], missed in self.seen_before(read), is_seen_after(missed), any(map(is_seen_after, readers))
        return GUARANTEES[ways.index(True)] if True in ways else GUARANTEES[-1]

    def stays(self, before, after):
        """Whether the step from one operation to another stays with one client: within a session, or to the end of its lost write."""
        return is_later(before, after) or after[0] >= self.clients and after[1] == 0

    def due_to(self, fault, place):
        """The guarantee that a listed fault breaks, if it is a stale read."""
        kind, read, *others = fault
        return None if kind == "ThinAirRead" else self.due(tuple(others[-1]), tuple(read), place)


def remark_faults(whole, reasons, seen):
    """What is wrong with what stands beside the patterns of an explanation as JSON."""
    found = []
    for criterion, word, shown, *beside in reasons:
        due = plain_remarks.on_pattern(shown, whole.stays) if word == "no" else []
        if word != "unknown" and beside != due:
            found.append(f"beside {shown} of {criterion} stands {beside}, due {due}")
        seen.update(f"{name} as JSON" for name in due)
        seen[WAY_OF_LOST[2]] += bool(due) and due != plain_remarks.on_pattern(shown)
    return found


def list_faults(whole, listed, words, seen):
    """What is wrong with the guarantees of a list, as JSON and in words. All faults are listed."""
    if whole.found is None:
        return [] if listed is None else [f"{listed} is listed where values are not distinct"]
    faults, (counts, names) = listed[2], listed[3]
    due, of_sessions = ([whole.due_to(fault, place) for fault in faults] for place in (whole.place, lambda write: write))
    found = [] if names == due else [f"the list {faults} has {names}, due {due}"]
    if counts != [[name, due.count(name)] for name in GUARANTEES]:
        found.append(f"{counts} is counted of {due}")
    lines = words.splitlines()
    told = [(name, int(many)) for line in lines if (match := COUNTED.fullmatch(line.strip())) for name, many in [match.groups()]]
    if told != [(name, many) for name, many in counts if many]:
        found.append(f"{told} is counted in words, {counts} as JSON")
    ends = Counter(name for line in lines for name in GUARANTEES if line.endswith(f", breaks {name}"))
    if ends != Counter(name for name in names if name):
        found.append(f"the lines of the list have {ends}, the JSON has {names}")
    seen.update(f"{name} in a list" for name in names if name)
    seen[WAY_OF_LOST[1]] += due != of_sessions
    return found


def answer(program, words, data):
    """What the program writes."""
    ran = subprocess.run([*program, *words], input=data, capture_output=True, check=True)
    return ran.stdout.decode()


def forgetful(rng):
    """A memory in which a read returns the latest value of its key, or any that was written before it, or the initial one."""
    sessions, written = [[] for _ in range(rng.randint(1, 8))], [[0] for _ in range(rng.randint(1, 20))]
    for value in range(1, rng.randint(4, 60)):
        key = rng.randrange(len(written))
        last = written[key][-1]
        operation = ["w", key, value] if rng.random() < 0.5 else ["r", key, last if rng.random() < 0.7 else rng.choice(written[key])]
        written[key] += [value] * (operation[0] == "w")
        rng.choice(sessions).append(operation)
    return ["memory", [session for session in sessions if session]]


def planted(rng):
    """A memory in which a read misses a write that came to its session by some links, beside other operations."""
    sessions = forgetful(rng)[1] + [[], []]
    key = 1 + max((operation[1] for session in sessions for operation in session), default=0)
    missed, here = key, rng.choice(sessions)
    here.append(["w", missed, 1])
    for _ in range(rng.randint(0, 4)):
        if rng.random() < 0.7:
            key += 1
            here.append(["w", key, 1])
        here = rng.choice(sessions)
        here.append(["r", key, 1])
    here.append(["r", missed, 0])
    return ["memory", [session for session in sessions if session]]


def log_of(rng, form):
    """The events of a log of a memory, in which some writes are lost."""
    events, lost = random_logs.of_memory(rng, form, rng.choice((0, 0.1))), rng.choice((0, 0.2, 0.5))
    return [["lost", event[1]] if event[0] == "end" and event[2] == "ok" and rng.random() < lost else event for event in events]


def made(rng):
    """A memory, or the events of a log."""
    if rng.random() < 0.2:
        return listed_faults.faulty(rng)
    form = rng.choice((forgetful, planted, planted))(rng)
    return log_of(rng, form) if rng.random() < 0.5 else form


def read_form(form):
    """The bytes of an input, the words that it is given with, its history, and how many sessions are those of clients."""
    if form[:1] == ["memory"]:
        start, sessions = reading.read_long(json.dumps(form).encode())
        options = [["--long"], *([[]] if reading.is_small(start, sessions) else [])]
        return json.dumps(form).encode(), options, form, len(form[1])
    data = b"".join(json.dumps(event).encode() + b"\n" for event in form)
    read = plain_events.read_log(data)
    run = plain_events.Run(read.events, is_timed=read.is_timed)
    return data, [["--long", "--events"]], run.form(), len(run.origins) - len(run.forks)


def faults_of(program, form, rng, seen):
    """What is wrong with what is said of an input."""
    data, options, history, clients = read_form(form)
    whole, found = Whole(history, clients), []
    for option in options:
        for lines in reasons_of(answer(program, ["explain", *option], data)):
            found += reason_faults(lines, seen)
        found += remark_faults(whole, json.loads(answer(program, ["explain", "--json", *option], data)), seen)
        listing = ["explain", "--all", str(LISTED), *option]
        listed = json.loads(answer(program, [*listing, "--json"], data))[1]
        found += list_faults(whole, listed, answer(program, listing, data), seen)
    return found


def main():
    named = [f"{name} {where}" for name in GUARANTEES for where in ("in words", "as JSON", "in a list")]
    run_random(__doc__, "guarantees", made, faults_of, [*named, *WAY_OF_LOST])


if __name__ == "__main__":
    main()
