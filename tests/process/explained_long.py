#!/usr/bin/env python3
"""Puts what `explain --long` shows of random long memories to `judge`, to `refute --long` and to plain programs.

    python3 tests/process/explained_long.py SEED COUNT -- PROGRAM

Each history is a memory: a small one, one of many sessions, or a run of a store of up to 20 sessions of up to 400 operations. Most have
faults of planted.py, and many are beyond the limits of `judge`.

- The words: the lines that are not indented are those of `judge --long`. What the lines below say of single operations is true of the
  history, and they name no operation that it does not have. Behind a `no` come either the operations that show it, or a core with the
  places that its operations have in the whole: each is the very operation, sessions stay sessions in their order, initial values are the
  same, and `judge` says the same line of the core. Of a history within the limits of `judge`, what stands below a `no` and an `unknown`
  is what `explain` writes there, in which a core has no places.
- `--json`: the same answers. Each pattern shows its kind by patterns.py, and `refute --long` accepts it, as does `refute` where the
  history is within its limits. Beside it stands the guarantee that its stale read breaks, by plain_remarks.py.
- `--svg`: one picture, with all that pictures.py asks of it.
- Mangled patterns: with a number changed, an operation that is out of range, or another criterion. `refute --long` accepts those that
  show something by patterns.py, and refuses the others.

Each of the seven kinds has to be shown by a pattern and by a core. It prints a line for each history with a fault, with the file in which
its form is kept, and how often each thing came.
"""

import copy
import json
import re

import folders  # noqa: F401
import pictures
import plain_remarks
import random_memories
import reading
from explained import core_in, line_of, repeated_reasons, said, sections
from patterns import AGAINST, CRITERIA, MemoryHistory, is_pattern, shows
from random_histories import run_random
from random_memories import Shape

MOST_SESSIONS, LENGTHS, KEYS, WIDTHS = 20, (40, 150, 400), (2, 8, 60), (1, 1, 3, 17)
MANGLED = 5
FAR = (0, 1, 2, 15, 16, 255, 256, 2**32, 2**64 - 1, 2**64)
PLACE = r"\d+\.\d+"
PLACES = re.compile(rf"({PLACE}) is ({PLACE})")
OPERATION = re.compile(rf"({PLACE}) (writes|reads) (\d+) (?:to|from) variable (\d+)(, and its return is not known)?")
FOLLOWS = re.compile(rf"({PLACE}) follows ({PLACE}) in its session")
READS_FROM = re.compile(rf"({PLACE}) reads from ({PLACE})")


def large(rng):
    """A run of a store, mostly with faults."""
    shape = Shape(rng.randint(2, MOST_SESSIONS), rng.choice(LENGTHS), rng.choice(KEYS))
    sessions = random_memories.of_store(rng, shape)
    if rng.random() < 0.85:
        random_memories.plant(rng, sessions, shape.keys, rng.choice(WIDTHS))
    if rng.random() < 0.15:
        random_memories.spoil(rng, sessions)
    if rng.random() < 0.3:
        random_memories.hide_returns(rng, sessions)
    if rng.random() < 0.03:
        random_memories.double(rng, sessions)
    table = random_memories.rename(rng, sessions) if rng.random() < 0.3 else []
    return ["memory", sessions, *([table] if table else [])]


def history(rng):
    """The form of a memory."""
    make = rng.choice((large, large, lambda rng: random_memories.wide(rng)[0], random_memories.small))
    return make(rng)


class Whole:
    """A history that is explained: its form, its parts, what is known of its operations, and the lines of `judge --long`."""

    def __init__(self, form, lines):
        self.form = form
        self.start, self.sessions = reading.read_long(json.dumps(form).encode())
        self.known = MemoryHistory(self.sessions, self.start)
        self.is_small = reading.is_small(self.start, self.sessions)
        self.lines = lines


def op_of(name):
    """The operation that a name names."""
    return tuple(map(int, name.split(".")))


def is_true(known, line):
    """Whether a line that says one thing of one or two operations is true; a line of any other form is left to others."""
    if found := OPERATION.fullmatch(line):
        name, word, value, variable, is_open = found.groups()
        call, ret = known.operations.get(op_of(name), ([None], None))
        if word == "writes":
            return call == ["w", int(variable), int(value)] and (ret == reading.UNKNOWN) == bool(is_open)
        return call == ["r", int(variable)] and ret == int(value) and not is_open
    if found := FOLLOWS.fullmatch(line):
        later, before = map(op_of, found.groups())
        return later in known.operations and later[0] == before[0] and before[1] < later[1]
    if found := READS_FROM.fullmatch(line):
        read, write = map(op_of, found.groups())
        return known.source(read) == write
    return True


def place_faults(whole, core, places):
    """What is wrong with the places that the operations of a core have in the whole."""
    start, sessions = reading.read_history(core)[1:]
    part, pairs = MemoryHistory(sessions, start), [tuple(map(op_of, pair)) for pair in PLACES.findall(places)]
    found = []
    if [own for own, _ in pairs] != list(part.operations):
        return [f"the places {places!r} are not those of the core {json.dumps(core)}"]
    if any(part.operations[own] != whole.known.operations.get(there) for own, there in pairs):
        found.append(f"an operation of the core {json.dumps(core)} is another one at its place: {places!r}")
    kept = all((one[0] == other[0]) == (here[0] == there[0]) for one, here in pairs for other, there in pairs)
    if not kept or any(one[0] == other[0] and here >= there for (one, here), (other, there) in zip(pairs, pairs[1:])):
        found.append(f"the places do not keep the sessions: {places!r}")
    if any(part.initial(call[1]) != whole.known.initial(call[1]) for call, _ in part.operations.values()):
        found.append(f"the core {json.dumps(core)} starts with other values")
    return found


def no_faults(program, whole, line, reason, seen):
    """What is wrong with the lines below a `no`."""
    cores = [number for number, words in enumerate(reason) if core_in(words) is not None]
    if not cores:
        seen["a no without a core"] += 1
        return [] if any("show it" in words for words in reason) else [f"no operations show {line!r}: {reason!r}"]
    seen[f"core of {line}"] += 1
    core, behind = core_in(reason[cores[0]]), [*reason[cores[0] + 1 :], ""]
    judged = said(program, ["judge"], core)[1]
    found = [] if line in judged.splitlines() else [f"of the core {json.dumps(core)} of {line!r} judge says {judged!r}"]
    return found if whole.is_small else found + place_faults(whole, core, behind[0])


def word_faults(program, whole, seen):
    """What is wrong with the words."""
    status, text = said(program, ["explain", "--long"], whole.form)
    if status != 0:
        return [f"status {status} of explain --long"]
    found, parts = repeated_reasons(text), sections(text)
    if [line for line, _ in parts] != whole.lines:
        found.append(f"judge says {whole.lines!r}, and the words begin with {[line for line, _ in parts]!r}")
    if whole.is_small:
        short = sections(said(program, ["explain"], whole.form)[1])
        apart = [(one, other) for one, other in zip(parts, short) if one != other and not one[0].endswith(" yes")]
        found += [f"explain writes {other!r}, and --long {one!r}" for one, other in apart]
    for line, reason in parts:
        found += [f"below {line!r} stands {words!r}" for words in reason if not is_true(whole.known, words)]
        if " no " in line:
            found += no_faults(program, whole, line, reason, seen)
            own = [words for words in reason if not PLACES.search(words) and core_in(words) is None]
            named = {op_of(name) for words in own for name in re.findall(PLACE, words)}
            found += [f"below {line!r} are named {named - whole.known.operations.keys()}"] if named - whole.known.operations.keys() else []
        elif not reason:
            found.append(f"nothing stands below {line!r}")
    return found


def outcome_of(program, words, claim):
    """What a program says of a claim, or that it refuses it."""
    status, text = said(program, words, claim)
    return text if status == 0 else f"status {status}"


def due_of(whole, claim):
    """What `refute --long` has to say of a claim on a history."""
    _, criterion, pattern = claim
    if criterion in CRITERIA and is_pattern(pattern) and shows(whole.known, criterion, pattern):
        return f"{criterion} no {pattern[0]}\n"
    return "status 1"


def number_places(value, path=()):
    """The places of the numbers in a value."""
    if type(value) is int:
        yield path
    elif type(value) is list:
        for at, part in enumerate(value):
            yield from number_places(part, (*path, at))


def with_number(pattern, path, change):
    """A copy of a pattern with a number changed."""
    changed = copy.deepcopy(pattern)
    *above, last = path
    part = changed
    for at in above:
        part = part[at]
    part[last] = change(part[last])
    return changed


def mangled(rng, whole, criterion, pattern):
    """A criterion and a pattern, of which one is changed a little."""
    if rng.random() < 0.15:
        return rng.choice(CRITERIA), pattern
    if rng.random() < 0.1:
        return criterion, [rng.choice(list(AGAINST)), *pattern[1:]]
    path = rng.choice(list(number_places(pattern)))
    ends = (len(whole.sessions), max(map(len, whole.sessions)), *FAR)
    change = rng.choice((lambda n: n + 1, lambda n: n - 1, lambda n: rng.choice(ends), lambda n: rng.randrange(max(ends[:2]))))
    return criterion, with_number(pattern, path, change)


def claim_faults(program, whole, claim, what, seen):
    """What is wrong with the outcome of `refute --long` for a claim, and of `refute` where it takes the history."""
    due, found = due_of(whole, claim), []
    for words in (["refute", "--long"], *([["refute"]] if whole.is_small else [])):
        outcome = outcome_of(program, words, claim)
        seen[f"{what} {'refused' if due == 'status 1' else 'accepted'} by {' '.join(words)}"] += 1
        if outcome != due:
            found.append(f"{' '.join(words)} says {outcome!r} of {json.dumps(claim[1:])}, due {due!r}")
    return found


def pattern_faults(program, whole, rng, seen):
    """What is wrong with the patterns that `explain --long --json` shows, and with what is said of mangled ones."""
    status, text = said(program, ["explain", "--long", "--json"], whole.form)
    if status != 0:
        return [f"status {status} of explain --long --json"]
    found, reasons = [], json.loads(text)
    if [line_of(reason) for reason in reasons] != whole.lines:
        found.append(f"judge says {whole.lines!r}, and --json {text!r}")
    for criterion, word, shown, *beside in reasons:
        if word == "no" and beside != plain_remarks.on_pattern(shown):
            found.append(f"beside {json.dumps(shown)} of {criterion} stands {beside!r}")
        if word != "no" or type(shown) is str:
            seen[f"{word} with " + ("a kind alone" if word == "no" else json.dumps(shown))] += 1
            continue
        seen[f"pattern of {criterion} no {shown[0]}"] += 1
        if due_of(whole, [None, criterion, shown]) == "status 1":
            found.append(f"{criterion} is not refuted by {json.dumps(shown)}")
        found += claim_faults(program, whole, [whole.form, criterion, shown], "pattern", seen)
        for _ in range(MANGLED):
            claim = [whole.form, *mangled(rng, whole, criterion, shown)]
            found += claim_faults(program, whole, claim, "mangled pattern", seen)
    return found


def picture_faults(program, form):
    """What is wrong with the picture."""
    status, text = said(program, ["explain", "--long", "--svg"], form)
    return pictures.faults_of(text) if status == 0 else [f"status {status} of explain --long --svg"]


def faults(program, form, rng, seen):
    """What is wrong with the explanations of a history."""
    status, lines = said(program, ["judge", "--long"], form)
    if status != 0:
        return [f"status {status} of judge --long"]
    whole = Whole(form, lines.splitlines())
    seen.update(whole.lines)
    seen["beyond the limits of judge"] += not whole.is_small
    return word_faults(program, whole, seen) + pattern_faults(program, whole, rng, seen) + picture_faults(program, form)


def main():
    named = [f"{what} of {criterion} no {kind}" for what in ("pattern", "core") for kind, some in AGAINST.items() for criterion in some]
    run_random(__doc__, "explained-long", history, faults, named)


if __name__ == "__main__":
    main()
