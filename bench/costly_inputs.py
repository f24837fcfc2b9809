#!/usr/bin/env python3
"""Makes the costliest inputs within the limits for each command, the same ones each time.

    python3 bench/costly_inputs.py OUTDIR [NAME..]

Each input is what is thought to take longest in one way: INPUTS names them, with the words of the command that reads them. The
files are named NAME.json. costliest.py runs a program on them.
"""

import argparse
import json
import pathlib
import random
import sys
from typing import Callable, NamedTuple

import full_script

sys.path.insert(0, str(pathlib.Path(__file__).resolve().parent.parent / "tests"))
import folders  # noqa: E402, F401
import short_runs  # noqa: E402
from objects import MOST_KEY, MOST_NUMBER, UNKNOWN, State, operation  # noqa: E402

SESSIONS = 16
OPERATIONS = 256
ENTRIES = 4096
STEPS = 65_536
LINES = 100_000
BYTES = 67_108_864
LEVELS = 127
LOOKS = 9_999
BLOCK = 10_000
SPARE_KEY = MOST_KEY - ENTRIES


def compact(value):
    return json.dumps(value, separators=(",", ":"))


# Histories of a memory.


def table():
    """As many initial values as there may be, which nothing writes."""
    return [[key, MOST_NUMBER - key] for key in range(ENTRIES)]


def chain(keys=ENTRIES, update="w", query="r", answer=()):
    """Sessions that take turns to ask for what the one before did and to do something anew: one path through all operations."""
    sessions = [[] for _ in range(SESSIONS)]
    first = [update, SPARE_KEY, 1]
    for turn in range(SESSIONS * OPERATIONS // 2):
        done = [turn % keys, turn + 1]
        sessions[turn % SESSIONS] += [first, [update, *done]]
        first = [query, *done, *answer]
    return sessions


def with_a_value_twice(sessions):
    """The same sessions, in which two writes that nobody reads from write one value, so that nothing decides them."""
    read = {tuple(form[1:]) for session in sessions for form in session if form[0] == "r"}
    changed = [list(session) for session in sessions]
    operations = [(s, i, form) for s, session in enumerate(sessions) for i, form in enumerate(session)]
    unread = [(s, i) for s, i, (word, *rest) in operations if word == "w" and tuple(rest) not in read]
    for s, i in unread[-2:]:
        changed[s][i] = ["w", SPARE_KEY, 2]
    return changed


def store_run(shape):
    """A healthy run of a replicated store."""
    run = short_runs.make_run(shape, OPERATIONS, random.Random(shape))
    return [[operation.form() for operation in session] for session in run.operations]


def growing(old, behind, readers, steps=None):
    """Sessions whose happened-before relations grow by one operation at a time.

    Old sessions and one more write the same variables. Each reader sees the writes of that one as the later ones, one after the
    other: so with each read one operation more of each old session comes before that one's writes, and before all operations of the
    sessions that stand behind these. Where nobody says in how many steps, they are as many as can be, and the last reader ends with
    reads that give a cycle: else orders of the sessions would show causal memory before the relations are made.
    """
    most = OPERATIONS - old - behind - 2
    many = most if steps is None else steps
    cycle, mark, rival = many, many + 1, old
    written = [[["w", key, s + 1] for key in range(many)] for s in range(old + 1)]
    written[0].append(["w", cycle, 1])
    written[rival].append(["w", cycle, rival + 1])
    sessions = [session + [["w", mark + s, 1]] for s, session in enumerate(written)]
    idle = ["r", SPARE_KEY, 0]
    sessions += [[["r", mark + rival, 1], *[idle] * (OPERATIONS - 2), ["w", mark + old + 1 + s, 1]] for s in range(behind)]
    marks = [["r", mark + s, 1] for s in range(old + 1 + behind) if s != rival]
    reads = [["r", key, rival + 1] for key in range(many)] + [idle] * (most - many)
    sessions += [marks + reads for _ in range(readers)]
    if steps is None:
        sessions[-1] += [["r", cycle, 1], ["r", cycle, rival + 1]]
    return sessions


def going_back():
    """Readers whose last reads put writes in order that stand before the sources of the reads before, from the last to the first.

    So each read is gone through again. The last reader ends with reads that give a cycle.
    """
    many = OPERATIONS // 2 - 1
    cycle = 2 * many
    first = [["w", key, 1] for key in range(1, many + 1)] + [["w", cycle, 1], ["w", 0, 1]]
    second = [["w", 1, 2]] + [form for key in range(2, many + 1) for form in (["w", key, 2], ["w", many + key - 1, 1])]
    second.insert(-1, ["w", cycle, 2])
    reads = [form for key in range(1, many) for form in (["r", many + key, 1], ["r", key, 2])] + [["r", 0, 1], ["r", many, 2]]
    sessions = [first, second, *(list(reads) for _ in range(SESSIONS - 2))]
    sessions[-1] += [["r", cycle, 1], ["r", cycle, 2]]
    return sessions


def memory(sessions, start=()):
    yield compact(["memory", sessions, *([start] if start else [])])


# Histories of other objects, and those that are driven.


def fresh(rng):
    return rng.randrange(2**63, MOST_NUMBER)


CALLS = {
    "memory": (lambda rng: ["w", rng.randrange(ENTRIES), fresh(rng)], lambda rng: ["r", rng.randrange(ENTRIES)]),
    "queue": (lambda rng: ["push", fresh(rng)], lambda rng: ["push", fresh(rng)], lambda rng: ["pop"]),
    "sets": (lambda rng: ["add", rng.randrange(OPERATIONS), fresh(rng)], lambda rng: ["has", rng.randrange(OPERATIONS), fresh(rng)]),
}


def calls(name):
    """As many calls of an object as there may be, in sessions."""
    rng = random.Random(name)
    return [[rng.choice(CALLS[name])(rng) for _ in range(OPERATIONS)] for _ in range(SESSIONS)]


def driven(name):
    """Calls to be driven; those of a memory have a table, and two writes of one value."""
    sessions = calls(name)
    if name == "memory":
        sessions[0][0] = sessions[1][0] = ["w", SPARE_KEY, 1]
    asked = [[[*call, UNKNOWN] for call in session] for session in sessions]
    yield compact([name, asked, *([table()] if name == "memory" else [])])


def alone(name):
    """Calls whose returns are those that each session would have if it were alone."""
    states = [State(name, []) for _ in range(SESSIONS)]
    yield compact([name, [[operation(call, state.apply(call)) for call in session] for state, session in zip(states, calls(name))]])


# Certificates.


def places():
    """The session of each operation of a chain, in the order of the chain."""
    return [turn % SESSIONS for turn in range(SESSIONS * OPERATIONS // 2) for _ in range(2)]


def by_session(items):
    """What belongs to each operation of a chain, as one list for each session."""
    lists = [[] for _ in range(SESSIONS)]
    for s, item in zip(places(), items):
        lists[s].append(item)
    return lists


def chain_vectors():
    counts = [0] * SESSIONS
    for s in places():
        counts[s] += 1
        yield list(counts)


def chain_schedules():
    """The text of the schedules, each of which has all that is before its operation."""
    whole, end, texts = ",".join(map(str, places())), -1, []
    for s in places():
        end += 1 + len(str(s))
        texts.append(f"[{whole[:end]}]")
    sessions = ",".join(f"[{','.join(session)}]" for session in by_session(texts))
    return f"[{sessions}]"


def chain_certificate(kind):
    """The text of a certificate that explains a chain, with the longest lists that can."""
    explained = compact(places()) if kind == "ccv" else chain_schedules()
    return f'["{kind}",{compact(by_session(chain_vectors()))},{explained}]'


def certified(kind, start=()):
    """A chain of a memory with a certificate."""
    yield f"[{compact(['memory', chain(), *([start] if start else [])])},{chain_certificate(kind)}]"


def certified_sets():
    """A chain of sets under keys with a certificate."""
    yield f"[{compact(['sets', chain(ENTRIES, 'add', 'has', (True,))])},{chain_certificate('cm')}]"


# Scripts.


def record(sessions):
    """The steps that record these sessions of a memory in turn, and what seals them: told of all, one sealer looks at each cell."""
    steps = []
    for operations in zip(*sessions):
        for s, form in enumerate(operations):
            steps += [["begin", s, form if form[0] == "w" else form[:-1]], ["end", s, "ok" if form[0] == "w" else form[-1]]]
    return [*steps, ["start", list(map(len, sessions))], *looks(sum(map(len, sessions)))]


def looks(many):
    return [["look", 0, min(LOOKS, many - done)] for done in range(0, many, LOOKS)]


def count(steps):
    """How many steps these stand for."""
    return sum(step[2] if step[0] == "look" and len(step) == 3 else 1 for step in steps)


def script(steps, last, many=None, start=()):
    """The text of a script with these steps, and behind them one again and again, so often or as often as it may be."""
    left = STEPS - count(steps)
    again = ",".join([compact(last)] * (left if many is None else min(many, left)))
    head, tail = compact(["memory", SESSIONS]), f",{compact(start)}" if start else ""
    yield f"{head[:-1]},{compact(steps)[:-1]},{again}]{tail}]"


def longest_writes():
    """Writes whose form is as long as it can be, of keys that are in no order."""
    keys = random.Random("keys").sample(range(MOST_KEY - 10**6, MOST_KEY), SESSIONS * OPERATIONS)
    return [[["w", key, MOST_NUMBER - at] for at, key in enumerate(keys[s::SESSIONS])] for s in range(SESSIONS)]


def longest_table():
    return [[MOST_KEY - ENTRIES + at, 10**19 + at] for at in range(ENTRIES)]


def shows(many=None):
    """The longest history is shown again and again."""
    return script(record(longest_writes()), ["show", 0], many, longest_table())


def refutes():
    """A pattern is put against a history of writes alone again and again: each time they are sorted and looked up."""
    return script([*record(longest_writes()), ["file", 0, "cc"]], ["refute", 0, ["ThinAirRead", [0, 0]]], None, longest_table())


def works():
    """The piece with the longest schedule is checked again and again."""
    steps = [*record(chain()), ["file", 0, "CERTIFICATE"]]
    for text in script(steps, ["work", 0, SESSIONS - 1, OPERATIONS - 1], None, table()):
        yield text.replace('"CERTIFICATE"', chain_certificate("cm"))


def files():
    """A full history is filed again and again: it is copied before the desk is found to be full."""
    return script(record(longest_writes()), ["file", 0, "cc"], None, longest_table())


def starts():
    """As many sealers as there may be."""
    return script([["start"]], ["start", [0] * SESSIONS])


def settled(cases):
    """The steps that file so many cases, check each piece and put its verdict, so that each case is a yes."""
    operations = [(c, s, i) for c in range(cases) for s in range(SESSIONS) for i in range(OPERATIONS)]
    recorded = [*full_script.recorded(), ["start", [OPERATIONS] * SESSIONS], *looks(SESSIONS * OPERATIONS)]
    verdicts = [step for at, (c, s, i) in enumerate(operations) for step in (["work", c, s, i], ["put", c, at])]
    return [*recorded, *[["file", 0, full_script.certificate()]] * cases, *verdicts]


def asks():
    """It is asked again and again how a case stands whose pieces are all explained."""
    return script(settled(1), ["ask", 0])


def takes():
    """A piece is asked for again and again where each has a verdict that came without being asked for."""
    return script(settled(3), ["take"])


def cases():
    """64 cases whose pieces are taken, checked and put."""
    yield compact(full_script.script())


def derivation():
    """As many lines as a derivation may have, most of which look a source up; the last gives a cycle."""
    first = [
        ["co", [[1, 0], [1, 1]], [[1, 1], [1, 2]]],
        ["rf", 0, [1, 1]],
        ["co", [[0, 0], [1, 1], [1, 2]], [[1, 2]]],
        ["rf", 2, [1, 2]],
    ]
    return first + [["rf", 0, [1, 1]]] * (LINES - len(first) - 1) + [["tr", 1, 3]]


def derivations():
    """As many of the longest derivations as a text can have, put against a history of as many operations as there may be."""
    sessions = longest_writes()
    sessions[0][0] = ["w", 0, 1]
    sessions[1][:3] = [["w", 0, 2], ["r", 0, 1], ["r", 0, 2]]
    steps = [*record(sessions), ["file", 0, "cm"]]
    pattern = ["refute", 0, ["CyclicHB", [1, 2], derivation()]]
    room = BYTES - len(compact(steps)) - len(compact(longest_table())) - 100
    return script(steps, pattern, room // (len(compact(pattern)) + 1), longest_table())


# Texts as long as they may be.


def filled(opening, part, closing):
    """A text of a part again and again, with commas between, as long as a text may be."""
    many = (BYTES - len(opening) - len(closing) + 1) // (len(part) + 1)
    yield opening + part
    for done in range(1, many, BLOCK):
        yield f",{part}" * min(BLOCK, many - done)
    yield closing


def nested_lists():
    return filled("[", "[" * (LEVELS - 1) + "]" * (LEVELS - 1), "]")


def nested_objects():
    return filled("[", '{"":' * (LEVELS - 2) + "{}" + "}" * (LEVELS - 2), "]")


def random_keys():
    """An object whose keys stand in no order."""
    rng = random.Random("object")
    yield '{"":0'
    many = (BYTES - 6) // 13
    for done in range(0, many, BLOCK):
        yield "".join(f',"{rng.randrange(16**8):08x}":0' for _ in range(min(BLOCK, many - done)))
    yield "}"


def numbers():
    return filled("[", "0", "]")


def long_numbers():
    """Numbers with more digits than any number needs, which lie near the middle of two floats."""
    return filled("[", "9007199254740993." + "0" * 750 + "1", "]")


def escapes():
    """One text of escapes alone."""
    many, escape = (BYTES - 4) // 12, "\\ud83d\\ude00"
    yield '["'
    for done in range(0, many, BLOCK):
        yield escape * min(BLOCK, many - done)
    yield '"]'


def empty_texts():
    return filled("[", '""', "]")


def spaces():
    """A history with spaces behind it."""
    text = compact(["memory", chain()])
    yield text
    yield " " * (BYTES - len(text))


def longest_schedule():
    """A certificate of one operation whose schedule goes on and on."""
    return filled('[["memory",[[["w",0,1]]]],["cc",[[[1]]],[[[', "0", "]]]]]")


def longest_vector():
    return filled('[["memory",[[["w",0,1]]]],["cc",[[[', "0", "]]],[[[0]]]]]")


def vectors(session):
    """A certificate with as many sessions as a text can have, each with this list of vectors."""
    return filled('[["memory",[]],["cc",[', session, "],[]]]")


def shown_by(before, part, after):
    """A claim that a history of nothing is no causal memory, by a pattern with as many of these parts as a text can have."""
    return filled(f'[["memory",[]],"cm",[{before}[', part, f"]{after}]]")


def lines(line):
    return shown_by('"CyclicHB",[0,0],', line, "")


def in_step(before, part, after):
    """A script of one step, with as many of these parts as a text can have."""
    return filled(f'["memory",1,[[{before}[', part, f"]{after}]]]")


def filed(part, after):
    """A script that files a certificate with as many of these vectors as a text can have."""
    return in_step('"file",0,["cc",', part, after)


def small_certificates():
    """As many steps as a script can have, each with a certificate of one session more than a history has."""
    lists = [[[1]] * 5] * (SESSIONS + 1)
    step = compact(["file", 0, ["cc", lists, lists]])
    yield f'["memory",1,[{step}'
    for done in range(1, STEPS, BLOCK):
        yield f",{step}" * min(BLOCK, STEPS - done)
    yield "]]"


class Costly(NamedTuple):
    """An input: its name, the words of the command that reads it, and what makes its text, part by part."""

    name: str
    words: list
    make: Callable


JUDGE, CHECK, REFUTE, REPLAY = ["judge", "--workers", "1"], ["check", "--workers", "1"], ["refute"], ["replay"]


def drive(*words):
    return ["drive", *words, "--seals", "8", "--workers", "1"]


INPUTS = (
    Costly("judge-chain", JUDGE, lambda: memory(chain())),
    Costly("judge-chain-one-key", JUDGE, lambda: memory(chain(1))),
    Costly("judge-chain-table", JUDGE, lambda: memory(chain(), table())),
    Costly("judge-chain-twice", JUDGE, lambda: memory(with_a_value_twice(chain()))),
    Costly("judge-chain-table-twice", JUDGE, lambda: memory(with_a_value_twice(chain()), table())),
    Costly("judge-keys1-table-twice", JUDGE, lambda: memory(with_a_value_twice(store_run("keys1")), table()[1:])),
    Costly("judge-keys64-twice", JUDGE, lambda: memory(with_a_value_twice(store_run("keys64")))),
    Costly("judge-mutual-twice", JUDGE, lambda: memory(with_a_value_twice(store_run("mutual")))),
    Costly("judge-growing-once", JUDGE, lambda: memory(growing(7, 7, 1))),
    Costly("judge-growing-often", JUDGE, lambda: memory(growing(5, 5, 5))),
    Costly("judge-growing-twice", JUDGE, lambda: memory(with_a_value_twice(growing(5, 5, 5, 15)))),
    Costly("judge-going-back", JUDGE, lambda: memory(going_back())),
    Costly("judge-queue", JUDGE, lambda: alone("queue")),
    Costly("judge-sets", JUDGE, lambda: alone("sets")),
    Costly("judge-nested-lists", JUDGE, nested_lists),
    Costly("judge-nested-objects", JUDGE, nested_objects),
    Costly("judge-random-keys", JUDGE, random_keys),
    Costly("judge-numbers", JUDGE, numbers),
    Costly("judge-long-numbers", JUDGE, long_numbers),
    Costly("judge-escapes", JUDGE, escapes),
    Costly("judge-empty-texts", JUDGE, empty_texts),
    Costly("judge-spaces", JUDGE, spaces),
    Costly("check-cc", CHECK, lambda: certified("cc")),
    Costly("check-cm-table", CHECK, lambda: certified("cm", table())),
    Costly("check-ccv-table", CHECK, lambda: certified("ccv", table())),
    Costly("check-sets", CHECK, certified_sets),
    Costly("check-longest-schedule", CHECK, longest_schedule),
    Costly("check-longest-vector", CHECK, longest_vector),
    Costly("check-most-lists", CHECK, lambda: vectors("[]")),
    Costly("check-empty-vectors", CHECK, lambda: vectors("[[]]")),
    Costly("check-short-vectors", CHECK, lambda: vectors("[[1]]")),
    Costly("check-nested-vectors", CHECK, lambda: vectors("[[[]]]")),
    Costly("check-one-session", CHECK, lambda: filled('[["memory",[]],["cc",[[', "[]", "]],[]]]")),
    Costly("refute-empty-lines", REFUTE, lambda: lines("[]")),
    Costly("refute-lines-of-paths", REFUTE, lambda: lines('["co",[[0,0]],[[0,0]]]')),
    Costly("refute-lines-of-numbers", REFUTE, lambda: lines('["tr",0,0]')),
    Costly("refute-path", REFUTE, lambda: shown_by('"CyclicCO",', "[0,0]", "")),
    Costly("refute-links", REFUTE, lambda: shown_by('"CyclicCF",', '["cf",[[0,0]],[0,0]]', "")),
    Costly("refute-links-of-empty-paths", REFUTE, lambda: shown_by('"CyclicCF",', '["cf",[],[0,0]]', "")),
    Costly("replay-shows-1000", REPLAY, lambda: shows(1_000)),
    Costly("replay-shows-10000", REPLAY, lambda: shows(10_000)),
    Costly("replay-shows", REPLAY, shows),
    Costly("replay-refutes", REPLAY, refutes),
    Costly("replay-derivations", REPLAY, derivations),
    Costly("replay-lines-of-paths", REPLAY, lambda: in_step('"refute",0,["CyclicHB",[0,0],', '["co",[[0,0]],[[0,0]]]', "]")),
    Costly("replay-nested-vectors", REPLAY, lambda: filed("[[[]]]", ",[]]")),
    Costly("replay-most-lists", REPLAY, lambda: filed("[]", ",[]]")),
    Costly("replay-one-session", REPLAY, lambda: filled('["memory",1,[["file",0,["cc",[[', "[]", "]],[]]]]]")),
    Costly("replay-counts", REPLAY, lambda: in_step('"start",', "0", "")),
    Costly("replay-steps", REPLAY, lambda: filled('["memory",1,[', '["take"]', "]]")),
    Costly("replay-small-certificates", REPLAY, small_certificates),
    Costly("replay-works", REPLAY, works),
    Costly("replay-files", REPLAY, files),
    Costly("replay-asks", REPLAY, asks),
    Costly("replay-takes", REPLAY, takes),
    Costly("replay-cases", REPLAY, cases),
    Costly("replay-starts", REPLAY, starts),
    Costly("drive-causal-memory", drive("causal"), lambda: driven("memory")),
    Costly("drive-lamport-memory", drive("lamport"), lambda: driven("memory")),
    Costly("drive-lamport-eager-memory", drive("lamport", "--eager"), lambda: driven("memory")),
    Costly("drive-causal-queue", drive("causal"), lambda: driven("queue")),
    Costly("drive-lamport-queue", drive("lamport"), lambda: driven("queue")),
    Costly("drive-lamport-sets", drive("lamport"), lambda: driven("sets")),
)


def write(costly, folder):
    """Writes an input, and gives its path."""
    path = folder / f"{costly.name}.json"
    with open(path, "w", encoding="ascii") as file:
        file.writelines(costly.make())
    return path


def main():
    parser = argparse.ArgumentParser(description=__doc__, formatter_class=argparse.RawDescriptionHelpFormatter)
    parser.add_argument("folder", metavar="OUTDIR", type=pathlib.Path)
    parser.add_argument("names", metavar="NAME", nargs="*")
    given = parser.parse_args()
    given.folder.mkdir(parents=True, exist_ok=True)
    for costly in INPUTS:
        if costly.name in (given.names or [costly.name]):
            print(f"{write(costly, given.folder).stat().st_size:10} bytes {costly.name}", flush=True)


if __name__ == "__main__":
    main()
