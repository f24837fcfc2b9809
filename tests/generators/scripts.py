#!/usr/bin/env python3
"""Makes random scripts of the world, the same ones each time, and prints how often each reply and each refusal occurs in them.

    python3 tests/generators/scripts.py OUTDIR SEED COUNT

The objects take turns. A script is written step by step beside the plain program of replay.py, whose replies tell what is there:
so sealers finish, cases are filed from what they sealed, certificates mostly explain, and verdicts come once, twice, before
their case is filed, to another case, or never. Some steps name what is not there. One script in twelve fills a session or
the desk, and one in six is broken after it was written: as a whole, or in one step. The files are named NUMBER-OBJECT.json.
"""

import argparse
import collections
import json
import pathlib
import random

import folders  # noqa: F401
import replay
from objects import DONE, KEYED, MOST_NUMBER, OBJECTS, UPDATES, State
from patterns import CRITERIA, FORMS, MemoryHistory
from shown_patterns import found

STEPS = (30, 110)
WEIGHTS = {
    "record": (12, 3),
    "start": (1, 1),
    "look": (3, 6),
    "show": (0.3, 1),
    "file": (0.5, 2),
    "take": (0.2, 2),
    "work": (0.3, 5),
    "put": (0.3, 7),
    "settle": (0, 1.5),
    "refute": (0.2, 3),
    "ask": (0.3, 4),
}


class Writer:
    """A script that is being written, with what the plain program says of it."""

    def __init__(self, rng, name):
        self.rng = rng
        self.name = name
        self.k = rng.choice((1, 2, 2, 3, 3, 4, 16))
        self.table = [[0, 1000]] if name == "memory" and rng.random() < 0.3 else []
        self.run = replay.Run(name, self.k, self.table)
        self.state = State(name, self.table)
        self.order = []
        self.steps = []
        self.values = 0
        self.right = 0.65
        self.keys = rng.choice((1, 1, 2))

    def write(self, *step):
        """Writes a step and takes its replies."""
        self.steps.append(list(step))
        return [self.run.reply(one) for one in replay.written_out(self.name, self.k, list(step))]

    def often(self, share):
        return self.rng.random() < share

    def number(self, many):
        """Mostly one of so many numbers, and else one that names nothing."""
        if many and self.often(0.94):
            return self.rng.randrange(many)
        return self.rng.choice((many, many + 1, MOST_NUMBER))

    def script(self):
        return [self.name, self.k, self.steps, *([self.table] if self.table else [])]

    # Recording.

    def call(self):
        word, many = self.rng.choice(sorted(OBJECTS[self.name].arguments.items()))
        self.values += 1
        fresh = self.values if word in ("w", "push") and self.often(0.98) else self.rng.randrange(3)
        key = [self.rng.randrange(self.keys)] if self.name in KEYED else []
        return [word, *key, *([fresh] if many else [])]

    def guess(self, call):
        """A return that may be wrong."""
        if call[0] in UPDATES:
            return DONE
        if call[0] == "has":
            return self.often(0.5)
        if call[0] == "pop" and self.often(0.2):
            return None
        written = [other[-1] for s in range(self.k) for other in self.run.begun(s) if other[0] == "w" and other[1:-1] == call[1:]]
        return self.rng.choice([*written[-4:] * 3, 0, self.values + 1, self.rng.choice((1000, self.rng.randint(0, self.values)))])

    def misfit(self):
        """A return of the object, of either kind."""
        return self.rng.choice((DONE, self.guess([next(w for w in OBJECTS[self.name].arguments if w not in UPDATES)])))

    def record(self):
        s = self.number(self.k)
        begun, ended = (self.run.begun(s), self.run.ended(s)) if s < self.k else ([], [])
        if (len(begun) == len(ended)) == self.often(0.93):
            self.write("begin", s, self.call())
            return
        call = begun[-1] if len(begun) > len(ended) else ["?"]
        answer = self.state.apply(call) if call != ["?"] and self.often(self.right) else self.guess(call)
        ret = self.misfit() if call == ["?"] or self.often(0.08) else answer
        if self.write("end", s, ret)[0].startswith("ok"):
            self.order.append((s, len(ended)))

    # Sealing.

    def start(self):
        if self.often(0.4):
            self.write("start")
            return
        told = [self.rng.randint(0, len(self.run.ended(s))) for s in range(self.k)]
        if self.often(0.1):
            told[self.rng.randrange(self.k)] += self.rng.choice((1, 200))
        self.write("start", [min(many, 256) for many in told])

    def many_sealers(self):
        return len(self.run.accepted("start"))

    def look(self):
        unfinished = [z for z in range(self.many_sealers()) if self.run.plan(z)[0]]
        z = self.rng.choice(unfinished) if unfinished and self.often(0.9) else self.number(self.many_sealers())
        if self.often(0.3):
            self.write("look", z)
        else:
            self.write("look", z, self.rng.choice((1, 2, 4, 8, 2 * self.k + 4)))

    def finished(self):
        return [z for z in range(self.many_sealers()) if self.run.seal(z) is not None]

    def some_seal(self):
        finished = self.finished()
        return self.rng.choice(finished) if finished and self.often(0.93) else self.number(self.many_sealers())

    def show(self):
        self.write("show", self.some_seal())

    # Cases.

    def certificate(self, sessions):
        """By the order in which the operations ended, or by program order alone; mostly as it should be."""
        lengths = [len(session) for session in sessions]
        there = [(s, i) for s, i in self.order if i < lengths[s]]
        there += [(s, i) for s, many in enumerate(lengths) for i in range(many) if (s, i) not in there]
        if self.often(0.2):
            there.sort()
        past = (lambda op, other: other[0] == op[0]) if self.often(0.15) else (lambda op, other: True)
        pasts = {op: [other for other in there[: place + 1] if past(op, other)] for place, op in enumerate(there)}
        each = lambda of: [[of(pasts[s, i]) for i in range(many)] for s, many in enumerate(lengths)]
        vectors = each(lambda ops: [sum(t == s for t, _ in ops) for s in range(len(sessions))])
        criterion = self.rng.choice(CRITERIA)
        ordered = [s for s, _ in there] if criterion == "ccv" else each(lambda ops: [s for s, _ in ops])
        return [criterion, vectors, ordered]

    def file(self):
        z = self.some_seal()
        if self.often(0.2):
            self.write("file", z, self.rng.choice(CRITERIA))
            return
        sessions = (self.run.seal(z) if z < self.many_sealers() else None) or [[] for _ in range(self.k)]
        certificate = self.certificate(sessions)
        if self.often(0.35):
            numbers = lambda value: type(value) is int
            replaced(self.rng, certificate, numbers, lambda old: max(0, min(15, old + self.rng.choice((-1, 1)))))
        elif self.often(0.1):
            self.rng.choice(certificate[1:]).append([])
        self.write("file", z, certificate)

    def take(self):
        self.write("take")

    def some_case(self):
        return self.number(len(self.run.cases()))

    def work(self):
        c = self.some_case()
        pieces = self.run.pieces(c) if c < len(self.run.cases()) else []
        unchecked = [op for op in pieces if (c, op) not in self.run.verdicts()]
        s, i = self.rng.choice(unchecked or pieces or [(0, 0)])
        if self.often(0.06):
            s, i = self.number(self.k), self.number(4)
        self.write("work", c, s, i)

    def put(self):
        verdicts = self.run.verdicts()
        put = [step[2] for step, _ in self.run.accepted("put")]
        fresh = [v for v in range(len(verdicts)) if v not in put]
        v = self.rng.choice(fresh) if fresh and self.often(0.8) else self.number(len(verdicts))
        own = v < len(verdicts) and self.often(0.85)
        self.write("put", verdicts[v][0] if own else self.some_case(), v)

    def refute(self):
        c = self.some_case()
        shown = []
        if self.name == "memory" and c < len(self.run.cases()):
            history = MemoryHistory(self.run.case(c)[0], self.table)
            shown = found(history) if history.is_differentiated() and len(history.operations) <= 20 else []
        if not shown or self.often(0.1):
            self.write("refute", c, any_pattern(self.rng))
            return
        kind = self.rng.choice(sorted({pattern[0] for pattern in shown}))
        pattern = copied(self.rng.choice([pattern for pattern in shown if pattern[0] == kind]))
        if self.often(0.25):
            replaced(self.rng, pattern, lambda value: type(value) is int, lambda old: max(0, old + self.rng.choice((-1, 1, 9))))
        self.write("refute", c, pattern)

    def settle(self):
        """Each piece of a case that has no verdict is checked, and its verdict put."""
        c = self.rng.randrange(len(self.run.cases()))
        for s, i in self.run.pieces(c):
            if (s, i) not in self.run.with_verdict(c):
                self.write("work", c, s, i)
                self.write("put", c, len(self.run.verdicts()) - 1)
        self.write("ask", c)

    def ask(self):
        self.write("ask", self.some_case())

    def has_use(self, word):
        """Whether there is something that a step of the word may name."""
        if word in ("look", "show"):
            return self.many_sealers() > 0
        if word == "file":
            return self.finished() != []
        if word == "put":
            return self.run.verdicts() != []
        return word in ("record", "start") or self.run.cases() != []


def copied(value):
    return json.loads(json.dumps(value))


def places(value, wanted, path=()):
    """The places in a value at which something wanted stands."""
    if wanted(value):
        yield path
    if type(value) is list:
        for place, part in enumerate(value):
            yield from places(part, wanted, (*path, place))


def replaced(rng, value, wanted, by):
    """Replaces one part of a value that is wanted, if one is there."""
    found_places = [path for path in places(value, wanted) if path]
    if found_places:
        *above, last = rng.choice(found_places)
        for place in above:
            value = value[place]
        value[last] = by(value[last])


def any_pattern(rng):
    """The form of a pattern, which shows hardly anything."""
    op = lambda: [rng.randrange(2), rng.choice((0, 1, 2, MOST_NUMBER))]
    path = lambda: [op() for _ in range(rng.randrange(4))]
    line = lambda: rng.choice((["co", path(), path()], ["tr", rng.randrange(3), rng.randrange(3)], ["rf", rng.randrange(3), op()]))
    link = lambda: rng.choice((["co", op(), op()], ["cf", path(), op()]))
    parts = {
        "is_op": op,
        "is_path": path,
        "is_lines": lambda: [line() for _ in range(rng.randrange(4))],
        "is_links": lambda: [link() for _ in range(rng.randrange(3))],
    }
    kind = rng.choice(sorted(FORMS))
    return [kind, *(parts[form.__name__]() for form in FORMS[kind])]


def write_mixed(writer):
    """Steps of all words, first mostly of sessions and then mostly of the board."""
    many = writer.rng.randint(*STEPS)
    for place in range(many):
        progress = place / many
        weights = [(1 - progress) * early + progress * late for early, late in WEIGHTS.values()]
        word = writer.rng.choices(list(WEIGHTS), weights)[0]
        if writer.has_use(word) or (word != "settle" and writer.often(0.05)):
            getattr(writer, word)()


def write_refuted(writer):
    """A few operations whose returns are mostly guessed, cases for all criteria, and patterns put against them."""
    writer.right = 0.3
    for _ in range(writer.rng.randint(12, 26)):
        writer.record()
    writer.write("start")
    writer.write("look", 0, 24 + 2 * writer.k)
    for criterion in CRITERIA:
        writer.write("file", 0, criterion)
    for _ in range(8):
        writer.refute()
        writer.ask()


def write_full_session(writer):
    """A session has its 256 operations, sealers read them, and one more is begun."""
    for _ in range(256):
        call = writer.call()
        writer.write("begin", 0, call)
        writer.write("end", 0, writer.state.apply(call))
    writer.write("begin", 0, writer.call())
    writer.write("start", [writer.rng.choice((0, 100, 256))] + [0] * (writer.k - 1))
    writer.write("look", 0, 256 + 2 * writer.k)
    writer.write("show", 0)
    writer.write("file", 0, writer.rng.choice(CRITERIA))


def write_full_desk(writer):
    """More cases than there may be, and a verdict to some of them."""
    writer.record()
    writer.record()
    writer.write("start")
    writer.write("look", 0, 2 * writer.k + 4)
    while len(writer.run.cases()) < replay.MOST_CASES:
        writer.file()
    writer.file()
    writer.file()
    for _ in range(12):
        writer.rng.choice((writer.work, writer.put, writer.take, writer.ask))()


JUNK = (None, True, False, "", "?", "ok", -1, 0, 1.5, 256, 257, 65_536, MOST_NUMBER, MOST_NUMBER + 1, [], [0], ["w", 0, 1], {})


def broken_step(rng, script):
    """Something in a step is something else, or is missing, or stands there twice."""
    step = rng.choice(script[2] or [[]])
    part = rng.random()
    if part < 0.6 and step:
        replaced(rng, step, lambda value: True, lambda old: rng.choice(JUNK))
    elif part < 0.8 and step:
        step.pop(rng.randrange(len(step)))
    else:
        step.append(rng.choice(JUNK))
    return json.dumps(script)


def broken_whole(rng, script):
    """The name, the number of sessions, the table or the whole is something else."""
    part = rng.randrange(7)
    if part == 0:
        script[0] = rng.choice(("Memory", "register ", "queueing", 5, None))
    elif part == 1:
        script[1] = rng.choice((0, 17, MOST_NUMBER, -1, 1.5, "2", MOST_NUMBER + 1))
    elif part == 2:
        entries = [], [[1, 5], [0, 5]], [[0, 0]], [[0, 5], [0, 6]], [[2**32, 1]], [[0]], [[0, 1], 5], {}, 5
        script[3:] = [rng.choice(entries)]
    elif part == 3:
        script.append(rng.choice(([], [[0, 5]], 0, [])))
    elif part == 4:
        script.pop()
    elif part == 5:
        script[2] += [["look", 0, 9999]] * 7
    else:
        text = json.dumps(script)
        return rng.choice((text[:-1], text + "]", text.replace("[", "[,", 1), "[" * 200, "", text + " 1"))
    return json.dumps(script)


def script_text(rng, place):
    """The text of a script, and the words of its steps with their replies; one reply without a word where it is refused."""
    name = list(OBJECTS)[place % len(OBJECTS)]
    writer = Writer(rng, name)
    usual = write_refuted if name == "memory" and rng.random() < 0.6 else write_mixed
    write = {5: write_full_session, 11: write_full_desk}.get(place // len(OBJECTS) % 12, usual)
    write(writer)
    if rng.random() < 1 / 6:
        break_it = rng.choice((broken_step, broken_step, broken_whole))
        text = break_it(rng, writer.script())
    else:
        text = json.dumps(writer.script())
    try:
        steps = replay.read_script(text.encode())[3]
    except replay.Refused as refusal:
        return text, [("whole", f"refused {refusal.args[0]}")]
    replies = replay.replies(text.encode())
    return text, [(step_kind(step, reply), reply) for step, reply in zip(steps, replies)]


def step_kind(step, reply):
    """The word of a step, and the kind of a pattern that is accepted."""
    return f"refute {step[2][0]}" if step[0] == "refute" and reply == "ok" else step[0]


def reply_kind(reply):
    """A reply without its numbers."""
    words = reply.split()
    if reply.startswith("["):
        return "history"
    if words[0] in ("refused", "no"):
        return reply
    return " ".join(word for word in words if not word[0].isdigit()) + (" s.i" if "." in words[-1] else "")


def write_scripts(outdir, seed, count):
    """Writes the scripts into a folder, and counts their replies under the words of their steps."""
    outdir.mkdir(parents=True, exist_ok=True)
    rng = random.Random(seed)
    counts = collections.Counter()
    for place in range(count):
        text, replies = script_text(rng, place)
        name = list(OBJECTS)[place % len(OBJECTS)]
        (outdir / f"{place:04}-{name}.json").write_text(text, encoding="utf-8")
        counts.update((word, reply_kind(reply)) for word, reply in replies)
    return counts


def main():
    parser = argparse.ArgumentParser(description=__doc__, formatter_class=argparse.RawDescriptionHelpFormatter)
    parser.add_argument("outdir", type=pathlib.Path)
    parser.add_argument("seed", type=int)
    parser.add_argument("count", type=int)
    given = parser.parse_args()
    counts = write_scripts(given.outdir, given.seed, given.count)
    for (word, kind), many in sorted(counts.items()):
        print(f"{word:24}{kind:24}{many:8}")
    print(f"{given.count} scripts in {given.outdir}")


if __name__ == "__main__":
    main()
