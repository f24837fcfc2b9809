#!/usr/bin/env python3
"""Answers a script of the world in a plain and slow way: each reply is read off the list of earlier steps and replies.

    python3 tests/plain/replay.py < SCRIPT

It writes what the command `replay` has to write: a line for each reply, or on standard error the line of a refusal, with
status 1. It knows nothing of the program: what it says follows docs/definitions.md.
"""

import json
import sys

import recheck
from objects import MOST_NUMBER, OBJECTS, UNKNOWN, State, fits, is_call, is_number, is_return, is_start, operation
from patterns import CRITERIA, MemoryHistory, is_list_of, is_pattern, shows

MOST_BYTES = 67_108_864
MOST_LEVELS = 127
MOST_SESSIONS = 16
MOST_STEPS = 65_536
MOST_LOOKS = 9_999
MOST_CASES = 64
PLACES = 256


class Refused(Exception):
    """The script is refused with this number, and for a step with its place."""


class NotWhole:
    """A number that is no whole number from 0 to 2^64 - 1."""


def number_of(text):
    """The number that a text of JSON stands for. One that is too large for a float is none."""
    if float(text) in (float("inf"), float("-inf")):
        raise ValueError
    if text.isdigit() and int(text) <= MOST_NUMBER:
        return int(text)
    return NotWhole()


def refuse_constant(_):
    raise ValueError


def levels(value):
    """How deep lists and objects stand in one another."""
    deepest, layer = 0, [value]
    while any(type(part) in (list, dict) for part in layer):
        deepest += 1
        lists = [part if type(part) is list else part.values() for part in layer if type(part) in (list, dict)]
        layer = [inner for part in lists for inner in part]
    return deepest


def read_json(data, number=number_of):
    """The value that the bytes are the text of, with numbers as the function reads them."""
    try:
        text = data.decode("utf-8")
        value = json.loads(text, parse_int=number, parse_float=number, parse_constant=refuse_constant)
        json.dumps(value, ensure_ascii=False, default=str).encode("utf-8")
    except (ValueError, RecursionError):
        raise Refused(1) from None
    if levels(value) > MOST_LEVELS:
        raise Refused(1)
    return value


def is_count(most):
    return lambda value: is_number(value, most)


def is_certificate(value):
    """A certificate: vectors of counts, and schedules or one list of session numbers."""
    if type(value) is not list or len(value) != 3 or type(value[0]) is not str or value[0] not in CRITERIA:
        return False
    criterion, vectors, explained = value
    sessions = lambda has_form, part: is_list_of(lambda session: is_list_of(has_form, session), part)
    session_numbers = lambda part: is_list_of(is_count(MOST_SESSIONS - 1), part)
    counts = lambda part: is_list_of(is_count(65_535), part)
    ordered = session_numbers(explained) if criterion == "ccv" else sessions(session_numbers, explained)
    return sessions(counts, vectors) and ordered


def is_case(value):
    """What a case is filed with: a certificate, or the name of a criterion."""
    return value in CRITERIA if type(value) is str else is_certificate(value)


def has_form_behind(name, k, word, rest):
    """Whether this may stand behind the word of a step."""
    numbers = all(map(is_number, rest))
    if word == "begin":
        return len(rest) == 2 and is_number(rest[0]) and is_call(name, rest[1])
    if word == "end":
        return len(rest) == 2 and is_number(rest[0]) and is_return(name, rest[1])
    if word == "start":
        return rest == [] or (len(rest) == 1 and is_list_of(is_count(PLACES), rest[0]) and len(rest[0]) == k)
    if word == "look":
        return numbers and (len(rest) == 1 or (len(rest) == 2 and 1 <= rest[1] <= MOST_LOOKS))
    if word == "file":
        return len(rest) == 2 and is_number(rest[0]) and is_case(rest[1])
    if word == "refute":
        return len(rest) == 2 and is_number(rest[0]) and is_pattern(rest[1])
    many = {"show": 1, "take": 0, "work": 3, "put": 2, "ask": 1}
    return word in many and numbers and len(rest) == many[word]


def written_out(name, k, value):
    """The steps that the form of a step stands for; none where it is no form."""
    if type(value) is not list or not value or type(value[0]) is not str:
        return []
    word, *rest = value
    if not has_form_behind(name, k, word, rest):
        return []
    if word == "start" and not rest:
        return [["start", [0] * k]]
    if word == "look" and len(rest) == 2:
        return [["look", rest[0]]] * rest[1]
    return [value]


def read_steps(name, k, values):
    """All steps, each read before it is counted."""
    steps = []
    for place, value in enumerate(values):
        read = written_out(name, k, value)
        if not read:
            raise Refused(28, place)
        steps += read
        if len(steps) > MOST_STEPS:
            raise Refused(27)
    return steps


def read_script(data):
    """The object, the number of sessions, the table of initial values and the steps of a script."""
    if len(data) > MOST_BYTES:
        raise Refused(9)
    value = read_json(data)
    if type(value) is not list or len(value) not in (3, 4):
        raise Refused(2)
    name, k, steps, *start = value
    if type(name) is not str or not is_number(k) or not all(type(part) is list for part in (steps, *start)):
        raise Refused(2)
    if name not in OBJECTS:
        raise Refused(3)
    if not 1 <= k <= MOST_SESSIONS:
        raise Refused(10)
    read = read_steps(name, k, steps)
    if start and not is_start(name, start[0]):
        raise Refused(29)
    return name, k, start[0] if start else [], read


def cells(told):
    """The cells that a sealer reads, one after the other: it is sent whether each was full.

    It ends with how many returns and how many calls were found in each session.
    """
    returns = []
    for s, many in enumerate(told):
        for i in reversed(range(many)):
            yield "return", s, i
        while many < PLACES and (yield "return", s, many):
            many += 1
        returns.append(many)
    calls = []
    for s, many in enumerate(returns):
        while many < PLACES and (yield "call", s, many):
            many += 1
        calls.append(many)
    return returns, calls


class Run:
    """The steps so far with their replies, under the word of each. Nothing else is kept."""

    def __init__(self, name, k, initial):
        self.name, self.k, self.initial = name, k, initial
        self.earlier = {}

    def reply(self, step):
        """The reply of the next step: each word has a method of its name."""
        reply = getattr(self, step[0])(*step[1:])
        self.earlier.setdefault(step[0], []).append((step, reply))
        return reply

    def accepted(self, word):
        """The steps of a word that were not refused, with their replies."""
        return [(step, reply) for step, reply in self.earlier.get(word, []) if not reply.startswith("refused")]

    # What the sessions recorded.

    def begun(self, s):
        return [step[2] for step, _ in self.accepted("begin") if step[1] == s]

    def ended(self, s):
        return [step[2] for step, _ in self.accepted("end") if step[1] == s]

    def begin(self, s, _):
        if s >= self.k:
            return "refused 26"
        if len(self.begun(s)) > len(self.ended(s)):
            return "refused 12"
        if len(self.begun(s)) == PLACES:
            return "refused 11"
        return f"ok {s}.{len(self.begun(s))}"

    def end(self, s, ret):
        if s >= self.k:
            return "refused 26"
        if len(self.begun(s)) == len(self.ended(s)):
            return "refused 14"
        if not fits(self.begun(s)[-1], ret):
            return "refused 17"
        return f"ok {s}.{len(self.ended(s))}"

    # What the sealers found.

    def start(self, told):
        if len(told) != self.k or any(many > len(self.ended(s)) for s, many in enumerate(told)):
            return "refused 26"
        return f"ok {len(self.accepted('start'))}"

    def plan(self, z):
        """The cell that a sealer reads next, and what it found, of which one is None; both are, where there is no such one."""
        sealers = self.accepted("start")
        if z >= len(sealers):
            return None, None
        reading = cells(sealers[z][0][1])
        try:
            cell = next(reading)
            for step, reply in self.accepted("look"):
                if step[1] == z:
                    cell = reading.send(reply == "seen")
        except StopIteration as end:
            return None, end.value
        return cell, None

    def look(self, z):
        cell, _ = self.plan(z)
        if cell is None:
            return "refused 26"
        kind, s, i = cell
        many = len(self.ended(s)) if kind == "return" else len(self.begun(s))
        return "seen" if i < many else "none"

    def seal(self, z):
        """What a sealer sealed: of each session the calls that were found, each with its return where that was found too."""
        _, found = self.plan(z)
        if found is None:
            return None
        sealed = []
        for s, (returns, calls) in enumerate(zip(*found)):
            known = self.ended(s)[:returns] + [UNKNOWN] * (calls - returns)
            sealed.append(list(zip(self.begun(s)[:calls], known)))
        return sealed

    def show(self, z):
        sealed = self.seal(z)
        if sealed is None:
            return "refused 26"
        history = [self.name, [[operation(call, ret) for call, ret in session] for session in sealed]]
        return json.dumps(history + [self.initial] if self.initial else history, separators=(",", ":"))

    # Cases and verdicts.

    def cases(self):
        """The sealer and the certificate or criterion of each case."""
        return [(step[1], step[2]) for step, _ in self.accepted("file")]

    def case(self, c):
        """The sessions of a case, its criterion and its certificate, where it has one."""
        cases = self.cases()
        if c >= len(cases):
            return None
        z, offered = cases[c]
        return self.seal(z), *((offered, None) if type(offered) is str else (offered[0], offered))

    def file(self, z, offered):
        sealed = self.seal(z)
        if sealed is None:
            return "refused 26"
        if type(offered) is not str:
            kind, vectors, explained = offered
            try:
                recheck.check_shape(sealed, vectors, kind, explained)
            except recheck.Unexplained:
                return "refused 21"
        if len(self.cases()) == MOST_CASES:
            return "refused 22"
        return f"ok {len(self.cases())}"

    def pieces(self, c):
        """The operations of a case with a certificate, in order."""
        sessions, _, certificate = self.case(c)
        if certificate is None:
            return []
        return [(s, i) for s, session in enumerate(sessions) for i in range(len(session))]

    def explained(self, c, op):
        """Whether the certificate of a case explains an operation."""
        sessions, _, (kind, vectors, explained) = self.case(c)
        if kind == "ccv":
            explained = recheck.counts_in_order(explained, sessions)
        try:
            recheck.check_piece(State(self.name, self.initial), sessions, vectors, kind, explained, *op)
        except recheck.Unexplained:
            return False
        return True

    def verdicts(self):
        """The case and the operation of each verdict."""
        return [(step[1], (step[2], step[3])) for step, _ in self.accepted("work")]

    def with_verdict(self, c):
        """The operations of a case that a verdict was put to."""
        verdicts = self.verdicts()
        return [verdicts[step[2]][1] for step, _ in self.accepted("put") if step[1] == c]

    def patterns(self, c):
        """The patterns that were accepted against a case."""
        return [step[2] for step, _ in self.accepted("refute") if step[1] == c]

    def take(self):
        taken = [reply for _, reply in self.accepted("take")]
        for c in range(len(self.cases())):
            for s, i in [] if self.patterns(c) else self.pieces(c):
                if f"take {c} {s}.{i}" not in taken and (s, i) not in self.with_verdict(c):
                    return f"take {c} {s}.{i}"
        return "none"

    def work(self, c, s, i):
        if c >= len(self.cases()) or (s, i) not in self.pieces(c):
            return "refused 26"
        outcome = "explained" if self.explained(c, (s, i)) else "unexplained"
        return f"verdict {len(self.verdicts())} {outcome}"

    def put(self, c, v):
        if c >= len(self.cases()) or v >= len(self.verdicts()):
            return "refused 26"
        case, op = self.verdicts()[v]
        if case != c:
            return "refused 25"
        return "refused 24" if op in self.with_verdict(c) else "ok"

    def refute(self, c, pattern):
        case = self.case(c)
        if case is None:
            return "refused 26"
        passes = self.name == "memory" and shows(MemoryHistory(case[0], self.initial), case[1], pattern)
        return "ok" if passes else "refused 23"

    def ask(self, c):
        if c >= len(self.cases()):
            return "refused 26"
        if self.patterns(c):
            return f"no {self.patterns(c)[0][0]}"
        if self.case(c)[2] is None:
            return "unknown"
        open_pieces = [op for op in self.pieces(c) if op not in self.with_verdict(c)]
        if open_pieces:
            return f"open {len(open_pieces)}"
        for s, i in self.pieces(c):
            if not self.explained(c, (s, i)):
                return f"unknown {s}.{i}"
        return "yes"


def replies(data):
    """The reply of each step of the script in the bytes."""
    name, k, initial, steps = read_script(data)
    run = Run(name, k, initial)
    return [run.reply(step) for step in steps]


def main():
    try:
        lines = replies(sys.stdin.buffer.read())
    except Refused as refusal:
        sys.exit("refused " + " ".join(map(str, refusal.args)))
    sys.stdout.write("".join(f"{line}\n" for line in lines))


if __name__ == "__main__":
    main()
