"""Makes random logs of events for the tests of `--events`: of clients that fail, are lost, delete and stop, and such as are refused.

What these logs show is known to plain_events.py alone. A log is made as a list of events, each a list as it stands in its line, and then
written: with notes, in any spelling of its JSON, with blank lines, cut at its end, and spoilt. It may say that its lines stand in the order
of time, also where they don't.
"""

import json
from typing import NamedTuple

import random_memories
from objects import UNKNOWN

CLIENTS = ("alice", "bob", "c\u00e9line", 0, 1, "1", 2**64 - 1, "", "a b", "\U0001f600", "\u202e", "tab\there", "</svg>", "null")
KEYS = ("user:5/name", "k", "K", 0, 7, "7", 2**63, "\u00fc", "x\ny", '"', "\\", "\u0000", "\u2028", "a" * 200, "&amp;", "ok")
ODD_VALUES = ("", "0", 0, -1, "-1", True, False, "true", "ok", 2**64 - 1, -(2**63), "null", "?", "\x1b[31m", "\ud7ff", "\uffff")
NUMBERED = (
    lambda n: n,
    lambda n: -n,
    lambda n: str(n),
    lambda n: f"v{n}",
    lambda n: f"{n}.0",
    lambda n: 2**63 + n,
    lambda n: -(2**63) + n,
    lambda n: f"\u00e9\u4e2d{n}\U0001f600",
    lambda n: f'"{n}\\',
)
NOTES = ({"server": "n1"}, {"at": 17.25, "by": ["n1", "n2"], "retried": False}, "request 17 at n2", "", "\u202e", "\x1b[31m", "</script>", "a" * 300)
NOTES += (None, True, 0, -(2**63), 2**64 - 1, 0.5, -0.125, [], {}, [[]], ["ok"], {"": None, '"': "\\", "\u2028": "\n"}, "ok", "lost", ["lost", "a"])
NOTES += (json.loads("[" * 126 + "]" * 126), json.loads('{"a":' * 60 + "0" + "}" * 60))
LONG_LINE, ORDER = 2_000_000, ["order", "time"]
NO_JSON = (b"begin", b"[", b'["begin","a"', b"{'a':1}", b'["lost","a"]]', b'"\xff"', b"\xc3\x28", b'["lost","\\ud800"]', b"NaN", b"01")
NO_JSON += (b"[1,]", b"\x00", b"[" * 128 + b"]" * 128, b"1e400", b'\xef\xbb\xbf["lost","a"]', b'["fail" "a"]', b'["lost","a\tb"]')
NO_FORM = ([], {}, 5, "lost", None, True, [["lost"]], ["begin"], ["begin", "a"], ["begin", "a", []], ["begin", "a", ["r"]], ["stop", "a"])
NO_FORM += (["begin", "a", ["w", "k"]], ["begin", "a", ["r", "k", 1]], ["begin", "a", ["d", "k", 1]], ["begin", "a", ["x", "k"]], ["lost"])
NO_FORM += (["begin", None, ["r", "k"]], ["begin", True, ["r", "k"]], ["begin", -1, ["r", "k"]], ["begin", 2**64, ["r", "k"]], ["fail", 1.5])
NO_FORM += (["begin", "a", ["r", -1]], ["begin", "a", ["r", False]], ["begin", "a", ["w", "k", None]], ["begin", "a", ["w", "k", 0.5]])
NO_FORM += (["begin", "a", ["w", "k", 2**64]], ["begin", "a", ["w", "k", -(2**63) - 1]], ["begin", "a", ["w", "k", [1]]], ["lost", "a", 1, 2])
NO_FORM += (["start", "k", None], ["start", "k"], ["start", None, 1], ["start", "k", 1.0], ["START", "k", 1], ["end", "a"], ["end", "a", {}])
NO_FORM += (["begin", "a", ["w", "k", 1], 0, 0], ["begin", "a", "r", "k"], ["end", "a", 1, 2, 3], ["fail", "a", "ok", None], [1, "a"])
NO_FORM += (["start", "k", 1, 2], ["begin", "a", ["r", "k", 1], 0], ["end", "a", {}, 1], ["fail", None, 1], ["END", "a", 1, 2])
NO_FORM += (["begin", ["a"], ["r", "k"]], ["end", None, 1], ["lost", {}], ["order"], ["order", "Time"], ["order", "time", 1], ["order", ["time"]])
NO_NUMBERS = (b"1.0", b"1e2", b"-0", b"0.0", b"18446744073709551616", b"-9223372036854775809", b"1E400")


class Named(NamedTuple):
    """The names of a log: those of its clients and of its keys, and what gives the value of a number."""

    clients: list
    keys: list
    value: object


def names_for(rng, clients, keys):
    """Names for so many clients and keys."""
    more = lambda some, many, prefix: rng.sample(some, min(many, len(some))) + [f"{prefix}{n}" for n in range(many - len(some))]
    used, spelling = {}, rng.choice((*NUMBERED, None))

    def value(n):
        """The value of a number, the same each time."""
        if n not in used:
            make = spelling or rng.choice(NUMBERED)
            used[n] = make(n)
        return used[n]

    return Named(more(CLIENTS, clients, "client "), more(KEYS, keys, "key "), value)


def turns(rng, sessions):
    """The sessions, each as often as it has operations, in any order."""
    found = [s for s, session in enumerate(sessions) for _ in session]
    rng.shuffle(found)
    return found


def called(rng, operation, named, deletes):
    """The call of an operation of a memory, and how it ends: None where it stays open."""
    word, key, *rest = operation
    name, is_open = named.keys[key], rest[-1] == UNKNOWN
    if word == "w":
        call = ["d", name] if rng.random() < deletes else ["w", name, named.value(rest[0])]
        return call, None if is_open else ["end", "ok"]
    return ["r", name], None if is_open else ["end", named.value(rest[0]) if rest[0] else None]


def ended(rng, ending, is_last, troubles):
    """How a call of a session ends: as it did, failed or lost. An open one that is not the last of its session is lost."""
    if ending is None:
        return None if is_last and rng.random() < 0.7 else ["lost"]
    chance = rng.random()
    return ["lost"] if chance < troubles else ["fail"] if chance < 1.3 * troubles else ending


def overlapped(rng, steps):
    """The events of calls, each of which has begun before the next begins; an end may come after later begins of other clients."""
    events, waiting = [], {}
    for client, call, ending in steps:
        if client in waiting:
            events.append(waiting.pop(client))
        events.append(["begin", client, call])
        if ending:
            waiting[client] = [ending[0], client, *ending[1:]]
        for other in [other for other in waiting if rng.random() < 0.5]:
            events.append(waiting.pop(other))
    rest = list(waiting.values())
    rng.shuffle(rest)
    return events + rest


def of_memory(rng, form, deletes=0.0, troubles=0.0):
    """A log of the clients of a memory whose keys are 0, 1 and so on: sessions are clients, in any order of their calls."""
    sessions = form[1]
    keys = 1 + max((operation[1] for session in sessions for operation in session), default=0)
    named = names_for(rng, len(sessions), keys)
    table = [[operation[1], operation[2]] for session in sessions for operation in session if operation[0] == "r" and operation[2] != UNKNOWN]
    written = {(operation[1], operation[2]) for session in sessions for operation in session if operation[0] == "w"}
    starts = dict(pair for pair in table if tuple(pair) not in written and pair[1] and rng.random() < 0.3)
    at, steps = [0] * len(sessions), []
    for s in turns(rng, sessions):
        call, ending = called(rng, sessions[s][at[s]], named, deletes)
        at[s] += 1
        steps.append((json.dumps(named.clients[s]), call, ended(rng, ending, at[s] == len(sessions[s]), troubles)))
    events = [[event[0], json.loads(event[1]), *event[2:]] for event in overlapped(rng, steps)]
    return [["start", named.keys[key], named.value(value)] for key, value in starts.items()] + events


class StoreRun:
    """A run of a store of some replicas, which pass on what was written as they like. A client calls a replica of its own; its call takes
    effect when it begins, or later where it is lost, and may be still pending when others call."""

    def __init__(self, rng):
        self.rng, self.clients, self.troubles = rng, rng.randint(1, 5), rng.choice((0, 0.1, 0.3))
        self.named = names_for(rng, self.clients, rng.randint(1, 3))
        self.replicas = [{} for _ in range(rng.randint(1, 3))]
        self.events, self.late, self.pending, self.fresh = [], [], {}, 0

    def start(self):
        """Some keys hold a value before the first call."""
        for number, key in enumerate(self.named.keys):
            if self.rng.random() < 0.6:
                self.events.append(["start", key, 10**6 + number])
                for replica in self.replicas:
                    replica[json.dumps(key)] = 10**6 + number

    def pass_on(self):
        """Some of what was written comes to other replicas, in any order."""
        while self.late and self.rng.random() < 0.4:
            where, key, value = self.late.pop(self.rng.randrange(len(self.late)))
            self.replicas[where][key] = value

    def call(self):
        """A call of any kind, mostly of a value that is new."""
        key, chance = self.rng.choice(self.named.keys), self.rng.random()
        if chance < 0.5 or chance > 0.9:
            return ["r" if chance < 0.5 else "d", key]
        self.fresh += 1
        return ["w", key, self.named.value(self.fresh) if self.rng.random() < 0.98 else self.rng.choice(ODD_VALUES)]

    def take(self, at, call, is_lost):
        """A write or a delete takes effect, and is passed on."""
        update = json.dumps(call[1]), call[2] if call[0] == "w" else None
        self.late += [(where, *update) for where in range(len(self.replicas)) if where != at or is_lost]
        if not is_lost:
            self.replicas[at][update[0]] = update[1]

    def begin(self, client, at):
        """A client calls its replica. What will end the call is returned."""
        call, name = self.call(), self.named.clients[client]
        self.events.append(["begin", name, call])
        is_lost, has_failed = self.rng.random() < self.troubles, self.rng.random() < self.troubles / 2
        if call[0] != "r" and not has_failed and not (is_lost and self.rng.random() < 0.3):
            self.take(at, call, is_lost)
        if is_lost or has_failed:
            return ["lost" if is_lost else "fail", name]
        return ["end", name, self.replicas[at].get(json.dumps(call[1])) if call[0] == "r" else "ok"]

    def step(self):
        """A client begins a call, or its pending one ends."""
        client = self.rng.randrange(self.clients)
        self.pass_on()
        if client in self.pending:
            self.events.append(self.pending.pop(client))
        else:
            self.pending[client] = self.begin(client, client % len(self.replicas))


def of_store(rng):
    """A log of a store, whose clients fail, are lost, delete and stop."""
    run = StoreRun(rng)
    if rng.random() < 0.3:
        run.start()
    for _ in range(rng.randint(0, 30)):
        run.step()
    return run.events + [event for event in run.pending.values() if rng.random() < 0.4]


def events_of(rng):
    """The events of a log that is not refused."""
    if rng.random() < 0.4:
        return of_store(rng)
    shape = random_memories.Shape(rng.randint(1, 5), rng.randint(1, 7), rng.randint(1, 4))
    form = random_memories.memory(rng, shape)[0]
    if len(form) == 3:
        form = random_memories.small(rng)
    if len(form) == 3 or max((operation[1] for session in form[1] for operation in session), default=0) > 99:
        return of_store(rng)
    return of_memory(rng, form, rng.choice((0, 0, 0.15)), rng.choice((0, 0, 0.1, 0.3)))


def escaped(rng, text):
    """A JSON text in which some letters and digits of its texts are written as escapes."""
    inside, found, at = False, [], 0
    while at < len(text):
        letter = text[at]
        if letter == "\\":
            found.append(text[at : at + 2])
            at += 2
            continue
        inside ^= letter == '"'
        is_plain = inside and letter.isascii() and letter.isalnum()
        found.append(f"\\u{ord(letter):04x}" if is_plain and rng.random() < 0.2 else letter)
        at += 1
    return "".join(found)


def noted(rng, event, notes):
    """The event, which has a note by that chance. A start has none."""
    return [*event, rng.choice(NOTES)] if event[0] != "start" and rng.random() < notes else event


def line_of(rng, event):
    """The line of an event, in some spelling."""
    text = json.dumps(event, ensure_ascii=rng.random() < 0.5, separators=rng.choice(((",", ":"), (", ", ": "), (" ,\t", " : "))))
    text = escaped(rng, text) if rng.random() < 0.1 else text
    return (rng.choice(("", "", "", " ", "\t")) + text + rng.choice(("", "", "", " ", "\r"))).encode()


def torn(rng, lines):
    """The lines, of which the last has no line feed, or breaks off, mostly within its JSON."""
    text = b"".join(line + b"\n" for line in lines)
    return text[: -1 - (rng.randint(0, len(lines[-1])) if rng.random() < 0.8 else 0)] if lines else text


def wrong_event(rng, events, at):
    """An event that may not stand at a place."""
    clients = [event[1] for event in events if event[0] == "begin"] or ["nobody"]
    starts = [event for event in events[:at] if event[0] == "start"]
    choices = [["start", "late", 1], ["begin", rng.choice(clients), ["r", "k"]], ["end", rng.choice(clients), "ok"], ["fail", "nobody"]]
    choices += [["end", rng.choice(clients), None], ["end", rng.choice(clients), 5], ["lost", rng.choice(clients)], ORDER, *starts]
    return rng.choice(choices)


def spoilt(rng, events, lines):
    """The lines, with one put in that is no event, or none that may stand there."""
    at = rng.randint(0, len(lines))
    how = rng.randrange(8)
    if how == 0:
        line = rng.choice(NO_JSON)
    elif how == 1:
        line = json.dumps(rng.choice(NO_FORM)).encode()
    elif how == 2:
        line = b'["begin","a",["w","k",%b]]' % rng.choice(NO_NUMBERS)
    elif how == 3 and rng.random() < 0.05:
        line = rng.choice((b"x", b" ", b"[")) * LONG_LINE
    elif how == 4 and lines:
        line = rng.choice(lines)[: rng.randrange(40)]
    elif how == 5 and lines:
        line = rng.choice(lines)
    elif how == 6 and lines:
        return lines[: max(0, at - 1)] + lines[at:]
    else:
        line = line_of(rng, wrong_event(rng, events, at))
    return [*lines[:at], line, *lines[at:]]


def log(rng):
    """The bytes of a log, which may be refused."""
    events, notes = events_of(rng), rng.choice((0, 0, 0.2, 1))
    lines = [line_of(rng, noted(rng, event, notes)) for event in events]
    lines = [line_of(rng, ORDER)] * (rng.random() < 0.3) + lines
    for _ in range(rng.choice((0, 0, 0, 0, 1)) if rng.random() < 0.9 else 2):
        lines = spoilt(rng, events, lines)
    for _ in range(rng.choice((0, 0, 0, 1, 3))):
        lines.insert(rng.randint(0, len(lines)), rng.choice((b"", b"", b" ", b"\r", b"\t ")))
    return torn(rng, lines) if rng.random() < 0.15 else b"".join(line + b"\n" for line in lines)
