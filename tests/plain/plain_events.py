#!/usr/bin/env python3
"""Reads a log of events in a plain way, and gives the history that it stands for.

    python3 tests/plain/plain_events.py [--names | --notes | --judge] < LOG

It writes the line of `causal_judge events`, of `events --names` or of `events --notes`, or the three lines of `judge --long --events`; and on
standard error the first line of a refusal, with status 1, or that the last line is not whole.

It knows nothing of the program, and follows docs/events.md. The lines of a history are those of plain_long_judge.py, which knows none where
values are not distinct and the history is within the limits of `judge`.
"""

import argparse
import itertools
import json
import re
import sys
import unicodedata
from typing import NamedTuple

import plain_forced
import plain_long_judge
import reading
from objects import UNKNOWN
from replay import NotWhole, Refused, read_json

MOST_LINE = 1_000_000
BLANKS = b" \t\r"
MOST_MISSED = 3
NOT_JSON, TOO_LONG, NOT_ALLOWED = 1, 9, 30
NOT_WHOLE = "last line is not whole: passed over\n"
LATE = "line {} reads a value whose write begins on line {}: this log is not in the order of time\n"
EXPLAINED_CUT = "the last line begins with a number of events: head -n NUMBER FILE | causal_judge explain - says why\n"
DISTURBING = ("Cc", "Cf", "Cs", "Zl", "Zp")
WHOLE = re.compile(r"-?[1-9][0-9]*|0")
NAMES, VALUES = range(2**64), range(-(2**63), 2**64)


class Events(NamedTuple):
    """What was read of a log: its events, by numbers, and the line of each; the lines that have a note; the names of clients, keys and values by
    number; the code and the line of the refusal, or none; whether the last line is not whole; and whether the log says that its lines stand
    in the order of time."""

    events: list
    lines: list
    noted: list
    names: dict
    refusal: tuple | None
    is_torn: bool
    is_timed: bool


class Call:
    """A call of the run: its client, the place of its begin among the events, what was called, and how it ended: "open", "ok", "got",
    "nothing", "failed" or "lost"; of a read that got a value, the value; and the place of its end, if it has ended."""

    def __init__(self, client, place, word, key, value):
        self.client, self.place, self.word, self.key, self.value = client, place, word, key, value
        self.ending, self.got, self.end = "open", None, None


class Names:
    """Names of one kind. Each gets the next number when it is first met."""

    def __init__(self):
        self.numbers, self.names = {}, []

    def number(self, name):
        """The number of a name. Two names are the same where they are the same JSON value."""
        text = json.dumps(name)
        if text not in self.numbers:
            self.numbers[text] = len(self.names)
            self.names.append(name)
        return self.numbers[text]


def number_of(text):
    """The number that a text of JSON stands for. One that is too large for a float is none."""
    if float(text) in (float("inf"), float("-inf")):
        raise ValueError
    return int(text) if WHOLE.fullmatch(text) else NotWhole()


def is_name(value):
    """Whether it names a client or a key."""
    return type(value) is str or (type(value) is int and value in NAMES)


def is_value(value):
    """Whether it is a value that a key can hold."""
    return type(value) in (str, bool) or (type(value) is int and value in VALUES)


def parted(value):
    """An event, and whether it has a note, the element that a begin, an end, a fail and a lost may have after the others."""
    match value:
        case ["begin" | "end", _, _, _] | ["fail" | "lost", _, _]:
            return value[:-1], True
    return value, False


def is_form(value):
    """Whether it is the form of an event without a note."""
    match value:
        case ["order", "time"]:
            return True
        case ["start", key, held]:
            return is_name(key) and is_value(held)
        case ["begin", client, ["w", key, written]]:
            return is_name(client) and is_name(key) and is_value(written)
        case ["begin", client, ["r" | "d", key]]:
            return is_name(client) and is_name(key)
        case ["end", client, answer]:
            return is_name(client) and (answer is None or is_value(answer))
        case ["fail" | "lost", client]:
            return is_name(client)
    return False


class Reader:
    """Takes in the events of a log, one after the other."""

    def __init__(self):
        self.events, self.lines, self.noted = [], [], []
        self.names = {kind: Names() for kind in ("clients", "keys", "values")}
        self.pending, self.started, self.has_begun, self.is_timed = {}, set(), False, False

    def order(self):
        """The lines of the log stand in the order of time: that is no event that counts, and comes before all events, once."""
        if self.events or self.is_timed:
            raise Refused(NOT_ALLOWED)
        self.is_timed = True

    def start(self, key, held):
        """The key holds a value before the first call."""
        if self.has_begun or json.dumps(key) in self.started:
            raise Refused(NOT_ALLOWED)
        self.started.add(json.dumps(key))
        return "start", self.names["keys"].number(key), self.names["values"].number(held)

    def begin(self, client, call):
        """The client is about to call."""
        if json.dumps(client) in self.pending:
            raise Refused(NOT_ALLOWED)
        self.pending[json.dumps(client)], self.has_begun = call[0], True
        numbers = [self.names["clients"].number(client), call[0], self.names["keys"].number(call[1])]
        return "begin", *numbers, self.names["values"].number(call[2]) if call[0] == "w" else None

    def end(self, word, client, answer):
        """The pending call of the client ends: by an answer, or it failed or was lost."""
        called = self.pending.pop(json.dumps(client), None)
        if called is None or (word == "end" and called != "r" and answer != "ok"):
            raise Refused(NOT_ALLOWED)
        number = self.names["clients"].number(client)
        if word != "end":
            return "end", number, {"fail": "failed", "lost": "lost"}[word], None
        if called != "r":
            return "end", number, "ok", None
        return ("end", number, "nothing", None) if answer is None else ("end", number, "got", self.names["values"].number(answer))

    def take(self, value, line):
        """Takes in the event of a line, which may have a note."""
        plain, has_note = parted(value)
        if not is_form(plain):
            raise Refused(NOT_ALLOWED)
        word, *rest = plain
        if word == "order":
            self.order()
            return
        if word == "start":
            event = self.start(*rest)
        elif word == "begin":
            event = self.begin(*rest)
        else:
            event = self.end(word, *rest, *([None] if word != "end" else []))
        self.events.append(event)
        self.lines.append(line)
        self.noted += [line] if has_note else []

    def found(self, refusal=None, is_torn=False):
        names = {kind: some.names for kind, some in self.names.items()}
        return Events(self.events, self.lines, self.noted, names, refusal, is_torn, self.is_timed)


def lines_of(data):
    """The lines of a log, each with its number and whether a line feed ends it."""
    *ended, last = data.split(b"\n")
    for number, line in enumerate(ended, 1):
        yield number, line, True
    if last:
        yield len(ended) + 1, last, False


def read_log(data):
    """What is read of a log: all of it, or what comes before the line that is refused."""
    reader = Reader()
    for number, line, is_ended in lines_of(data):
        if len(line) > MOST_LINE:
            return reader.found(refusal=(TOO_LONG, number))
        if not line.strip(BLANKS):
            continue
        try:
            value = read_json(line, number_of)
        except Refused:
            return reader.found(refusal=(NOT_JSON, number)) if is_ended else reader.found(is_torn=True)
        try:
            reader.take(value, number)
        except Refused:
            return reader.found(refusal=(NOT_ALLOWED, number))
    return reader.found()


def noted_lines(data, found):
    """For each line that has a note, its number and the note."""
    texts = data.split(b"\n")
    return [[line, json.loads(texts[line - 1])[-1]] for line in found.noted]


def notes_of(data, found):
    """The notes of each call of a log, by the line of its begin: the line of each, and itself."""
    begun, notes, noted = {}, {}, dict(noted_lines(data, found))
    for (word, client, *_), line in zip(found.events, found.lines):
        if word == "start":
            continue
        begun[client] = line if word == "begin" else begun[client]
        notes.setdefault(begun[client], []).extend([(line, noted[line])] if line in noted else [])
    return notes


def calls_of(events):
    """The calls of the run, in the order of their begins."""
    calls, pending = [], {}
    for place, (word, *rest) in enumerate(events):
        if word == "begin":
            calls.append(Call(rest[0], place, *rest[1:]))
            pending[rest[0]] = calls[-1]
        elif word == "end":
            client, ending, got = rest
            pending[client].ending, pending[client].got, pending[client].end = ending, got, place
    return calls


def seen_value(seen):
    """The value that a read returned that saw the delete which began at a place, or the start of a key that had none."""
    return 0 if seen is None else 2 * seen + 2


def written_by(call):
    """The value that a write or a delete writes."""
    return 2 * call.value + 1 if call.word == "w" else seen_value(call.place)


class Run:
    """The calls of a log, and the history that it stands for by what is forced of reads that found nothing, or by a choice that is given:
    it says by the place of a null read the place of the delete that it saw, or None for the start. Others are left out. What is forced may
    be so by the order of time. Each operation is a form with the call that it comes from."""

    def __init__(self, events, choice=None, is_timed=False):
        self.calls, self.is_timed = calls_of(events), is_timed
        self.start = [[2 * event[1], 2 * event[2] + 1] for event in events if event[0] == "start"]
        self.returned = {(call.key, call.got) for call in self.calls if call.ending == "got"}
        self.choice = self.forced().choice if choice is None else choice
        self.left_out = [call for call in plain_forced.null_reads(self.calls) if call.place not in self.choice]
        clients = 1 + max((call.client for call in self.calls), default=-1)
        self.origins = [[self.operation(call) for call in self.calls if call.client == client] for client in range(clients)]
        self.origins = [[found for found in session if found] for session in self.origins]
        self.forks = [call for call in self.calls if self.is_forked(call)]
        self.origins += [self.fork(call) for call in self.forks]

    def started(self):
        """The keys that have a start."""
        return {variable // 2 for variable, _ in self.start}

    def candidates(self):
        """What each null read may have seen."""
        return plain_forced.candidates(self.calls, self.started(), self.is_timed)

    def forced(self):
        """What is forced of the null reads."""
        return plain_forced.Forced(self.calls, self.started(), self.is_timed)

    def is_forked(self, call):
        """Whether it is a lost write whose value was read, or a lost delete that a null read saw."""
        is_read = (call.key, call.value) in self.returned if call.word == "w" else call.place in self.choice.values()
        return call.word in ("w", "d") and call.ending == "lost" and is_read

    def operation(self, call):
        """What stands for the call in its client's session; none where it is left out."""
        variable, mark, open_end = 2 * call.key, 2 * call.place + 1, [UNKNOWN] if call.ending == "open" else []
        if self.is_forked(call):
            return ["w", mark, 1], call
        if call.ending in ("failed", "lost") or call in self.left_out:
            return None
        if call.word in ("w", "d"):
            return ["w", variable, written_by(call), *open_end], call
        held = {"open": UNKNOWN, "nothing": seen_value(self.choice.get(call.place))}.get(call.ending)
        return ["r", variable, 2 * call.got + 1 if held is None else held], call

    def fork(self, call):
        """The session of a lost write or delete that was read: it comes after all that its client had called before it, and before
        nothing."""
        return [(["r", 2 * call.place + 1, 1], call), (["w", 2 * call.key, written_by(call), UNKNOWN], call)]

    def form(self):
        """The history in the form of `judge`."""
        sessions = [[operation for operation, _ in session] for session in self.origins]
        return ["memory", sessions, *([self.start] if self.start else [])]


def run_shown(events, form, is_timed):
    """The run by the forced choice, or by a part of it whose history has this form: where a write or a delete was lost, not all that is
    forced has to be found."""
    run = Run(events, is_timed=is_timed)
    is_lossy = any(call.ending == "lost" and call.word != "r" for call in run.calls)
    for many in range(MOST_MISSED) if is_lossy and run.form() != form else ():
        for missed in itertools.combinations(run.choice, many + 1):
            part = Run(events, {read: seen for read, seen in run.choice.items() if read not in missed})
            if part.form() == form:
                return part
    return run


def text_of(value):
    """A value as compact JSON, and a line feed."""
    return json.dumps(value, separators=(",", ":")) + "\n"


def history_of(events, is_timed):
    """The history of some events in the form of `judge`, by the order of time or without it."""
    return Run(events, is_timed=is_timed).form()


def read_history(form):
    """The table of initial values and the sessions of a history, as they are read of its form."""
    return reading.read_long(text_of(form).encode())


def report_on(events, is_timed):
    """The three lines of the history of some events; none where nothing is known of it."""
    return report_of(history_of(events, is_timed))


def report_of(form):
    """The three lines of a history; none where nothing is known of it."""
    return plain_long_judge.report(*read_history(form))


def is_harmless(text):
    """Whether a text disturbs no terminal: no control character but line feeds, nothing that turns its direction, no other end of a line."""
    return not any(unicodedata.category(letter) in DISTURBING for letter in text.replace("\n", ""))


def is_said(found, errors):
    """Whether standard error says what is due to what was read of a log: a refusal with a second line in words, or that the last line is not
    whole, or nothing."""
    if not found.refusal:
        return errors == NOT_WHOLE * found.is_torn
    first, *more = errors.split("\n")
    is_told = len(more) == 2 and len(more[0].split()) > 2 and not more[1] and is_harmless(errors)
    return is_told and first == "refused {} {}".format(*found.refusal)


def cuts_of(found, every):
    """How many events each cut of a log has: so many more each time, and all of them at the end."""
    cuts = list(range(every, len(found.events) + 1, every))
    return cuts if found.refusal or len(found.events) in cuts else [*cuts, len(found.events)]


def late_write(events, every, judged):
    """The places of the begins of a read and of the first write of the value that it returned, where one of the cuts of so many events that
    were judged comes after the end of the read and before that begin, and the key had not the value at the start. Of several reads it
    is the first one; none where there is none."""
    first, begun, ended = {}, {}, []
    for place, (word, *rest) in enumerate(events):
        if word == "start" or (word == "begin" and rest[1] == "w"):
            first.setdefault(tuple(rest[-2:]), -1 if word == "start" else place)
        elif word == "begin":
            begun[rest[0]] = place, rest[2]
        elif rest[1] == "got":
            read, key = begun[rest[0]]
            ended.append((read, place + 1, (key, rest[2])))
    cuts = range(every, judged + 1, every)
    late = [(read, first[pair]) for read, end, pair in sorted(ended) if pair in first and any(end <= cut <= first[pair] for cut in cuts)]
    return late[0] if late else None


def late_line(found, many, every, judged):
    """What is said of the first events of a log, so many of them, of which these were judged, on a write that begins too late."""
    places = late_write(found.events[:many], every, judged)
    return LATE.format(*(found.lines[place] for place in places)) if places else ""


def names_of(found):
    """The tables: the clients, the keys and the values, each by number."""
    return [found.names[kind] for kind in ("clients", "keys", "values")]


def main():
    parser = argparse.ArgumentParser(description=__doc__, formatter_class=argparse.RawDescriptionHelpFormatter)
    parser.add_argument("--names", action="store_true")
    parser.add_argument("--notes", action="store_true")
    parser.add_argument("--judge", action="store_true")
    given = parser.parse_args()
    data = sys.stdin.buffer.read()
    found = read_log(data)
    if found.refusal:
        sys.exit("refused {} {}".format(*found.refusal))
    sys.stderr.write(NOT_WHOLE * found.is_torn)
    if given.judge:
        text = report_on(found.events, found.is_timed)
    else:
        some = names_of(found) if given.names else noted_lines(data, found) if given.notes else history_of(found.events, found.is_timed)
        text = text_of(some)
    sys.stdout.write(text or sys.exit("values are not distinct"))


if __name__ == "__main__":
    main()
