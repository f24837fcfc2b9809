#!/usr/bin/env python3
"""Gives a program mangled inputs of all its commands, and compares each outcome with what a plain reader says.

    python3 tests/process/mangled.py SEED [--count N] [--minutes M] -- PROGRAM

A history, a history with a certificate or with a pattern, a script or a log of events is made at random, and then its value or its text is
spoilt in one to three places: a part is replaced, taken out, doubled or put elsewhere, a number is put at a limit, a byte is changed. The
words of the command line are spoilt too, now and then. The status, what is written and the line on standard error have to be those of
the plain reader; of `judge` the lines have to be three lines of a report, with the status that `--expect` asks for, of `explain` the
text has to look like the form that is asked for, of `drive` what driven.py asks for, and words that are no command line have to be
answered by an error. Of a log the lines of `judge` and of each cut have to be those of plain_events.py, where it knows any. Where they are
not, the input is written to a file and named, and the end is status 1.

It tries N inputs (1,000 unless given), or as many as it can within M minutes. One seed gives the same inputs each time.
"""

import argparse
import collections
import copy
import itertools
import json
import random
import subprocess
import tempfile
import time

import folders  # noqa: F401
import driven
import plain_events
import random_logs
import reading
import replay
from command_words import OPTIONS, RANGES, STORES, WITH_VALUE, names_file, order_of, reads_log, with_program
from counting import end
from objects import DONE, KEYED, MOST_NUMBER, OBJECTS, UNKNOWN, State, operation
from patterns import AGAINST, CRITERIA, MemoryHistory
from refusal_reasons import without_reason
from scripts import script_text
from shown_patterns import found

NUMBERS = (0, 1, 2, 15, 16, 17, 255, 256, 257, 65_535, 65_536, 2**32 - 1, 2**32, 2**63, MOST_NUMBER, MOST_NUMBER + 1, -1, 1.0, 1.5)
JUNK = (None, True, False, "", UNKNOWN, DONE, "w", [], [[]], {}, {"w": 1}, *NUMBERS)
WORDS = (b"-0", b"1e2", b"1e400", b"1.0", b"01", b"+1", b"NaN", b"\\u0077", b"\\ud800", b"\xff", b"\xef\xbb\xbf", b"\x00", b"null")
WORDS += (b"[" * 130,)
OPTION_WORDS = ("", "-", "--", "judge", *STORES, "--eager", "--eager=1", "--seals", "--stop=16", "--workers=0", "--speed", "9", "17")
OPTION_WORDS += ("cc,ccv", "--json", "--certificates", "--svg", "--expect", "--expect=cc,cc", "--expect=cm,", "--expect=CC", "cc")
OPTION_WORDS += ("--events", "--every", "--every=0", "--names", "events")
NEEDED = (("--every", "--events"),)


def random_history(rng):
    """A history whose returns are answers of the object in the order in which its operations were made, mostly."""
    name = rng.choice(list(OBJECTS))
    table = [[0, 5]] if name == "memory" and rng.random() < 0.3 else []
    state = State(name, table)
    sessions = [[] for _ in range(rng.choice((0, 1, 2, 2, 3, 5, 16, 17)))]
    for value in range(rng.choice((0, 3, 8, 20))):
        if not sessions:
            break
        word, many = rng.choice(sorted(OBJECTS[name].arguments.items()))
        key = [rng.randrange(2)] if name in KEYED else []
        call = [word, *key, *([value + 1] if many else [])]
        ret = state.apply(call)
        rng.choice(sessions).append(operation(call, UNKNOWN if rng.random() < 0.03 else ret))
    return [name, sessions, *([table] if table else [])]


def program_order(rng, sessions):
    """A certificate by program order alone."""
    criterion = rng.choice(CRITERIA)
    vectors = [[[(i + 1) * (t == s) for t in range(len(sessions))] for i in range(len(session))] for s, session in enumerate(sessions)]
    lists = [[[s] * (i + 1) for i in range(len(session))] for s, session in enumerate(sessions)]
    return [criterion, vectors, sum(([s] * len(session) for s, session in enumerate(sessions)), []) if criterion == "ccv" else lists]


def parts(value, path=()):
    """The places in a value."""
    yield path
    if type(value) is list:
        for at, part in enumerate(value):
            yield from parts(part, (*path, at))


def part_at(value, path):
    for at in path:
        value = value[at]
    return value


def spoilt_value(rng, value):
    """The value with one part replaced, taken out, doubled, or put in the place of another."""
    places = [path for path in parts(value) if path]
    if not places:
        return copy.deepcopy(rng.choice(JUNK))
    *above, last = rng.choice(places)
    around = part_at(value, above)
    how = rng.randrange(5)
    if how == 0:
        around[last] = copy.deepcopy(rng.choice(JUNK))
    elif how == 1:
        del around[last]
    elif how == 2:
        around.insert(last, json.loads(json.dumps(around[last])))
    elif how == 3:
        around[last] = json.loads(json.dumps(part_at(value, rng.choice(places))))
    else:
        around[last] = rng.choice(NUMBERS)
    return value


def spoilt_text(rng, text):
    """The text with some bytes changed, taken out, doubled or put in."""
    at, until = sorted((rng.randint(0, len(text)), rng.randint(0, len(text))))
    until = min(until, at + 40)
    how = rng.randrange(5)
    if how == 0:
        return text[:at] + bytes([rng.randrange(256)]) + text[at + 1 :]
    if how == 1:
        return text[:at] + text[until:]
    if how == 2:
        return text[:until] + text[at:]
    if how == 3:
        return text[:at] + rng.choice(WORDS) + text[at:]
    return text[:at] + rng.choice((b"[", b"]", b",", b'"', b" ", b"\n", b"0", b"9")) + text[at:]


def shown_in(history):
    """Some patterns that a history shows."""
    try:
        name, start, sessions = reading.read_history(history)
    except replay.Refused:
        return []
    if name != "memory":
        return []
    known = MemoryHistory(sessions, start)
    return found(known) if known.is_differentiated() and len(known.operations) <= 20 else []


def claim(rng):
    """A history, a criterion, and a pattern that the history shows, where one is found that shows any."""
    for _ in range(20):
        history = random_history(rng)
        shown = shown_in(history)
        if shown:
            break
    pattern = rng.choice(shown or [["ThinAirRead", [0, 0]]])
    return [history, rng.choice(AGAINST[pattern[0]]), pattern]


def input_of(rng, command):
    """An input of the command, before it is spoilt."""
    if command == "replay":
        return json.loads(script_text(rng, rng.randrange(8))[0] or "[]", strict=False)
    if command == "refute":
        return claim(rng)
    history = random_history(rng)
    return [history, program_order(rng, history[1])] if command == "check" else history


def random_value(rng, option):
    """A value of an option: the names of criteria, or a number."""
    if option == "--expect":
        return ",".join(rng.sample(CRITERIA, rng.randint(1, len(CRITERIA))))
    if option == "--every":
        return str(rng.choice((1, 2, 3, 5, 10, 1_000, 2**31 - 1)))
    return rng.choice(("", "", "+", "0")) + str(rng.choice(RANGES[option]))


def option_words(rng, option):
    """An option with a value, where it takes one, as two words or as one."""
    if option not in WITH_VALUE:
        return [option]
    value = random_value(rng, option)
    return [option, value] if rng.random() < 0.5 else [f"{option}={value}"]


def random_options(rng, command):
    """Some options of a command, mostly with those that they need."""
    chosen = [option for option in OPTIONS[command] if rng.random() < 0.3]
    for option, needed in NEEDED:
        if option in chosen and needed not in chosen and rng.random() < 0.9:
            chosen.append(needed)
    return chosen


def random_words(rng, command):
    """The words of a command line, spoilt now and then."""
    parts = [option_words(rng, option) for option in random_options(rng, command)]
    parts += [[rng.choice(STORES)]] if command == "drive" else []
    rng.shuffle(parts)
    words = [command, *sum(parts, [])]
    if rng.random() < 0.05:
        at = rng.randrange(len(words) + 1)
        words[at : at + rng.randrange(2)] = rng.choice(([], [rng.choice(OPTION_WORDS)], words[1:2]))
    return words


def mangled(rng, command):
    """The text of an input, mostly spoilt in its value, in its text, or in both."""
    try:
        value = input_of(rng, command)
    except ValueError:
        value = []
    for _ in range(rng.choice((0, 1, 1, 2, 3))):
        if type(value) is list:
            value = spoilt_value(rng, value)
    text = json.dumps(value, separators=rng.choice(((",", ":"), (" , ", " : ")))).encode()
    for _ in range(rng.choice((0, 0, 0, 1, 2))):
        text = spoilt_text(rng, text)
    return text


def mangled_log(rng):
    """A log of events, mostly spoilt in its bytes."""
    data = random_logs.log(rng)
    for _ in range(rng.choice((0, 0, 1, 1, 2, 3)) if len(data) < random_logs.LONG_LINE else 0):
        data = spoilt_text(rng, data)
    return data


def data_for(rng, command, words):
    """An input for words: what their command reads, and now and then what another one does."""
    is_log = command == "events" or "--events" in words
    return mangled_log(rng) if is_log != (rng.random() < 0.02) else mangled(rng, "judge" if command == "events" else command)


def answer_due(order, data):
    """What is due to an input, where one thing alone is."""
    if order["command"] == "replay":
        return "".join(f"{line}\n" for line in replay.replies(data))
    if order["command"] == "check":
        return reading.line_of_check(data)
    if order["command"] == "refute":
        return reading.line_of_refute(data, "--long" in order)
    if order["command"] == "drive":
        reading.read_driven(data, order.get("--stop"))
    elif "--long" in order:
        reading.read_long(data)
    else:
        reading.read_history(reading.read_text(data))
    return None


def wanted(order, data):
    """The status, what is written, where one thing alone may be, and the line on standard error, where it is known."""
    if order is None:
        return 2, "", None
    if reads_log(order):
        refusal = plain_events.read_log(data).refusal
        return (1, None, "refused {} {}\n".format(*refusal)) if refusal else (0, None, "")
    try:
        return 0, answer_due(order, data), ""
    except replay.Refused as refusal:
        return 1, "", "refused " + " ".join(map(str, refusal.args)) + "\n"


def is_reason(order, text):
    """Whether a text has the outside of a reason in the form that is asked for."""
    if "--html" in order:
        return text.startswith("<!DOCTYPE html>") and text.endswith("</html>\n")
    if "--json" in order:
        value = json.loads(text)
        return [reason[0] for reason in (value[0] if "--all" in order else value)] == ["cc", "cm", "ccv"]
    return text.startswith("<svg") and text.endswith("</svg>\n") if "--svg" in order else text.endswith("\n")


def is_answer(program, order, data, text):
    """Whether a text answers an input to which several texts may."""
    if order["command"] == "judge":
        return reading.REPORT.fullmatch(text) is not None
    if order["command"] == "explain":
        return is_reason(order, text)
    return not driven.faults(program, order, reading.read_driven(data), text)


def status_of(order, answers):
    """The status of answers, each in one line: whether one is refused, and whether what is expected is met."""
    if any(answer.startswith("refused ") for answer in answers):
        return 1
    verdicts = [verdict.split() for answer in answers for verdict in answer.split("; ")]
    expected = {verdict[1] for verdict in verdicts if verdict[0] in order.get("--expect", ())}
    return 5 if "no" in expected else 6 if "unknown" in expected else 0


def is_line(answer, due):
    """Whether a line answers a line of the input."""
    return f"{answer}\n" == due[2] if due[0] == 1 else reading.REPORT.fullmatch(answer.replace("; ", "\n") + "\n") is not None


def is_report_on(events, is_timed, text):
    """Whether a text is the report on some events, by the order of time or without it, or, where the plain judge knows none, any report."""
    return reading.REPORT.fullmatch(text) is not None and text == (plain_events.report_on(events, is_timed) or text)


def is_right_of_cuts(order, read, found):
    """Whether an outcome is due to the cuts of a log."""
    status, written, errors = found
    cuts = plain_events.cuts_of(read, order["--every"])
    for many, line in itertools.zip_longest(cuts, written.splitlines()):
        number, _, answer = (line or "").partition(" ")
        if number != str(many) or not is_report_on(read.events[:many], True, answer.replace("; ", "\n") + "\n"):
            return False
        if unmet := status_of(order, [answer]):
            hint = plain_events.EXPLAINED_CUT if status == unmet == 5 else ""
            hint += plain_events.late_line(read, many, order["--every"], many)
            is_last = many == cuts[-1] and plain_events.is_said(read, errors.removeprefix(hint)) and errors.startswith(hint)
            return written.endswith(f"{line}\n") and ((status, errors) == (unmet, hint) or is_last)
    late = "" if read.refusal else plain_events.late_line(read, None, order["--every"], len(read.events))
    return errors.startswith(late) and plain_events.is_said(read, errors.removeprefix(late)) and status == int(read.refusal is not None)


def is_right_of_log(order, data, found):
    """Whether an outcome is one that is due to a log."""
    read, (status, written, errors) = plain_events.read_log(data), found
    if "--every" in order:
        return is_right_of_cuts(order, read, found)
    if not plain_events.is_said(read, errors) or read.refusal:
        return plain_events.is_said(read, errors) and (status, written) == (1, "")
    if order["command"] == "events":
        told = json.loads(written)
        due = plain_events.names_of(read) if "--names" in order else plain_events.run_shown(read.events, told, read.is_timed).form()
        return status == 0 and json.dumps(told) == json.dumps(due)
    if order["command"] == "judge":
        return is_report_on(read.events, read.is_timed, written) and status == status_of(order, ["; ".join(written.splitlines())])
    return status == 0 and is_reason(order, written)


def is_right(program, order, data, found, due):
    """Whether an outcome is one that is due."""
    if order and reads_log(order):
        return is_right_of_log(order, data, found)
    if due[2] is None:
        return found[:2] == due[:2] and found[2].startswith("error: ")
    if due[1] is None:
        answered = found[2] == due[2] and is_answer(program, order, data, found[1])
        return answered and found[0] == status_of(order, ["; ".join(found[1].splitlines())] if "--expect" in order else [])
    return found == due


def outcome(program, words, data):
    done = subprocess.run([*program, *words], input=data, capture_output=True, check=False, timeout=120)
    return done.returncode, done.stdout.decode(), without_reason(words, done.stderr.decode())


def kind_of(due):
    """What is due, in short: the number of a refusal without its place."""
    status, _, line = due
    return {0: "answered", 2: "no command line"}[status] if status != 1 else " ".join(line.split()[:2])


def kept(command, data):
    """The name of a file with an input, which stays."""
    with tempfile.NamedTemporaryFile(prefix=f"mangled-{command}-", suffix=".json", delete=False) as file:
        file.write(data)
    return file.name


def rounds(given):
    """Goes on for as many inputs, or as many minutes, as are asked for."""
    last = time.monotonic() + 60 * given.minutes if given.minutes else None
    for number in itertools.count():
        if number >= given.count if last is None else time.monotonic() >= last:
            return
        yield number


def main():
    parser = argparse.ArgumentParser(description=__doc__, formatter_class=argparse.RawDescriptionHelpFormatter)
    parser.add_argument("seed", type=int)
    parser.add_argument("--count", type=int, default=1_000)
    parser.add_argument("--minutes", type=float)
    given = with_program(parser)
    rng = random.Random(given.seed)
    seen, wrong = collections.Counter(), 0
    for _ in rounds(given):
        command = rng.choice(list(OPTIONS))
        words = random_words(rng, command)
        while names_file(words[1:]):
            words = random_words(rng, command)
        order, data = order_of(words), data_for(rng, command, words)
        due, found = wanted(order, data), outcome(given.program, words, data)
        seen[order["command"] if order else command, kind_of(due)] += 1
        if not is_right(given.program, order, data, found, due):
            wrong += 1
            print(f"{' '.join(words)} < {kept(command, data)}: {found!r}, due {due!r}", flush=True)
    for (command, kind), many in sorted(seen.items()):
        print(f"{many:8} {command} {kind}")
    end(sum(seen.values()) - wrong, wrong)


if __name__ == "__main__":
    main()
