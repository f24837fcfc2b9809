#!/usr/bin/env python3
"""Compares what is said of logs of events with a plain program, and talks to a judge while a log is written.

    python3 tests/process/events.py SEED LOGS [--threads N] [--long] -- PROGRAM

- LOGS random logs (random_logs.py), whose clients fail, are lost, delete and stop, in any spelling, with blank lines and torn ends, and many
  with a line that is refused. Of each, `judge --long --events` and `events` have to write what plain_events.py says, with its status, its
  refusal and the number of the line; and so does, in turn, one of these: `events --names` and `--notes`; `judge .. --every N`, cut by cut; `explain ..
  --json`, whose patterns are in the history by patterns.py; and `explain` in words, as a picture by pictures.py, and by `--all N`, whose
  lines are those of `judge`, and which no name in the log disturbs.
- Each refusal, each kind of a `no`, forks, reads that saw a delete, reads that ask nothing, torn ends, starts, and a cut that is a `no`
  where the whole is a `yes` have to come in these logs.
- The logs of examples/, names that are alike, lines of 1,000,000 bytes and of more, a log of more than 67,108,864 bytes, and words that are
  no command line.
- A log that is written while it is judged: each answer comes before more is written, and with `--expect` the judge ends before the log does.
- With `--long`: the bounds of bench/events_speed.py, for a program that was proved.

It prints each log with a fault, with the file in which it is kept, and how often each thing came.
"""

import argparse
import json
import os
import pathlib
import random
import re
import select
import subprocess
import sys
import tempfile
import time
from collections import Counter
from concurrent.futures import ThreadPoolExecutor
from typing import NamedTuple

import folders  # noqa: F401
import mangled
import order_remarks
import pictures
import plain_events
import random_logs
from command_words import CRITERIA, with_program
from counting import counted_faults, end
from order_remarks import QUOTED
from patterns import AGAINST, MemoryHistory, is_pattern, shows
from plain_events import EXPLAINED_CUT, cuts_of, is_harmless, is_said
from streams import is_unproved

ROOT = pathlib.Path(__file__).resolve().parents[2]
sys.path.insert(0, str(ROOT / "bench"))
import events_speed  # noqa: E402

EXAMPLES = ROOT / "examples"
SECONDS = 120
JUDGE, EXPLAIN = ["judge", "--long", "--events"], ["explain", "--long", "--events"]
LISTED = 20
PIECE = 3
MISSED, MISSED_OF = "a lost call beside which not all that is forced was found", 1_000
LINE = re.compile(r"\bline (\d+)")
OF_CALL = re.compile(r"  line (\d+)(?: \(call\))?: ")
NOTE = re.compile(r"(?: \[note|;) of line (\d+): ")
CUT = "\u2026"


class Due(NamedTuple):
    """What is due to a log that is not refused: the three lines, and the run with its history."""

    lines: str
    run: plain_events.Run | None


def outcome(program, words, data):
    """The status of a run and both its outputs."""
    try:
        done = subprocess.run([*program, *words], input=data, capture_output=True, check=False, timeout=SECONDS)
    except subprocess.TimeoutExpired:
        return f"no end within {SECONDS} seconds", "", ""
    return done.returncode, done.stdout.decode(errors="replace"), done.stderr.decode(errors="replace")


def outcome_of_file(program, words, data):
    """The same, where a file has the input."""
    with tempfile.NamedTemporaryFile(prefix="events-", suffix=".jsonl") as file:
        file.write(data)
        file.flush()
        return outcome(program, [*words, file.name], b"")


def errors_faults(found, errors):
    """What is wrong with standard error, for what was read of a log."""
    due = f"refused {found.refusal}" if found.refusal else f"a torn end: {found.is_torn}"
    return [] if is_said(found, errors) else [f"on standard error {errors!r}, due {due}"]


def answer(program, words, data, found):
    """What a run over a log writes, and what is wrong with how it ends. Nothing is written where the log is refused."""
    status, written, errors = outcome(program, words, data)
    wrong = errors_faults(found, errors)
    if status != int(found.refusal is not None) or (found.refusal and written):
        wrong.append(f"status {status} and {written!r}")
    return written, [f"{' '.join(words)}: {fault}" for fault in wrong]


def lines_due(program, form):
    """The three lines of the history of some events. Where the plain judge knows none, those that the program gives that history."""
    found = plain_events.report_of(form)
    if found is None:
        found = outcome(program, ["judge", "--long"], plain_events.text_of(form).encode())[1]
    return found


def joined(lines):
    return "; ".join(lines.splitlines())


def status_due(lines, expected):
    """The status of three lines, where these criteria are expected."""
    return mangled.status_of({"--expect": expected}, [joined(lines)] if lines else [])


def run_faults(program, words, data, found, status, text):
    """What is wrong with a run, to which a status and a text are due where the log is not refused."""
    ended, written, errors = outcome(program, words, data)
    wrong = errors_faults(found, errors)
    if found.refusal:
        status, text = 1, ""
    if (ended, written) != (status, text):
        wrong.append(f"status {ended} and {written!r}, due {status} and {text!r}")
    return [f"{' '.join(words)}: {fault}" for fault in wrong]


def expectation(rng):
    """Criteria that are expected, mostly none, and the words that say so."""
    if rng.random() < 0.6:
        return (), []
    expected = tuple(rng.sample(CRITERIA, rng.randint(1, len(CRITERIA))))
    return expected, ["--expect", ",".join(expected)]


def judge_faults(program, data, found, lines, rng):
    """What is wrong with the three lines."""
    expected, words = expectation(rng)
    workers = ["--workers", rng.choice("1234")] if rng.random() < 0.5 else []
    return run_faults(program, [*JUDGE, *workers, *words], data, found, status_due(lines, expected), lines)


def due_of(program, data, found):
    """What is due to a log by the history that is written of it, and what is wrong with that."""
    written, wrong = answer(program, ["events"], data, found)
    if found.refusal:
        return Due("", None), wrong
    run = plain_events.run_shown(found.events, json.loads(plain_of(written) or "[]"), found.is_timed)
    text = plain_events.text_of(run.form())
    if written != text:
        wrong.append(f"events: {written!r}, due {text!r}")
    return Due(lines_due(program, run.form()), run), wrong


def plain_of(text):
    """A JSON text in one spelling; none where it is no JSON."""
    try:
        return json.dumps(json.loads(text))
    except ValueError:
        return None


def names_faults(program, data, found, *_):
    """What is wrong with the tables of names."""
    written, wrong = answer(program, ["events", "--names"], data, found)
    due = plain_events.names_of(found)
    if not found.refusal and (plain_of(written) != json.dumps(due) or not is_harmless(written) or written.count("\n") != 1):
        wrong.append(f"events --names: {written!r}, due {due}")
    return wrong + list_faults(program, data, found)


def list_faults(program, data, found):
    """What is wrong with the list of notes."""
    written, wrong = answer(program, ["events", "--notes"], data, found)
    due = plain_events.noted_lines(data, found)
    is_compact = not re.search(r"\s", QUOTED.sub("", written[:-1])) and written.endswith("\n") and is_harmless(written)
    if not found.refusal and not (is_compact and written.count("\n") == 1 and json.loads(written) == due):
        wrong.append(f"events --notes: {written!r}, due {due}")
    return wrong


def cut_lines_due(program, found, every, expected):
    """The lines that are due to the cuts, the status, how many events were judged, and whether the log was read to its end, or to the line
    that is refused: after a cut that has so many events as were asked for, the log may go on."""
    written, many = "", 0
    for many in cuts_of(found, every):
        lines = lines_due(program, plain_events.history_of(found.events[:many], True))
        written += f"{many} {joined(lines)}\n"
        if status := status_due(lines, expected):
            return written, status, many, many % every > 0
    return written, int(found.refusal is not None), many, True


def cuts_faults(program, data, found, due, rng, seen):
    """What is wrong with the lines of the cuts, of a log on standard input or in a file, which is read on after the last cut."""
    every, (expected, words) = rng.choice((1, 2, 3, 5, 8, 1_000)), expectation(rng)
    words = [*JUDGE, *rng.sample((["--every", str(every)], words), 2)]
    words = sum((part if type(part) is list else [part] for part in words), [])
    written, status, judged, is_whole = cut_lines_due(program, found, every, expected)
    is_file = rng.random() < 0.5
    ended, text, errors = outcome_of_file(program, words, data) if is_file else outcome(program, words, data)
    late = plain_events.late_line(found, None if is_file or is_whole else judged, every, judged) if status != 1 else ""
    hint = (EXPLAINED_CUT if status == 5 else "") + late
    wrong = [] if errors.startswith(hint) else [f"on standard error {errors!r}, due {hint!r}"]
    rest = errors.removeprefix(hint)
    wrong += errors_faults(found, rest) if is_whole else [f"{rest!r} after the end"] * bool(rest)
    if (ended, text) != (status, written):
        wrong.append(f"status {ended} and {text!r}, due {status} and {written!r}")
    seen["a cut that is a no, and the whole a yes"] += " no " in written and " no " not in written.rstrip("\n").split("\n")[-1]
    seen["a run that ends before its log"] += not is_whole
    seen["a late write"] += bool(late)
    seen["a late write after the last cut"] += bool(late) and not is_whole
    return [f"{' '.join(words)}: {fault}" for fault in wrong]


def explained_faults(program, data, found, due, rng, seen):
    """What is wrong with an explanation as JSON."""
    written, wrong = answer(program, [*EXPLAIN, "--json"], data, found)
    if found.refusal:
        return wrong
    start, sessions = plain_events.read_history(due.run.form())
    known, lines = MemoryHistory(sessions, start), [line.split(" ") for line in due.lines.splitlines()]
    reasons = json.loads(plain_of(written) or "[]")
    if [reason[:2] for reason in reasons] != [line[:2] for line in lines]:
        return [*wrong, f"explain --json: {written!r}, due {due.lines!r}"]
    for (criterion, word, shown, *_), line in zip(reasons, lines):
        if word == "no" and type(shown) is not str:
            seen[f"pattern of {shown[0]}"] += 1
            if not (is_pattern(shown) and shows(known, criterion, shown) and shown[0] == line[2]):
                wrong.append(f"explain --json: {shown} shows no {line[2]} against {criterion}")
    return wrong


def is_worded(form, lines, text):
    """Whether a text in some form of `explain` has the lines of `judge`."""
    if form == ["--svg"]:
        return not pictures.faults_of(text)
    if "--json" in form:
        return [reason[:2] for reason in json.loads(text)[0]] == [line.split(" ")[:2] for line in lines.splitlines()]
    return [line for line in text.splitlines() if line.split(" ")[0] in CRITERIA] == lines.splitlines()


def apart(words):
    """The words on a call without its notes; and the notes, the line of each and itself, or None where one of them is cut."""
    begin = NOTE.search(QUOTED.sub(lambda quoted: "_" * len(quoted[0]), words))
    if begin is None or CUT in words:
        return words[: begin.start() if begin else None], None if CUT in words else []
    notes, end, following = [], 0, begin
    while following:
        note, end = json.JSONDecoder().raw_decode(words, following.end())
        notes.append((int(following[1]), note))
        following = NOTE.match(words, end)
    return words[: begin.start()] + words[end + 1 :], notes


def note_faults(data, found, text, seen):
    """What is wrong with the notes that the words show. Of those that are cut nothing is asked."""
    due = plain_events.notes_of(data, found)
    for words in text.splitlines():
        call, shown = OF_CALL.match(words), apart(words)[1]
        if call is None or shown is None:
            continue
        seen["a note that is shown"] += len(shown)
        if shown != due[int(call[1])]:
            yield f"{words!r}: its notes are {due[int(call[1])]}"


def remark_faults(found, run, text):
    """What is wrong with what the words say of reads that found nothing, and with the numbers of the lines of calls."""
    text = "\n".join(apart(words)[0] for words in text.splitlines())
    due = (len(run.left_out), len(run.choice)) if run.left_out else None
    begins = {line for event, line in zip(found.events, found.lines) if event[0] == "begin"}
    named = {int(number) for number in LINE.findall(QUOTED.sub("", text))}
    try:
        remark = order_remarks.remark_in(text)
    except order_remarks.NotRead as fault:
        return [f"words on reads that found nothing: {fault}"]
    told = (remark.left_out, remark.asked) if remark else None
    wrong = [] if told == due else [f"{told} reads are left out and asked, due {due}: {text!r}"]
    return wrong + ([f"no call begins on the lines {named - begins}: {text!r}"] if named - begins else [])


def words_faults(program, data, found, due, rng, seen):
    """What is wrong with an explanation in words, as a picture, or with a list of reads."""
    form = rng.choice(([], ["--svg"], ["--all", str(LISTED)], ["--all", str(LISTED), "--json"]))
    written, wrong = answer(program, [*EXPLAIN, *form], data, found)
    if not found.refusal and not (is_harmless(written) and is_worded(form, due.lines, written)):
        wrong.append(f"explain {' '.join(form)}: {written!r}, due {due.lines!r}")
    if found.refusal or form not in ([], ["--all", str(LISTED)]):
        return wrong
    return [*wrong, *remark_faults(found, due.run, written), *note_faults(data, found, written, seen)]


OTHERS = (names_faults, cuts_faults, cuts_faults, explained_faults, words_faults)


def kept(data):
    """The name of a file with a log, which stays."""
    with tempfile.NamedTemporaryFile(prefix="events-", suffix=".jsonl", delete=False) as file:
        file.write(data)
    return file.name


def told_of(found, due):
    """What there is in a log."""
    if found.refusal:
        return [f"refused {found.refusal[0]}"]
    run = due.run
    there = {"a fork": run.forks, "a read that asks nothing": run.left_out, "a start": run.start, "a torn end": found.is_torn}
    there |= {MISSED: run.choice != run.forced().choice, "a read that saw a delete": set(run.choice.values()) - {None}}
    there |= {"a lost delete that was seen": any(call.word == "d" for call in run.forks)}
    endings = {f"a call that ends as {call.ending}" for call in run.calls}
    return [*due.lines.splitlines(), *(what for what, is_there in there.items() if is_there), *endings]


def try_log(program, seed, number):
    """What is wrong with what is said of a random log, which is kept then, and what was seen in it."""
    rng, seen = random.Random(f"{seed} {number}"), Counter()
    data = random_logs.log(rng)
    found = plain_events.read_log(data)
    due, wrong = due_of(program, data, found)
    seen.update(told_of(found, due))
    wrong += judge_faults(program, data, found, due.lines, rng)
    wrong += OTHERS[number % len(OTHERS)](program, data, found, due, rng, seen)
    return [kept(data), *wrong] if wrong else [], seen


def random_faults(given, seen):
    """The faults of each random log."""
    with ThreadPoolExecutor(given.threads) as pool:
        for wrong, there in pool.map(lambda number: try_log(given.program, given.seed, number), range(given.logs)):
            seen.update(there)
            yield wrong


def never_seen(seen, logs):
    """What never came in the logs, and should have, or came too often."""
    yield [] if seen[MISSED] <= 1 + logs // MISSED_OF else [f"{seen[MISSED]} times: {MISSED}"]
    named = [f"{criterion} no {kind}" for kind, against in AGAINST.items() for criterion in against]
    named += [f"{criterion} yes" for criterion in CRITERIA] + ["refused 1", "refused 9", "refused 30"]
    named += [f"a call that ends as {ending}" for ending in ("open", "ok", "got", "nothing", "failed", "lost")]
    named += ["a fork", "a read that asks nothing", "a start", "a torn end", "a run that ends before its log", "a note that is shown"]
    named += ["a read that saw a delete", "a lost delete that was seen"]
    named += ["a cut that is a no, and the whole a yes", "a late write", "a late write after the last cut"]
    for what in named if logs >= 1_000 else ():
        yield [] if seen[what] else [f"never seen: {what}"]


def log_of(*events):
    """The bytes of a log."""
    return b"".join(json.dumps(event).encode() + b"\n" for event in events)


def read_by(client, key, value):
    return [["begin", client, ["r", key]], ["end", client, value]]


def written_by(client, key, value):
    return [["begin", client, ["w", key, value]], ["end", client, "ok"]]


LONG_NAME = "n" * (plain_events.MOST_LINE - len('["lost",""]'))
ALIKE = log_of(*written_by("a", "k", 1), *written_by("a", "k", "1"), *written_by("a", 7, True), *written_by("a", "7", "true"))
SINGLE = (
    b"",
    b"\n\n \r\n\t\n",
    b"  ",
    b"[",
    log_of(["start", "k", 1]),
    log_of(["start", "k", 1], ["start", "k", 2]),
    log_of(["start", "k", 1], *read_by("a", "k", 1), *read_by("a", "k", None)),
    log_of(["begin", "a", ["r", "k"]], ["start", "k", 1]),
    ALIKE,
    ALIKE + log_of(*read_by("b", "k", "1"), *read_by("b", "k", 1), *read_by("c", 7, True), *read_by("c", "7", True)),
    b'["begin","\\u0061",["r","k"]]\n["end","a",null]\n["begin","a",["w","\\u006b",5]]\n',
    b'["begin","a",["w","k",1]]\r\n["lost","a"]\r\n["begin","b",["r","k"]]\r\n["end","b",1]\r\n',
    log_of(*read_by("a", "k", "ok"), *written_by("a", "k", "ok")),
    log_of(*written_by("a", "k", 0), *read_by("a", "k", 0), *read_by("b", "k", "")),
    log_of(*written_by("a", "k", 5), *written_by("b", "k", 5)),
    log_of(["begin", "a", ["w", "k", 1]], ["end", "a", None]),
    log_of(["begin", "a", ["d", "k"]], ["end", "a", 1]),
    log_of(["begin", "a", ["r", "k"]], ["end", "b", 1]),
    log_of(["lost", LONG_NAME]),
    log_of(["lost", LONG_NAME + "n"]),
    log_of(["begin", LONG_NAME[20:], ["r", "k"]]),
    b" " * plain_events.MOST_LINE + b"\n",
    b" " * (plain_events.MOST_LINE + 1) + b"\n",
    b"\n\n" + b"[" * 2 * plain_events.MOST_LINE + b"\n",
    b"\n\n" + b"[" * 2 * plain_events.MOST_LINE,
    b"\n\n" + b"[" * plain_events.MOST_LINE,
    b"\n" * 3 + b"{\n" + b" " * 2 * plain_events.MOST_LINE + b"\n",
    b'["lost","a"]\n[\n',
    b'\n["begin","a",["r","k"]]\n["end","a",1.0]',
    b'["begin","a",["r","k"]]\n["end","a",-0]\n',
    b'["begin","a",["r","k"]]\n["end","a",-9223372036854775808]\n["begin","a",["r","k"]]\n["end","a",18446744073709551615]\n',
    (b" " * 999 + b"\n") * 70_000 + log_of(*written_by("a", "k", 1), *read_by("b", "k", 2)),
)
NO_COMMAND_LINE = (
    ["judge", "--long", "--events", "--events"],
    ["judge", "--long", "--events=1"],
    ["judge", "--long", "--events", "--lines"],
    ["judge", "--long", "--lines", "--events"],
    ["judge", "--long", "--every", "3"],
    ["judge", "--every", "3"],
    ["judge", "--long", "--events", "--every"],
    ["judge", "--long", "--events", "--every", "0"],
    ["judge", "--long", "--events", "--every", "x"],
    ["judge", "--long", "--events", "--every", "1", "--every", "2"],
    ["explain", "--long", "--events", "--certificates", "--json"],
    ["explain", "--long", "--events", "--every", "3"],
    ["explain", "--long", "--events", "--svg", "--json"],
    ["check", "--events"],
    ["refute", "--long", "--events"],
    ["replay", "--events"],
    ["drive", "causal", "--events"],
    ["events", "--long"],
    ["events", "--names", "--names"],
    ["events", "--names=1"],
)


def single_faults(program):
    """The faults of what is said of single logs, and of words that are no command line."""
    for number, data in enumerate((*SINGLE, *(path.read_bytes() for path in sorted(EXAMPLES.glob("*.jsonl"))))):
        found, rng, seen = plain_events.read_log(data), random.Random(number), Counter()
        due, wrong = due_of(program, data, found)
        wrong += judge_faults(program, data, found, due.lines, rng)
        for other in dict.fromkeys(OTHERS):
            wrong += other(program, data, found, due, rng, seen)
        yield [kept(data), *wrong] if wrong else []
    for words in NO_COMMAND_LINE:
        status, written, errors = outcome(program, words, b"")
        yield [] if (status, written, errors[:7]) == (2, "", "error: ") else [f"{' '.join(words)}: {status}, {written!r}, {errors!r}"]


class Talk:
    """A judge that reads a log from a pipe while it is written."""

    def __init__(self, program, words):
        self.process = subprocess.Popen([*program, *JUDGE, *words], stdin=subprocess.PIPE, stdout=subprocess.PIPE, stderr=subprocess.PIPE)

    def say(self, data):
        try:
            self.process.stdin.write(data)
            self.process.stdin.flush()
        except BrokenPipeError:
            pass

    def hears(self, seconds):
        """A line that comes within so many seconds; none where none comes."""
        ready, _, _ = select.select([self.process.stdout], [], [], seconds)
        return self.process.stdout.readline().decode() if ready else None

    def ends(self, is_closed):
        """How the process ends: with its input still open, or once it is closed."""
        if is_closed:
            self.process.stdin.close()
        try:
            status = self.process.wait(SECONDS)
        except subprocess.TimeoutExpired:
            self.process.kill()
            status = "it did not end"
        rest = self.process.stdout.read().decode(), self.process.stderr.read().decode()
        if not is_closed:
            try:
                self.process.stdin.close()
            except BrokenPipeError:
                pass
        return status, *rest


HEALTHY = [*written_by("alice", "k", "v1"), *read_by("bob", "k", "v1")]
FAULTY = [*written_by("alice", "k", "v2"), *read_by("bob", "k", "v2"), *read_by("bob", "k", "v1")]
MET, STALE = "cc yes; cm yes; ccv yes\n", "cc no WriteCORead; cm no WriteCORead; ccv no WriteCORead\n"


def talked_faults(program):
    """The faults of judges that read a log while it is written."""
    talk = Talk(program, ["--every", "4"])
    talk.say(log_of(*HEALTHY))
    heard = [talk.hears(SECONDS)]
    talk.say(log_of(*FAULTY[:4]))
    heard.append(talk.hears(SECONDS))
    talk.say(log_of(*FAULTY[4:])[:-5])
    heard.append(talk.hears(0.3))
    talk.say(log_of(*FAULTY[4:])[-5:])
    heard.append(talk.hears(0.3))
    ended = talk.ends(True)
    due = [f"4 {MET}", f"8 {MET}", None, None]
    yield [] if (heard, ended) == (due, (0, f"10 {STALE}", "")) else [f"--every 4: heard {heard}, and then {ended}"]
    talk = Talk(program, ["--every", "2", "--expect", "cc,cm"])
    talk.say(log_of(*HEALTHY, *FAULTY))
    ended, due = talk.ends(False), "".join(f"{many} {MET}" for many in (2, 4, 6, 8)) + f"10 {STALE}"
    yield [] if ended == (5, due, EXPLAINED_CUT) else [f"--every 2 --expect cc,cm: {ended}, while the log goes on"]
    talk, text = Talk(program, ["--every", "3", "--expect", "ccv"]), log_of(*HEALTHY)
    for at in range(0, len(text), PIECE):
        talk.say(text[at : at + PIECE])
        time.sleep(0.001)
    heard = talk.hears(SECONDS)
    ended = talk.ends(True)
    yield [] if (heard, ended) == (f"3 {MET}", (0, f"4 {MET}", "")) else [f"in pieces: heard {heard}, and then {ended}"]


def all_faults(given, seen):
    yield from single_faults(given.program)
    yield from talked_faults(given.program)
    yield from random_faults(given, seen)
    yield from never_seen(seen, given.logs)
    if given.long and not is_unproved(given.program):
        yield from events_speed.faults(given.program)


def main():
    parser = argparse.ArgumentParser(description=__doc__, formatter_class=argparse.RawDescriptionHelpFormatter)
    parser.add_argument("seed", type=int)
    parser.add_argument("logs", type=int)
    parser.add_argument("--threads", type=int, default=os.cpu_count() or 2)
    parser.add_argument("--long", action="store_true")
    given = with_program(parser)
    seen = Counter()
    passed, failed = counted_faults(all_faults(given, seen))
    for what, times in sorted(seen.items()):
        print(f"{times:8} {what}")
    end(passed, failed)


if __name__ == "__main__":
    main()
