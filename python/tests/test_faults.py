"""Tests the list of faults of a log: what the calls of its operations are, the counts, and what is said where there are none."""

import itertools
import json
import random
import re
import shlex
import sys
import unittest

from causal_judge import Fault, Faults, FaultsUnknown, Line, Operation, Recorder, faults
from causal_judge.operations import EVENTS, Origins, answered_reads
from causal_judge.program import find_program, run_program
from causal_judge.verdicts import EXPLAIN
from support import REPOSITORY, FolderCase, many, needs_program, write_log

REPOSITORY_TESTS = REPOSITORY / "tests"
if REPOSITORY_TESTS.is_dir():
    sys.path.insert(0, str(REPOSITORY_TESTS))
    import folders  # noqa: F401, I001
    import deleting_stores
    import plain_events
    import random_logs

SAID = re.compile(r"  line (\d+): .*: (\w+)(?:, breaks [a-z ]+)?")
OTHERS = re.compile(r"\((?:written by line (\d+)|its initial value)\), after line (\d+)")
needs_repository = unittest.skipUnless(REPOSITORY_TESTS.is_dir(), "skipped: the repository's tests are not beside the package")
KINDS = ("ThinAirRead", "WriteCOInitRead", "WriteCORead")


def call(client, asked, ending="end", answer="ok", notes=()):
    """The events of a call, with notes of its begin and its end."""
    begin, end = notes or (None, None)
    ended = [ending, client, answer] if ending == "end" else [ending, client]
    return [["begin", client, asked, *([begin] if begin else [])], [*ended, *([end] if end else [])]]


RUN = [
    *call("a", ["w", "x", 1]),
    *call("a", ["r", "x"], answer=None),
    *call("b", ["w", "y", 1]),
    *call("b", ["d", "y"]),
    *call("b", ["r", "y"], answer=1),
    *call("c", ["r", "y"], answer=None),
    *call(7, ["w", 5, 1], "lost"),
    *call("d", ["w", 5, 9], "fail"),
    *call("d", ["r", 5], answer=1),
    *call("d", ["w", 5, 2]),
    *call("d", ["r", 5], answer=1),
    *call("d", ["r", "z"], answer=True),
]
DUE = (
    Fault("WriteCOInitRead", Operation(3, "a", "r", "x"), None, Operation(1, "a", "w", "x", 1)),
    Fault("WriteCORead", Operation(9, "b", "r", "y", 1), Operation(5, "b", "w", "y", 1), Operation(7, "b", "d", "y")),
    Fault("WriteCORead", Operation(21, "d", "r", 5, 1), Operation(13, 7, "w", 5, 1), Operation(19, "d", "w", 5, 2)),
    Fault("ThinAirRead", Operation(23, "d", "r", "z", True)),
)
WORDS = """ThinAirRead: 1
WriteCOInitRead: 1
WriteCORead: 2
"a": 1
"b": 1
"d": 2
WriteCOInitRead: line 3: "a" finds nothing at "x", which missed line 1: "a" writes 1 to "x"
WriteCORead: line 9: "b" reads 1 from "y" (written by line 5), which missed line 7: "b" deletes "y"
WriteCORead: line 21: "d" reads 1 from key 5 (written by line 13), which missed line 19: "d" writes 2 to key 5
ThinAirRead: line 23: "d" reads true from "z\""""


@needs_program
class Listed(FolderCase):
    def test_list_and_counts(self):
        found = faults(write_log(self.log, RUN))
        self.assertEqual((tuple(found), found.listed, len(found), found.total), (DUE, DUE, 4, 4))
        self.assertEqual(found.counts, dict(zip(KINDS, (1, 1, 2))))
        by_client = {"a": (0, 1, 0), "b": (0, 0, 1), "d": (1, 0, 1)}
        self.assertEqual(found.by_client, {client: dict(zip(KINDS, counts)) for client, counts in by_client.items()})
        self.assertEqual([line.answer for line in found.lines], ["no"] * 3)
        self.assertEqual(str(found), WORDS)

    def test_first_of_them(self):
        found = faults(write_log(self.log, RUN), most=2)
        self.assertEqual((found.listed, found.total), (DUE[:2], 4))
        for most in (0, -1, 1_000_001, 1.5):
            with self.subTest(most=most), self.assertRaisesRegex(ValueError, "most is from 1 to 1,000,000"):
                faults(self.log, most=most)

    def test_no_fault(self):
        """A yes has none, and neither has a no that single reads do not show."""
        write_log(self.log, RUN[:2])
        lines = tuple(Line(name, "yes") for name in ("cc", "cm", "ccv"))
        self.assertEqual(faults(self.log), Faults(lines, dict.fromkeys(KINDS, 0), {}, ()))
        both = [*call("a", ["w", "k", 1]), *call("b", ["w", "k", 2]), *call("a", ["r", "k"], answer=2), *call("b", ["r", "k"], answer=1)]
        found = faults(write_log(self.log, both))
        self.assertEqual((found.total, found.lines[2]), (0, Line("ccv", "no", "CyclicCF")))

    def test_repeated_values(self):
        write_log(self.log, [*call("a", ["w", "k", 1]), *call("a", ["w", "k", 1])])
        with self.assertRaisesRegex(FaultsUnknown, "run.jsonl: a value is written twice"):
            faults(self.log)

    def test_recorder(self):
        with Recorder(self.log) as recorder, recorder.client("a") as alice:
            alice.write("k", 1, lambda: None)
            alice.read("k", lambda: None)
            last = len(self.log.read_bytes().splitlines())
            due = Fault("WriteCOInitRead", Operation(last - 1, "a", "r", "k"), None, Operation(last - 3, "a", "w", "k", 1))
            self.assertEqual(faults(recorder).listed, (due,))

    def test_lines_are_those_of_the_words(self):
        """Of random logs: each fault names the lines that `explain --all` names."""
        rng, listed = random.Random(83), 0
        for _ in range(many(10, 400)):
            listed += len(self.listed_as_in_words(write_log(self.log, faulty(rng))))
        self.assertGreater(listed, 10)

    @needs_repository
    def test_lines_where_keys_are_deleted(self):
        """Of runs of stores, and of logs of anything at all, in which keys are deleted and calls are lost: likewise."""
        rng, sources, missed = random.Random(29), 0, 0
        for number in range(many(200, 3000)):
            self.log.write_text(deleting(rng, number))
            found = self.listed_as_in_words(self.log)
            sources += sum(is_delete(fault.source) for fault in found)
            missed += sum(is_delete(fault.missed) for fault in found)
        self.assertGreater(min(sources, missed), 10)

    def listed_as_in_words(self, log):
        """The first faults of a log, each of which has to name the lines that the words name."""
        found = faults(log, 50).listed
        due = [(int(line), kind, *others_in(text)) for text, line, kind in said_of(log)]
        self.assertEqual([(fault.read.line, fault.kind, *others_of(fault)) for fault in found], due, log.read_text())
        return found

    def test_changed_meanwhile(self):
        """After one of the runs of the program the log has a client more, a call more, or another end in as many bytes."""
        program, write, read = self.folder / "program", call("a", ["w", "x", 1]), call("a", ["r", "x"], answer=None)
        log, failed = text_of([*write, *read]), text_of([*write, read[0], ["fail", "a"]])
        changed = log + text_of(call("new", ["r", "x"])), log + text_of(read), failed.ljust(len(log))
        for word, text in itertools.product(("explain", "events"), changed):
            with self.subTest(word=word, text=text):
                self.log.write_text(log)
                change = f"[ $1 != {word} ] || printf %s {shlex.quote(text)} > {shlex.quote(str(self.log))}"
                program.write_text(f'#!/bin/sh\n{shlex.quote(find_program())} "$@"\n{change}\n')
                program.chmod(0o755)
                with self.assertRaisesRegex(RuntimeError, "run.jsonl changed while its faults were listed"):
                    faults(self.log, program=program)


@needs_program
class Nothing(FolderCase):
    """Faults of logs in which a read found nothing at a key that is deleted at some time."""

    def assert_one(self, events, *due):
        """The log has one fault, of this kind: the line of the read, and those of the source and of the missed write."""
        (fault,) = faults(write_log(self.log, events)).listed
        self.assertEqual((fault.kind, fault.read.line, *others_of(fault)), due)
        self.assertEqual([(int(line), kind, *others_in(text)) for text, line, kind in said_of(self.log)], [(due[1], due[0], *due[2:])])
        return fault

    def test_deleted_value_comes_back(self):
        """Bob saw that Alice had deleted it."""
        saw = [*call("bob", ["r", "k"], answer=1), *call("alice", ["d", "k"]), *call("bob", ["r", "k"], answer=None)]
        events = [*call("alice", ["w", "k", 1]), *saw, *call("bob", ["r", "k"], answer=1)]
        fault = self.assert_one(events, "WriteCORead", 9, 1, 5)
        said = 'line 9: "bob" reads 1 from "k" (written by line 1), which missed line 5: "alice" deletes "k"'
        self.assertEqual(str(fault), f"WriteCORead: {said}")

    def test_lost_delete_that_was_seen(self):
        """The lost write that nobody saw is in no history."""
        saw = [*call("bob", ["r", "k"], answer=1), *call("bob", ["r", "k"], answer=None), *call("bob", ["r", "k"], answer=1)]
        events = [*call("alice", ["w", "k", 1]), *call("alice", ["w", "k", 2], "lost"), *call("alice", ["d", "k"], "lost"), *saw]
        fault = self.assert_one(events, "WriteCORead", 11, 1, 5)
        self.assertEqual(fault.missed, Operation(5, "alice", "d", "k"))
        places = [(session, index) for session in range(3) for index in range(4)]
        found = Origins(self.log).operations(places)
        lines = {(0, 0): 1, (0, 1): 5, (1, 0): 7, (1, 1): 9, (1, 2): 11, (2, 0): 5, (2, 1): 5}
        self.assertEqual({place: operation.line for place, operation in found.items()}, lines)

    def test_start_that_was_seen(self):
        """The first read comes before the only delete: it saw the start, and is an operation."""
        seen = [*call("bob", ["r", "x"], answer=None), *call("bob", ["d", "x"])]
        self.assert_one([*seen, *call("bob", ["w", "k", 1]), *call("bob", ["r", "k"], answer=None)], "WriteCOInitRead", 7, None, 5)
        found = Origins(self.log).operations([(0, index) for index in range(5)])
        self.assertEqual({index: operation.line for (_, index), operation in found.items()}, {0: 1, 1: 3, 2: 5, 3: 7})

    def test_nothing_is_left(self):
        """What the read can have seen was overwritten before: it is judged as having seen the delete."""
        events = [*call("alice", ["d", "x"]), *call("alice", ["w", "x", 1]), *call("alice", ["r", "x"], answer=None)]
        fault = self.assert_one(events, "WriteCORead", 5, 1, 3)
        said = '"alice" finds nothing at "x" (deleted by line 1), which missed line 3: "alice" writes 1 to "x"'
        self.assertEqual(str(fault), f"WriteCORead: line 5: {said}")

    def test_reads_that_are_left_out(self):
        """Alice's reads may have seen either delete, between reads of another key which do count."""
        deletes = [*call("bob", ["d", "x"]), *call("carol", ["d", "x"])]
        reads = [event for key in ("x", "y", "x", "x", "y") for event in call("alice", ["r", key], answer=None)]
        events = [*deletes, *call("alice", ["w", "x", 1]), *reads, *call("alice", ["w", "y", 1]), *call("alice", ["r", "y"], answer=None)]
        self.assert_one(events, "WriteCOInitRead", 19, None, 17)
        found = Origins(self.log).operations([(2, index) for index in range(9)])
        self.assertEqual([found[2, index].line for index in range(len(found))], [5, 9, 15, 17, 19])


@needs_program
class Calls(FolderCase):
    @needs_repository
    def test_origins(self):
        """Of random logs: the call of each operation is the one that a plain reading of docs/events.md gives it.

        Where the program does not find all that is forced, which it may where calls were lost, the plain reading does not say which of
        several reads in a row it found.
        """
        rng, forks, forked_deletes, left_out, nulls = random.Random(11), 0, 0, 0, 0
        for number in range(many(300, 3000)):
            self.log.write_text(deleting(rng, number) if number % 2 else text_of(log_of(rng)))
            found = plain_events.read_log(self.log.read_bytes())
            history = json.loads(run_program(find_program(), EVENTS, self.log, None))
            run = plain_events.run_shown(found.events, history, found.is_timed)
            if run.form() != history:
                continue
            due = {(s, i): one for s, session in enumerate(run.origins) for i, (_, one) in enumerate(session)}
            operations = Origins(self.log).operations({*due, (0, 10**6), (10**6, 0)})
            self.assertEqual(set(operations), set(due))
            is_whole = run.choice == run.forced().choice
            sure = [place for place, one in due.items() if is_whole or one.ending != "nothing"]
            self.assertEqual([operations[place].line for place in sure], [found.lines[due[place].place] for place in sure])
            for place, operation in operations.items():
                clients, keys, _ = plain_events.names_of(found)
                one = due[place]
                self.assertEqual((operation.client, operation.key, operation.word), (clients[one.client], keys[one.key], one.word))
            forks, left_out, nulls = forks + len(run.forks), left_out + len(run.left_out), nulls + len(run.choice)
            forked_deletes += sum(one.word == "d" for one in run.forks)
        self.assertGreater(min(forks, forked_deletes, left_out, nulls), 5)

    def test_notes(self):
        write, read = call("a", ["w", "k", 1], notes=({"server": "n1"}, [2])), call("a", ["r", "k"], answer=1, notes=(None, "n2"))
        write_log(self.log, [*write, *read])
        found = Origins(self.log).operations([(0, 0), (0, 1)])
        self.assertEqual([found[0, index].notes for index in (0, 1)], [({"server": "n1"}, [2]), ("n2",)])

    def test_same_value(self):
        """1 is not true: the lost write of 1 was not read."""
        for answer, places in ((True, [(1, 0)]), (1, [(0, 0), (1, 0), (2, 0), (2, 1)])):
            write_log(self.log, [*call("a", ["w", "k", 1], "lost"), *call("b", ["r", "k"], answer=answer)])
            found = Origins(self.log).operations([(session, index) for session in range(3) for index in range(2)])
            self.assertEqual(sorted(found), places)


class Answered(FolderCase):
    """Needs no program."""

    def test_answered_reads(self):
        self.assertEqual(answered_reads(write_log(self.log, RUN), 100), 6)
        for enough in (0, 1, 3):
            self.assertEqual(answered_reads(self.log, enough), enough)
        open_read = [*call("a", ["r", "k"], "lost"), *call("a", ["r", "k"], "fail"), *call("a", ["w", "k", 1]), ["begin", "a", ["r", "k"]]]
        self.assertEqual(answered_reads(write_log(self.log, open_read), 1), 0)
        self.log.write_bytes(b'["begin","a",["r","k"]]\n["end","a"')
        self.assertEqual(answered_reads(self.log, 1), 0)


def log_of(rng):
    """The events of a random log that is not refused."""
    while True:
        events = random_logs.events_of(rng)
        if not plain_events.read_log(text_of(events).encode()).refusal:
            return events


def text_of(events):
    """The text of a log."""
    return "".join(f"{json.dumps(event)}\n" for event in events)


def deleting(rng, number):
    """The text of a log with deletes, lost and failed calls: of a small run, of anything at all, or of a store, which may be faulty."""
    if number % 4 == 0:
        return deleting_stores.store_log(number, rng.choice(("", *deleting_stores.FAULTS)))[0]
    return deleting_stores.Anything(rng).text(rng.randint(10, 60)) if number % 2 else deleting_stores.tiny_log(rng)


def faulty(rng):
    """The events of a run of no store: reads return any value of their key, or nothing. Some calls are lost, fail, or delete."""
    values = {"x": [None], 7: [None]}
    for number in range(40):
        key, client, word = rng.choice(list(values)), rng.choice(("alice", "bob", 3)), rng.choice("rrrwwwwd")
        if word == "w":
            values[key].append(number)
        asked = [word, key, number] if word == "w" else [word, key]
        yield from call(client, asked, rng.choice(("end", "end", "end", "lost", "fail")), rng.choice(values[key]) if word == "r" else "ok")


def said_of(log):
    """The lines of `explain --all` that list a fault, each with the line of the log and the kind."""
    words = run_program(find_program(), [*EXPLAIN, "--all", "50"], log, None)
    return [(line, *found.groups()) for line in words.splitlines() if (found := SAID.fullmatch(line)) and found[2] in KINDS]


def others_in(text):
    """The lines of the source and of the missed write that a text names."""
    found = OTHERS.search(text)
    return tuple(int(line) if line else None for line in found.groups()) if found else (None, None)


def is_delete(operation):
    return operation is not None and operation.word == "d"


def others_of(fault):
    return tuple(other.line if other else None for other in (fault.source, fault.missed))


if __name__ == "__main__":
    unittest.main()
