"""Tests the form of an event: its text, what is refused, and how a log is read."""

import io
import itertools
import json
import random
import sys
import unittest

from causal_judge.events import ORDER, LogError, LogReader, Progress, check_event, check_name, check_value, is_same, line_of, read_log
from support import NAMES, NO_NAMES, NO_VALUES, REPOSITORY, VALUES, many

PLAIN = REPOSITORY / "tests" / "plain"


class Forms(unittest.TestCase):
    def test_names_and_values(self):
        for name in NAMES:
            check_name(name)
        for value in VALUES:
            check_value(value)

    def test_no_names(self):
        for name in NO_NAMES:
            with self.subTest(name=repr(name)), self.assertRaises((TypeError, ValueError)) as raised:
                check_name(name)
            self.assertIn("as a text" if not isinstance(name, str) else "surrogate", str(raised.exception))

    def test_no_values(self):
        for value in NO_VALUES:
            with self.subTest(value=repr(value)), self.assertRaises((TypeError, ValueError)):
                check_value(value)
        with self.assertRaisesRegex(TypeError, "write 1.5 as a text"):
            check_value(1.5)
        with self.assertRaisesRegex(TypeError, "decode"):
            check_value(b"a")

    def test_sameness(self):
        self.assertTrue(is_same("1", "1") and is_same(1, 1) and is_same(True, True))
        self.assertFalse(is_same("1", 1) or is_same(1, True) or is_same(False, 0))

    def test_events(self):
        for key, value in zip(NAMES, VALUES):
            for event in (["start", key, value], ["begin", key, ["w", key, value]], ["end", key, value], ["fail", key], ["lost", key]):
                check_event(event)
            check_event(["begin", key, ["r", key]])
            check_event(["begin", key, ["d", key]])
        check_event(["end", "a", None])

    def test_order_of_time(self):
        check_event(["order", "time"])
        for wrong in (["order"], ["order", "Time"], ["order", "lines"], ["order", None], ["order", "time", None], ["order", ["time"]]):
            with self.subTest(event=wrong), self.assertRaisesRegex(ValueError, "is no event"):
                check_event(wrong)

    def test_notes(self):
        """What begins and ends a call may have one element more, whatever it is. Calls have none more."""
        for note in (None, 0, "n1", 1.5, [], {"server": "n1", "at": [17.25]}, "ok"):
            begins = ["begin", "a", ["w", "k", 1]], ["begin", "a", ["r", "k"]], ["begin", "a", ["d", "k"]]
            for event in (*begins, ["end", "a", 1], ["fail", "a"]):
                check_event([*event, note])
                for wrong in ([*event, note, note], ["begin", "a", ["r", "k", note]], ["start", "k", 1, note]):
                    with self.subTest(event=wrong), self.assertRaises((TypeError, ValueError)):
                        check_event(wrong)
            check_event(["lost", "a", note])

    def test_no_events(self):
        lists = ([], ["start", "k"], ["start", "k", None], ["begin", "a"], ["begin", "a", ["w", "k"]], ["begin", "a", ["r", "k", 1]])
        more = (["begin", "a", ["x", "k"]], ["end", "a"], ["end", "a", 1.5], ["end", "a", []], ["fail", "a", 1, 2], ["lost"], ["stop", "a"])
        names = (["begin", True, ["r", "k"]], ["end", 1.0, "ok"], ["fail", None], ["lost", -1], ["begin", "a", ["d", None]])
        for event in (*lists, *more, *names, ["start", 1.5, 1], "begin", None, 5, {"begin": "a"}):
            with self.subTest(event=event), self.assertRaises((TypeError, ValueError)):
                check_event(event)


class Lines(unittest.TestCase):
    def test_line(self):
        self.assertEqual(line_of(["begin", "a", ["w", "k", True]]), b'["begin","a",["w","k",true]]\n')
        self.assertEqual(line_of(["end", "é", None]), '["end","é",null]\n'.encode())

    def test_line_gives_event_back(self):
        for name, value in itertools.product(NAMES, VALUES):
            event = ["begin", name, ["w", name, value]]
            line = line_of(event)
            self.assertEqual((line.count(b"\n"), line[-1:]), (1, b"\n"))
            (number, found), *rest = read_log(io.BytesIO(line))
            self.assertEqual((number, found, rest), (1, event, []))
            self.assertIs(type(found[2][2]), type(value))

    def test_longest_line(self):
        room = 1_000_000 - len('["lost",""]')
        self.assertEqual(len(line_of(["lost", "x" * room])), 1_000_001)
        with self.assertRaisesRegex(ValueError, "at most 1,000,000 bytes, not 1,000,001"):
            line_of(["lost", "x" * (room + 1)])

    def test_surrogate(self):
        with self.assertRaisesRegex(ValueError, "surrogate"):
            line_of(["lost", "\ud800"])


def read(data):
    """The events of a log, and the reader."""
    reader = LogReader(io.BytesIO(data))
    return list(reader), reader


class Reading(unittest.TestCase):
    def test_blank_lines(self):
        found, reader = read(b'\n \t\r\n["lost","a"]\r\n\n["fail","b"]\n  ')
        self.assertEqual(found, [(3, ["lost", "a"]), (5, ["fail", "b"])])
        self.assertEqual((reader.is_torn, reader.lacks_feed), (False, True))

    def test_empty(self):
        found, reader = read(b"")
        self.assertEqual((found, reader.size, reader.is_torn, reader.lacks_feed), ([], 0, False, False))

    def test_torn_end_at_each_byte(self):
        first, last = b'["lost","a"]\n', '["begin","é",["w","k","\\n"]]\n'.encode()
        for cut in range(len(last) + 1):
            found, reader = read(first + last[:cut])
            is_torn = 0 < cut < len(last) - 1
            self.assertEqual((reader.is_torn, len(found)), (is_torn, 2 if cut >= len(last) - 1 else 1), cut)
            self.assertEqual(reader.size, len(first) + (0 if is_torn else cut))
            self.assertEqual(reader.lacks_feed, cut == len(last) - 1)

    def test_bad_lines(self):
        good = b'["lost","a"]\n'
        no_json = (b"x\n", b"[\n", b"[" * 5000 + b"\n", b'["lost","a"] ["lost","a"]\n', b'["lost",NaN]\n', b"\xff\n", b'["lost","\x01"]\n')
        no_events = (b"{}\n", b"1\n", b'["lost"]\n', b"[1]", b'["end","a",-0]\n', b'["end","a",1.0]\n', b'["end","a",1e3]\n')
        texts = (b'["lost","\\ud800"]\n', b'["lost",18446744073709551616]\n', b'["end","a",' + b"9" * 5000 + b"]\n")
        for line in (*no_json, *no_events, *texts):
            with self.subTest(line=line[:40]), self.assertRaises(LogError) as raised:
                read(good + line)
            self.assertEqual(raised.exception.line, 2)
            self.assertIn("line 2: ", str(raised.exception))

    def test_line_that_is_too_long(self):
        for line in (b'["lost","' + b"x" * 1_000_000 + b'"]\n', b" " * 1_000_001, b"x" * 1_000_001):
            with self.assertRaisesRegex(LogError, "line 1: has more than 1,000,000 bytes"):
                read(line)

    @unittest.skipUnless(PLAIN.is_dir(), "skipped: the repository's tests are not beside the package")
    def test_mangled_logs(self):
        """The reader and Progress take the logs that the plain reader of the repository takes, and refuse the same line of the others."""
        sys.path.insert(0, str(PLAIN))
        self.addCleanup(sys.path.remove, str(PLAIN))
        import plain_events

        rng, refused = random.Random(52), 0
        for _ in range(many(3_000, 100_000)):
            data = mangled_log(rng)
            due = plain_events.read_log(data)
            line, events, is_torn = outcome_of(data)
            self.assertEqual((line, is_torn), (due.refusal[1] if due.refusal else None, due.is_torn), data)
            self.assertEqual(events, len(due.events), data)
            refused += line is not None
        self.assertGreater(refused, 100)


class WhatIsPending(unittest.TestCase):
    def test_faults(self):
        cases = (
            ([], ["end", "a", "ok"], "no call pending"),
            ([], ["fail", "a"], "no call pending"),
            ([["begin", "a", ["r", "k"]]], ["begin", "a", ["r", "k"]], "has a call pending"),
            ([["begin", "a", ["w", "k", 1]]], ["end", "a", 1], 'ends with "ok"'),
            ([["begin", "a", ["d", "k"]]], ["end", "a", None], 'ends with "ok"'),
            ([["begin", "a", ["r", "k"]]], ["start", "k", 1], "after a begin"),
            ([["start", "k", 1]], ["start", "k", 1], "has a start already"),
            ([["begin", 1, ["r", "k"]]], ["end", "1", None], "no call pending"),
            ([ORDER], ORDER, "said after an event, or twice"),
            ([["start", "k", 1]], ORDER, "said after an event, or twice"),
            ([["begin", "a", ["r", "k"]]], ORDER, "said after an event, or twice"),
            ([["begin", "a", ["r", "k"]], ["end", "a", None]], ORDER, "said after an event, or twice"),
        )
        for events, event, due in cases:
            progress = Progress()
            for one in events:
                self.assertEqual(progress.fault_of(one), "")
                progress.take(one)
            self.assertIn(due, progress.fault_of(event))

    def test_order_of_time(self):
        for first in ([], [ORDER]):
            progress = Progress()
            self.assertTrue(progress.is_empty)
            for event in (*first, ["start", "k", 1], ["begin", "a", ["r", "k"]]):
                self.assertEqual(progress.fault_of(event), "")
                progress.take(event)
                self.assertFalse(progress.is_empty)
            self.assertEqual(progress.is_timed, bool(first))

    def test_taken(self):
        progress = Progress()
        begins = ["begin", "a", ["r", "k"]], ["begin", "b", ["w", "k", 2]]
        for event in (["start", "k", 1], *begins, ["end", "a", None], ["begin", "a", ["d", "k"]]):
            progress.take(event)
        self.assertEqual((progress.pending, progress.started, progress.has_begun), ({"b": "w", "a": "d"}, {"k": 1}, True))


def outcome_of(data):
    """The line at fault, if any, how many events came before it but for that of the order of time, and whether the last line is torn."""
    reader, progress, events = LogReader(io.BytesIO(data)), Progress(), 0
    try:
        for number, event in reader:
            if progress.fault_of(event):
                return number, events, False
            progress.take(event)
            events += event != ORDER
    except LogError as error:
        return error.line, events, False
    return None, events, reader.is_torn


FORMS = (
    *(["begin", "a", ["w", "k", 1]], ["end", "a", "ok"], ["lost", "a"]),
    *(["begin", 2, ["r", "k"]], ["end", 2, None], ["fail", 2], ["start", "k", True]),
)
PUT_IN = (b"", b"\n", b'"', b"]", b"[", b"-0", b"1.5", b"1e400", b"\xc3", b" ", b"\\u00e9", b"null", b"\\ud800")


def mangled_log(rng):
    """A short log of two clients, most of them with some bytes changed, left out or added. Some say the order of time, here or there."""
    events = [rng.choice(FORMS) for _ in range(rng.randint(0, 6))]
    if rng.random() < 0.3:
        events.insert(rng.choice((0, 0, 0, rng.randint(0, len(events)))), ORDER)
    data = bytearray(b"".join(json.dumps(event).encode() + b"\n" for event in events))
    for _ in range(rng.choice((0, 0, 1, 1, 2))):
        at = rng.randint(0, len(data))
        data[at : at + rng.randint(0, 2)] = rng.choice(PUT_IN)
    return bytes(data[: rng.randint(0, len(data))] if rng.random() < 0.3 else data)


if __name__ == "__main__":
    unittest.main()
