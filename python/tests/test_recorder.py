"""Tests the recorder: opening a log, going on with one, and starts."""

import os
import unittest

from causal_judge import LogError, Recorder
from support import ORDER_LINE, FolderCase, events_of, run_python, write_log

OPENED = ["begin", "a", ["w", "k", "a.1"]]


def record(path, name="a", **how):
    """Records one write."""
    with Recorder(path, **how) as recorder:
        client = recorder.client(name)
        client.write("k", client.new_value(), lambda: None)


class Opening(FolderCase):
    def test_new_log(self):
        record(self.log)
        self.assertEqual(events_of(self.log), [OPENED, ["end", "a", "ok"]])
        self.assertEqual(self.log.read_bytes(), ORDER_LINE + b'["begin","a",["w","k","a.1"]]\n["end","a","ok"]\n')

    def test_path(self):
        with Recorder(str(self.log)) as recorder:
            self.assertEqual(recorder.path, self.log)

    def test_each_event_is_there_at_once(self):
        with Recorder(self.log) as recorder:
            client = recorder.client("a")
            self.assertEqual(client.write("k", "1", lambda: events_of(self.log)), [["begin", "a", ["w", "k", "1"]]])
            self.assertEqual(len(events_of(self.log)), 2)

    def test_second_recorder(self):
        with Recorder(self.log), self.assertRaisesRegex(BlockingIOError, "another recorder writes this log"):
            Recorder(self.log)
        record(self.log)

    def test_second_recorder_in_another_process(self):
        with Recorder(self.log):
            done = run_python("-c", f"from causal_judge import Recorder; Recorder({str(self.log)!r})")
        self.assertIn(b"BlockingIOError", done.stderr)

    def test_no_folder(self):
        with self.assertRaises(FileNotFoundError):
            Recorder(self.folder / "none" / "run.jsonl")

    def test_no_ordinary_file(self):
        os.mkfifo(self.folder / "pipe")
        with self.assertRaises(IsADirectoryError):
            Recorder(self.folder)
        for path in (self.folder / "pipe", "/dev/null"):
            with self.assertRaisesRegex(ValueError, "ordinary file"):
                Recorder(path)

    def test_bad_rule(self):
        for fails in (None, "x", 5, (ValueError, 5), int, [ValueError]):
            with self.subTest(fails=fails), self.assertRaisesRegex(TypeError, "fails is a class of exceptions"):
                Recorder(self.log, fails=fails)
        self.assertFalse(self.log.exists())

    def test_closed(self):
        recorder = Recorder(self.log)
        client = recorder.client("a")
        pending = recorder.client("b").begin_read("k")
        recorder.close()
        recorder.close()
        for action in (lambda: recorder.start("k", 1), lambda: client.begin_read("k"), lambda: pending.end(None), pending.lost):
            with self.assertRaisesRegex(RuntimeError, "is closed"):
                action()
        pending.end_by(OSError())
        self.assertEqual(events_of(self.log), [["begin", "b", ["r", "k"]]])

    def test_child_process(self):
        """A child can record nothing, and closes nothing; and while it lives, another recorder may open the log that its parent closed."""
        recorder = Recorder(self.log)
        client, pending = recorder.client("a"), recorder.client("b").begin_read("k")
        to_child, from_child = os.pipe(), os.pipe()
        child = os.fork()
        if not child:
            faults = [error_of(action) for action in (lambda: client.begin_read("k"), lambda: pending.end(None), recorder.close)]
            os.write(from_child[1], "\n".join(faults).encode())
            os.read(to_child[0], 1)
            os._exit(0)
        begun, ended, closed = os.read(from_child[0], 10_000).decode().split("\n")
        self.assertIn("give each process a recorder", begun)
        self.assertEqual((ended, closed), (begun, ""))
        client.read("k", lambda: None)
        recorder.close()
        record(self.log)
        os.write(to_child[1], b"x")
        os.waitpid(child, 0)
        self.assertEqual([event[0] for event in events_of(self.log)], ["begin", "begin", "end", "lost", "begin", "end"])
        for end in (*to_child, *from_child):
            os.close(end)


def error_of(action):
    """What an action raises, as a text."""
    try:
        action()
    except Exception as error:
        return str(error)
    return ""


class GoingOn(FolderCase):
    def test_pending_calls_are_lost(self):
        write_log(self.log, [OPENED, ["begin", 5, ["r", "k"]], ["begin", "b", ["d", "k"]], ["end", 5, None]])
        record(self.log)
        self.assertEqual(events_of(self.log)[4:], [["lost", "a"], ["lost", "b"], ["begin", "a", ["w", "k", "a.2"]], ["end", "a", "ok"]])

    def test_torn_end_at_each_byte(self):
        whole = b"".join(write_log(self.log, [["start", "k", "é"], OPENED]).read_bytes().splitlines(keepends=True))
        for cut in range(len(whole) + 1):
            self.log.write_bytes(whole[:cut])
            record(self.log, "b")
            events = events_of(self.log)
            self.assertEqual(events[-2:], [["begin", "b", ["w", "k", "b.1"]], ["end", "b", "ok"]])
            self.assertEqual(len(events), 2 + (cut >= whole.index(b"\n")) + 2 * (cut >= len(whole) - 1), cut)

    def test_blank_end(self):
        self.log.write_bytes(b'["start","k",1]\n \t')
        record(self.log)
        self.assertEqual(events_of(self.log)[1:], [OPENED, ["end", "a", "ok"]])

    def test_bad_line_changes_nothing(self):
        for last, what in ((b"{}\n", "is no event"), (b'["end","a","ok"]\n', "no call pending"), (b"x\n", "no JSON")):
            self.log.write_bytes(b'["start","k",1]\n' + last + b'["fa')
            before = self.log.read_bytes()
            for _ in range(2):
                with self.assertRaisesRegex(LogError, f"{self.log}, line 2: .*{what}"):
                    Recorder(self.log)
            self.assertEqual(self.log.read_bytes(), before)

    def test_new_values(self):
        values = ["a.7", "1.9", "'1.8", "a.x", "b.3.4", "a.099", "a.99999999999999999999", "", 5]
        calls = [(["begin", "z", ["w", "k", value]], ["fail", "z"]) for value in values]
        write_log(self.log, [["start", "k", "c.2"], *(event for call in calls for event in call)])
        with Recorder(self.log) as recorder:
            found = [recorder.client(name).new_value() for name in ("a", "a", 1, "1", "b.3", "b", "c", "z", "'1")]
        self.assertEqual(found, ["a.8", "a.9", "1.10", "'1.9", "b.3.5", "b.1", "c.3", "z.1", "''1.1"])

    def test_many_times(self):
        for _ in range(20):
            recorder = Recorder(self.log)
            client = recorder.client("a")
            client.begin_write("k", client.new_value())
            recorder.close()
        events = events_of(self.log)
        self.assertEqual(len({event[2][2] for event in events if event[0] == "begin"}), 20)
        self.assertEqual(sum(event[0] == "lost" for event in events), 19)


class OrderOfTime(FolderCase):
    """A log says by its first event that it is in the order of time: where a recorder began it, and only there."""

    def lines(self, before, **how):
        """The lines of a log that had these bytes before a write was recorded."""
        self.log.write_bytes(before)
        record(self.log, "b", **how)
        return self.log.read_bytes().splitlines(keepends=True)

    def test_log_without_events(self):
        """Also one of blank lines, or of the first bytes of that very line."""
        written = [b'["start","k",1]\n', b'["begin","b",["w","k","b.1"]]\n', b'["end","b","ok"]\n']
        for before, blanks in ((b"", []), (b"\n \n", [b"\n", b" \n"]), (b" \t", [b" \t\n"]), (b'\n["sta', [b"\n"])):
            self.assertEqual(self.lines(before, start={"k": 1}), [*blanks, ORDER_LINE, *written])
        for cut in range(len(ORDER_LINE) + 1):
            self.assertEqual(self.lines(ORDER_LINE[:cut], start={"k": 1}), [ORDER_LINE, *written])

    def test_log_of_nothing(self):
        for _ in range(2):
            Recorder(self.log).close()
            self.assertEqual(self.log.read_bytes(), ORDER_LINE)

    def test_log_that_goes_on(self):
        """It says what it said: nothing is added, whatever its first event is."""
        for first in (b'["start","k",1]\n', b'["begin","a",["r","k"]]\n', b'["begin","a",["r","k"]]', b'\n["begin","a",["r","k"]]\n["e'):
            self.assertEqual(self.lines(first).count(ORDER_LINE), 0)
        for first in (ORDER_LINE, b"\n" + ORDER_LINE, ORDER_LINE + b'["begin","a",["d","k"]]\n["los'):
            for _ in range(3):
                self.assertEqual(self.lines(first).count(ORDER_LINE), 1)
                first = self.log.read_bytes()

    def test_line_that_comes_too_late(self):
        for first in (b'["start","k",1]\n', b'["begin","a",["r","k"]]\n', ORDER_LINE):
            self.log.write_bytes(first + ORDER_LINE)
            with self.assertRaisesRegex(LogError, f"{self.log}, line 2: the order of time is said after an event, or twice"):
                Recorder(self.log)
            self.assertEqual(self.log.read_bytes(), first + ORDER_LINE)


class Starts(FolderCase):
    def test_start(self):
        with Recorder(self.log, start={"k": "v", 5: True}) as recorder:
            recorder.start("l", -1)
            recorder.start("k", "v")
        self.assertEqual(events_of(self.log), [["start", "k", "v"], ["start", 5, True], ["start", "l", -1]])

    def test_other_start(self):
        with Recorder(self.log, start={"k": 1}) as recorder:
            for value in (2, True, "1"):
                with self.assertRaisesRegex(ValueError, "starts with 1 already"):
                    recorder.start("k", value)

    def test_bad_start(self):
        with Recorder(self.log) as recorder:
            for key, value in (("k", None), ("k", 1.5), (None, 1), ("k", b"")):
                with self.assertRaises(TypeError):
                    recorder.start(key, value)
        with self.assertRaises(TypeError):
            Recorder(self.log, start={"k": None})
        record(self.log)

    def test_start_after_begin(self):
        record(self.log, start={"k": 1})
        with Recorder(self.log, start={"k": 1}) as recorder:
            with self.assertRaisesRegex(RuntimeError, "after a begin"):
                recorder.start("l", 1)
        with self.assertRaisesRegex(RuntimeError, "after a begin"):
            Recorder(self.log, start={"l": 1})
        self.assertEqual(len(events_of(self.log)), 3)

    def test_start_of_a_new_log(self):
        """It comes after the line that says the order of time."""
        Recorder(self.log, start={"k": 1}).close()
        self.assertEqual(self.log.read_bytes(), ORDER_LINE + b'["start","k",1]\n')


if __name__ == "__main__":
    unittest.main()
