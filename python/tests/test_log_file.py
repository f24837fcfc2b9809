"""Tests what a recorder does where its log can't be written: a full disk, writes of few bytes, and interrupts."""

import errno
import os
import unittest
from unittest import mock

from causal_judge import Recorder, judge
from causal_judge.log_file import LogFile
from support import ORDER_LINE, FolderCase, events_of, needs_program, run_python
from test_recorder import OPENED, record

FILLS = """
import resource, sys
from causal_judge import Recorder

def fill(most):
    called = ended = 0
    resource.setrlimit(resource.RLIMIT_FSIZE, (most, resource.RLIM_INFINITY))
    with Recorder(f"{most}.jsonl") as recorder:
        client = recorder.client("a")
        for number in range(60):
            if number == 40:
                resource.setrlimit(resource.RLIMIT_FSIZE, (resource.RLIM_INFINITY,) * 2)
            def call():
                nonlocal called
                called += 1
            try:
                client.write("key", client.new_value(), call)
                ended += 1
            except OSError:
                pass
    print(most, called, ended)

for most in map(int, sys.argv[1:]):
    fill(most)
"""


class FullDisk(FolderCase):
    @needs_program
    def test_limited_file(self):
        """Whatever byte the room ends at, nothing torn is left, and the client goes on where there is room again."""
        limits = [len(ORDER_LINE), len(ORDER_LINE) + 1, *range(1000, 1060)]
        done = run_python("-c", FILLS, *limits, folder=self.folder)
        rows = [tuple(map(int, line.split())) for line in done.stdout.decode().splitlines()]
        self.assertEqual([row[0] for row in rows], limits, done.stderr)
        has_lost = 0
        for most, called, ended in rows:
            words = [event[0] for event in events_of(self.folder / f"{most}.jsonl")]
            self.assertEqual((words.count("begin"), words.count("end")), (called, ended), most)
            self.assertEqual(words.count("lost"), called - ended)
            self.assertTrue(20 <= ended < 50, most)
            has_lost += called - ended
        self.assertTrue(5 < has_lost < len(limits) - 5)
        self.assertTrue(judge(self.folder / f"{limits[-1]}.jsonl").meets())

    def test_first_line_that_is_not_written(self):
        """Opening a new log says so, and leaves it empty. Another recorder begins it."""
        full = OSError(errno.ENOSPC, "no room")
        for side_effect in (full, half_written(os.write)):
            with mock.patch("os.write", side_effect=side_effect), self.assertRaisesRegex(OSError, "no room"):
                Recorder(self.log, start={"k": 1})
            self.assertEqual(self.log.read_bytes(), b"")
        record(self.log, start={"k": 1})
        self.assertEqual(self.log.read_bytes().splitlines(keepends=True)[:2], [ORDER_LINE, b'["start","k",1]\n'])

    def test_begin_that_is_not_written(self):
        with Recorder(self.log) as recorder:
            client, called = recorder.client("a"), []
            with mock.patch("os.write", side_effect=OSError(errno.ENOSPC, "no room")), self.assertRaises(OSError):
                client.write("k", 1, lambda: called.append(1))
            self.assertEqual((called, events_of(self.log)), ([], []))
            client.write("k", 2, lambda: called.append(2))
        self.assertEqual((called, len(events_of(self.log))), ([2], 2))

    def test_end_that_is_not_written(self):
        """The rule for exceptions is not asked about those of the log."""
        with Recorder(self.log, fails=OSError) as recorder:
            client = recorder.client("a")
            call = client.begin_write("k", 1)
            with mock.patch("os.write", side_effect=OSError(errno.ENOSPC, "no room")), self.assertRaises(OSError):
                call.end()
            self.assertIsNone(call.outcome)
            with self.assertRaisesRegex(RuntimeError, "a call ends once"):
                call.end()
            client.read("k", lambda: 1)
        self.assertEqual([event[0] for event in events_of(self.log)], ["begin", "lost", "begin", "end"])

    def test_end_that_is_not_written_by_a_method(self):
        def fill():
            patch = mock.patch("os.write", side_effect=OSError(errno.ENOSPC, "no room"))
            patch.start()
            self.addCleanup(patch.stop)

        with Recorder(self.log, fails=OSError) as recorder:
            with self.assertRaisesRegex(OSError, "no room"):
                recorder.client("a").write("k", 1, fill)
            mock.patch.stopall()
        self.assertEqual(events_of(self.log), [["begin", "a", ["w", "k", 1]]])


class Pieces(FolderCase):
    def test_file_that_takes_few_bytes(self):
        write = os.write
        with mock.patch("os.write", side_effect=lambda file, data: write(file, data[:3])):
            record(self.log)
        self.assertEqual(events_of(self.log), [OPENED, ["end", "a", "ok"]])

    def test_torn_line_is_cut_at_once(self):
        write = os.write
        with Recorder(self.log) as recorder:
            client = recorder.client("a")
            with mock.patch("os.write", side_effect=half_written(write)), self.assertRaises(OSError):
                client.begin_read("k")
            self.assertEqual(self.log.read_bytes(), ORDER_LINE)

    def test_torn_line_is_cut_before_the_next(self):
        write = os.write
        with Recorder(self.log) as recorder:
            client = recorder.client("a")
            no_cut = mock.patch("os.ftruncate", side_effect=OSError(errno.EIO, "no cut"))
            with mock.patch("os.write", side_effect=half_written(write)), no_cut, self.assertRaisesRegex(OSError, "no room"):
                client.begin_read("k")
            self.assertEqual(self.log.read_bytes(), ORDER_LINE + b'["beg')
            with no_cut, self.assertRaisesRegex(OSError, "no cut"):
                client.begin_read("k")
            client.read("k", lambda: None)
        self.assertEqual([event[0] for event in events_of(self.log)], ["begin", "end"])

    def test_torn_line_is_cut_on_closing(self):
        file, write = LogFile(self.log), os.write
        no_cut = mock.patch("os.ftruncate", side_effect=OSError(errno.EIO, "no cut"))
        with mock.patch("os.write", side_effect=half_written(write)), no_cut, self.assertRaises(OSError):
            file.append(b'["begin"]')
        file.close()
        self.assertEqual(self.log.read_bytes(), b"")

    def test_interrupt_in_a_write(self):
        """A signal's exception right after the line was written: the line is cut, as if it had come before."""
        write = os.write

        def interrupted(file, data):
            write(file, data)
            raise KeyboardInterrupt

        with Recorder(self.log) as recorder:
            client = recorder.client("a")
            with mock.patch("os.write", side_effect=interrupted), self.assertRaises(KeyboardInterrupt):
                client.begin_read("k")
            client.read("k", lambda: None)
        self.assertEqual([event[0] for event in events_of(self.log)], ["begin", "end"])


def half_written(write):
    """A write of five bytes, after which there is no room."""
    calls = []

    def written(file, data):
        calls.append(data)
        if len(calls) > 1:
            raise OSError(errno.ENOSPC, "no room")
        return write(file, data[:5])

    return written


if __name__ == "__main__":
    unittest.main()
