"""Tests the joining of logs, as a function and as a command."""

import io
import json
import subprocess
import sys
import unittest

from causal_judge import LogError, Recorder, judge, merge
from causal_judge.events import ORDER
from support import ORDER_LINE, FolderCase, environment, events_of, needs_program, run_python, verdicts_of, write_log

WRITE, READ = ["begin", "a", ["w", "k", 1]], ["begin", "b", ["r", "k"]]


class Merging(FolderCase):
    def merged(self, *logs):
        """The events of logs that are joined, and the counts. Each is a list of events, or bytes."""
        paths = [self.folder / f"{number}.jsonl" for number in range(len(logs))]
        for path, log in zip(paths, logs):
            path.write_bytes(log) if isinstance(log, bytes) else write_log(path, log)
        with self.log.open("wb") as out:
            counts = merge(paths, out)
        return events_of(self.log), counts

    def test_starts_come_first(self):
        writes, reads = [WRITE, ["end", "a", "ok"]], [READ, ["end", "b", 1]]
        events, counts = self.merged([["start", "k", 0], *writes], [["start", "l", True], ["start", "k", 0], *reads])
        self.assertEqual(events, [["start", "k", 0], ["start", "l", True], *writes, *reads])
        self.assertEqual((counts.files, counts.clients, counts.starts, counts.events, counts.lost, counts.torn), (2, 2, 2, 4, 0, 0))

    def test_pending_calls_and_torn_ends(self):
        torn = b"".join(json.dumps(event).encode() + b"\n" for event in (READ, ["end", "b", 1], ["begin", "c", ["d", "k"]]))
        events, counts = self.merged([WRITE], torn + b'["end","c', b'["begin","d",["r","k"]]', b'["st', b"")
        pending = [["begin", "c", ["d", "k"]], ["lost", "c"], ["begin", "d", ["r", "k"]], ["lost", "d"]]
        self.assertEqual(events, [WRITE, ["lost", "a"], READ, ["end", "b", 1], *pending])
        self.assertEqual((counts.lost, counts.torn), (3, 2))
        self.assertEqual(
            str(counts), "files 5, clients 4, starts 0, other events 5, pending calls recorded as lost 3, torn ends dropped 2"
        )

    def test_lines_are_copied_as_they_are(self):
        first = b'\n["start","\\u006b",0]\n\n["begin", "a" ,["w","k",1]]\r\n \n["end","a","ok"]'
        self.merged(first, [["start", "k", 0]])
        self.assertEqual(self.log.read_bytes(), b'["start","k",0]\n["begin", "a" ,["w","k",1]]\r\n \n["end","a","ok"]\n')

    def test_the_order_of_time_is_left_out(self):
        """Each file is in the order of time, and the joined one is not. It is no event that is counted."""
        writes, reads = [["start", "k", 0], WRITE, ["end", "a", "ok"]], [READ, ["end", "b", 1]]
        for one, other in (([ORDER, *writes], [ORDER, *reads]), (writes, [ORDER, *reads]), ([ORDER, *writes], reads)):
            events, counts = self.merged(one, other)
            self.assertEqual(events, [*writes, *reads])
            self.assertNotIn(ORDER_LINE, self.log.read_bytes())
            self.assertEqual((counts.starts, counts.events), (1, 4))
        self.merged([ORDER], b"\n" + ORDER_LINE, [ORDER])
        self.assertEqual(self.log.read_bytes(), b"")

    def test_one_file_keeps_its_order_of_time(self):
        torn = b'\n["order", "time"]\r\n["start","k",0]\n\n["begin","a",["w","k",1]]\n["end","a'
        _, counts = self.merged(torn)
        self.assertEqual(self.log.read_bytes(), ORDER_LINE + b'["start","k",0]\n["begin","a",["w","k",1]]\n["lost","a"]\n')
        self.assertEqual((counts.starts, counts.events, counts.lost, counts.torn), (1, 1, 1, 1))
        self.merged([WRITE])
        self.assertNotIn(ORDER_LINE, self.log.read_bytes())

    @needs_program
    def test_what_a_store_deleted_before(self):
        """A read that found nothing comes first in the joined log, and what it saw began last: that blames nobody."""
        paths = [self.folder / f"{name}.jsonl" for name in "rw"]
        with Recorder(paths[0]) as reads, Recorder(paths[1]) as writes:
            bob, alice = reads.client("bob"), writes.client("alice")
            alice.write("k", 1, lambda: None)
            bob.read("k", lambda: 1)
            alice.delete("k", lambda: None)
            bob.read("k", lambda: None)
        with self.log.open("wb") as out:
            merge(paths, out)
        self.assertTrue(judge(self.log).meets())

    def test_client_in_two_files(self):
        """Also where these are one file, named twice. Nothing is written then."""
        one, two = (write_log(self.folder / name, [WRITE, ["end", "a", "ok"]]) for name in ("one", "two"))
        for other in (two, one):
            out = io.BytesIO()
            with self.assertRaisesRegex(ValueError, f"'a' is in {one} and in {other}"):
                merge([one, other], out)
            self.assertEqual(out.getvalue(), b"")

    def test_names_that_are_alike(self):
        """The client 1 is not the client "1"."""
        events, counts = self.merged([["begin", 1, ["r", "k"]]], [["begin", "1", ["r", "k"]]])
        self.assertEqual((len(events), counts.clients), (4, 2))

    def test_two_starts(self):
        for value in (1, True, "0", False):
            with self.assertRaisesRegex(ValueError, "'k' starts with 0 in an earlier file"):
                self.merged([["start", "k", 0]], [["start", "k", value]])
            self.assertEqual(self.log.read_bytes(), b"")

    def test_bad_lines(self):
        for log, what in (
            ([["end", "a", "ok"]], "line 1: .*no call pending"),
            ([WRITE, ["start", "k", 0]], "line 2: .*after a begin"),
            ([["start", "k", 0], ["start", "k", 0]], "line 2: .*has a start already"),
            (b"{}\n", "line 1: .*is no event"),
            (ORDER_LINE * 2, "line 2: the order of time is said after an event, or twice"),
            ([["start", "k", 0], ORDER], "line 2: the order of time is said after an event, or twice"),
        ):
            with self.assertRaisesRegex(LogError, f"1.jsonl, {what}"):
                self.merged([READ], log)

    def test_no_file(self):
        with self.assertRaises(FileNotFoundError):
            merge([self.folder / "none"], io.BytesIO())
        counts = merge([], io.BytesIO())
        self.assertEqual((counts.files, counts.events), (0, 0))

    @needs_program
    def test_long_logs(self):
        """Logs of more than a piece are copied whole, and the program takes what is joined."""
        logs = [[["begin", name, ["w", "k", name]]] for name in "ab"]
        for name, log in zip("ab", logs):
            for number in range(800):
                log += [["end", name, "ok"], ["begin", name, ["w", name, f"{number}{'x' * 2000}"]]]
        events, counts = self.merged(*logs)
        self.assertEqual(events, [*logs[0], ["lost", "a"], *logs[1], ["lost", "b"]])
        self.assertTrue(verdicts_of([self.log])[0].meets())


class Command(FolderCase):
    def test_merge(self):
        logs = [ORDER, WRITE], [ORDER, ["start", "k", "é"], READ, ["end", "b", 1]]
        paths = [write_log(self.folder / name, log) for name, log in zip(("one", "two"), logs)]
        done = run_python("-m", "causal_judge", "merge", *paths)
        self.assertEqual(done.returncode, 0)
        self.assertEqual(done.stdout.decode().splitlines()[0], '["start","k","é"]')
        counts = "files 2, clients 2, starts 1, other events 3, pending calls recorded as lost 1, torn ends dropped 0\n"
        self.assertEqual(done.stderr.decode(), counts)

    def test_refusals(self):
        one = write_log(self.folder / "one", [["end", "a", "ok"]])
        for words, status, said in (
            (("merge", one), 1, b"line 1: the client 'a' has no call pending"),
            (("merge", self.folder / "none"), 1, b"No such file"),
            (("merge",), 2, b"FILE"),
            (("import", "none"), 1, b"there is no format none: there are "),
            ((), 2, b"COMMAND"),
        ):
            done = run_python("-m", "causal_judge", *words)
            self.assertEqual((done.returncode, done.stdout), (status, b""), done.stderr)
            self.assertIn(said, done.stderr)

    def test_reader_that_stops(self):
        """Where nobody reads on, the command ends with status 1, and says nothing."""
        path = write_log(self.folder / "one", [event for _ in range(20_000) for event in (READ, ["end", "b", None])])
        for unbuffered in ("", "1"):
            words = [sys.executable, "-m", "causal_judge", "merge", str(path)]
            how = {"env": environment(PYTHONUNBUFFERED=unbuffered), "stdout": subprocess.PIPE, "stderr": subprocess.PIPE}
            with subprocess.Popen(words, **how) as process:
                self.assertEqual(process.stdout.readline(), b'["begin", "b", ["r", "k"]]\n')
                process.stdout.close()
                self.assertEqual((process.stderr.read(), process.wait()), (b"", 1))


if __name__ == "__main__":
    unittest.main()
