"""Tests the plugin of pytest by real runs of pytest: what passes, what fails and how that reads, and which logs and pages are kept."""

import re
import textwrap
import unittest

from causal_judge import explain
from support import DEBIAN_PYTHON, FolderCase, needs_modules, needs_program, run_python

CALLS = """
import pytest

def good(recorder):
    with recorder.client("alice") as alice:
        alice.write("k", "v", lambda: None)
        assert alice.read("k", lambda: "v") == "v"

def lost_write(recorder):
    with recorder.client("alice") as alice:
        alice.write("k", "v", lambda: None)
        alice.read("k", lambda: None)

def unread(recorder):
    with recorder.client("alice") as alice:
        alice.write("k", "v", lambda: None)

def diverged(recorder):
    with recorder.client("alice") as alice, recorder.client("bob") as bob:
        alice.write("k", 1, lambda: None)
        bob.write("k", 2, lambda: None)
        alice.read("k", lambda: 2)
        bob.read("k", lambda: 1)
"""
OUTCOMES = re.compile(r"(\d+) (passed|failed|skipped|xfailed|errors?)")


@needs_modules("pytest", install="apt-get install python3-pytest")
class Plugin(FolderCase):
    def run_pytest(self, body, *words, ini="", **more):
        """What pytest says of tests: its outcomes, its text, and the logs that it kept, by name."""
        (self.folder / "test_store.py").write_text(CALLS + textwrap.dedent(body))
        (self.folder / "pytest.ini").write_text(f"[pytest]\n{ini}")
        options = ("-p", "causal_judge.pytest_plugin", "-p", "no:cacheprovider", "--basetemp", self.folder / "temporary", "-W", "error")
        done = run_python("-m", "pytest", *options, *words, python=DEBIAN_PYTHON, folder=self.folder, **more)
        text = done.stdout.decode() + done.stderr.decode()
        outcomes = {what.rstrip("s"): int(number) for number, what in OUTCOMES.findall(text.splitlines()[-1])}
        return outcomes, text, sorted(path.name for path in self.folder.glob("causal-logs/*.jsonl"))

    @needs_program
    def test_outcomes(self):
        """A test fails by its own fault, and by its log where it passed; and no log is judged where it did not."""
        outcomes, text, kept = self.run_pytest(
            """
            def test_good(causal_recorder):
                good(causal_recorder)

            def test_lost(causal_recorder):
                lost_write(causal_recorder)

            def test_own_fault(causal_recorder):
                lost_write(causal_recorder)
                assert 1 == 2

            def test_skipped(causal_recorder):
                lost_write(causal_recorder)
                pytest.skip("not here")

            @pytest.mark.xfail(strict=True)
            def test_expected(causal_recorder):
                lost_write(causal_recorder)

            def test_without():
                pass
            """
        )
        self.assertEqual(outcomes, {"passed": 2, "failed": 2, "skipped": 1, "xfailed": 1}, text)
        self.assertEqual(text.count('line 4 found nothing at "k", which line 2 had overwritten in its past.'), 1, text)
        self.assertIn("does not meet cc.", text)
        self.assertNotIn("During handling", text)
        self.assertEqual([name.rpartition("-")[0] for name in kept], ["test_store.py-test_lost", "test_store.py-test_own_fault"])
        for name in kept:
            log = self.folder / "causal-logs" / name
            self.assertIn(f"kept as {log}", text)
            self.assertEqual(log.read_bytes().count(b"\n"), 5)
            self.assertIn(f"The page {log.with_suffix('.html')} shows it.", text)
            self.assertEqual(log.with_suffix(".html").read_text(encoding="utf-8"), explain(log, "html"))
        self.assertEqual(len(list((self.folder / "causal-logs").iterdir())), 4)

    @needs_program
    def test_assertion_in_a_test(self):
        """An assert_met that fails keeps the log and its page, as a failure of the fixture does."""
        outcomes, text, kept = self.run_pytest(
            """
            from causal_judge import assert_met

            def test_lost(causal_recorder):
                lost_write(causal_recorder)
                assert_met(causal_recorder, "ccv")
            """
        )
        self.assertEqual((outcomes, len(kept)), ({"failed": 1}, 1), text)
        page = (self.folder / "causal-logs" / kept[0]).with_suffix(".html")
        self.assertIn("does not meet ccv.", text)
        self.assertIn(f"The page {page} shows it.", text)
        self.assertTrue(page.read_bytes().startswith(b"<!DOCTYPE html>"))

    @needs_program
    def test_reads(self):
        """By itself one read has to be answered; the ini file or a marker may ask for another number."""
        body = """
            def test_unread(causal_recorder):
                unread(causal_recorder)

            def test_nothing(causal_recorder):
                pass

            def test_good(causal_recorder):
                good(causal_recorder)

            @pytest.mark.causal(at_least_reads=0)
            def test_none_asked_for(causal_recorder):
                unread(causal_recorder)

            @pytest.mark.causal("cc", "ccv", at_least_reads=2)
            def test_two_asked_for(causal_recorder):
                good(causal_recorder)
        """
        outcomes, text, kept = self.run_pytest(body)
        self.assertEqual((outcomes, len(kept)), ({"passed": 2, "failed": 3}, 3), text)
        self.assertEqual(text.count("no read was answered, and at_least_reads is 1"), 2, text)
        self.assertIn("1 read was answered, and at_least_reads is 2", text)
        outcomes, text, _ = self.run_pytest(body, ini="causal_at_least_reads = 0\n")
        self.assertEqual(outcomes, {"passed": 4, "failed": 1}, text)

    @needs_program
    def test_reads_of_the_marker_alone(self):
        """A marker that names no criterion, and how many reads, has the criteria of the ini file."""
        body = """
            @pytest.mark.causal(at_least_reads=2)
            def test_diverged(causal_recorder):
                diverged(causal_recorder)
        """
        self.assertEqual(self.run_pytest(body)[0], {"passed": 1})
        self.assertEqual(self.run_pytest(body, ini="causal_criteria = ccv\n")[0], {"failed": 1})

    def test_wrong_reads(self):
        body = """
            @pytest.mark.causal("cc", {})
            def test_good(causal_recorder):
                good(causal_recorder)
        """
        for named, said in (
            ("at_least_reads=-1", "at_least_reads is a whole number from 0, not -1"),
            ("at_least_reads='2'", "at_least_reads is a whole number from 0, not '2'"),
            ("reads=2", "the marker causal takes criteria and at_least_reads, not reads"),
        ):
            outcomes, text, _ = self.run_pytest(body.format(named))
            self.assertEqual(outcomes, {"failed": 1}, text)
            self.assertIn(said, text)
        for number in ("-1", "1.5", "many", ""):
            _, text, _ = self.run_pytest(body.format(""), ini=f"causal_at_least_reads = {number}\n")
            self.assertIn(f"ERROR: causal_at_least_reads: it is a whole number from 0, not {number!r}", text)

    @needs_program
    def test_criteria(self):
        """Those of the marker, else those of the ini file, else cc."""
        body = """
            def test_default(causal_recorder):
                diverged(causal_recorder)

            @pytest.mark.causal("cc", "cm")
            def test_some(causal_recorder):
                diverged(causal_recorder)

            @pytest.mark.causal("ccv")
            def test_convergence(causal_recorder):
                diverged(causal_recorder)

            @pytest.mark.causal()
            @pytest.mark.parametrize("name", ["a/b", "a-b"])
            def test_all(causal_recorder, name):
                diverged(causal_recorder)
        """
        outcomes, text, kept = self.run_pytest(body, "--strict-markers")
        self.assertEqual(outcomes, {"passed": 2, "failed": 3}, text)
        self.assertEqual((text.count("does not meet ccv."), len(kept)), (3, 3), text)
        outcomes, text, _ = self.run_pytest(body, ini="causal_criteria = cm ccv\n")
        self.assertEqual(outcomes, {"passed": 1, "failed": 4}, text)

    @needs_program
    def test_teardown(self):
        """A teardown that fails keeps the log of a test that passed."""
        outcomes, text, kept = self.run_pytest(
            """
            @pytest.fixture
            def store():
                yield
                raise OSError("no end")

            def test_good(store, causal_recorder):
                good(causal_recorder)
            """
        )
        self.assertEqual((outcomes, len(kept)), ({"passed": 1, "error": 1}, 1), text)
        self.assertIn(f"kept as {self.folder / 'causal-logs' / kept[0]}", text)

    @needs_program
    def test_folder_for_logs(self):
        body = """
            def test_lost(causal_recorder):
                lost_write(causal_recorder)
        """
        _, text, kept = self.run_pytest(body, ini="causal_logs = out/logs\n")
        (log,) = (self.folder / "out" / "logs").glob("*.jsonl")
        self.assertEqual(kept, [])
        self.assertIn(f"kept as {log}", text)

    def test_unknown_criterion(self):
        body = """
            @pytest.mark.causal("cv")
            def test_good(causal_recorder):
                good(causal_recorder)
        """
        outcomes, text, _ = self.run_pytest(body)
        self.assertEqual(outcomes, {"failed": 1}, text)
        self.assertIn("there is no criterion 'cv': there are cc, cm and ccv", text)
        _, text, _ = self.run_pytest(body, ini="causal_criteria = strong\n")
        self.assertIn("ERROR: causal_criteria: there is no criterion 'strong'", text)

    def test_missing_program(self):
        """Then nothing passes, and the failure says how to get it."""
        body = """
            def test_good(causal_recorder):
                good(causal_recorder)
        """
        outcomes, text, kept = self.run_pytest(body, CAUSAL_JUDGE="/nowhere/judge")
        self.assertEqual((outcomes, len(kept)), ({"failed": 1}, 1), text)
        self.assertIn("was not judged: there is no program /nowhere/judge, which CAUSAL_JUDGE names. Install a package", text)
        self.assertIn(f"There is no page {(self.folder / 'causal-logs' / kept[0]).with_suffix('.html')} of it: there is no program", text)
        self.assertNotIn("Traceback", text)


if __name__ == "__main__":
    unittest.main()
