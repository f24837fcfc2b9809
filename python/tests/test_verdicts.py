"""Tests what is said of logs: verdicts, assertions and explanations, and how the program is found and what it may do wrong."""

import json
import os
import pathlib
import stat
import unittest
from unittest import mock

from causal_judge import Line, ProgramMissing, Recorder, Refused, Verdict, assert_met, explain, judge, program
from causal_judge.verdicts import save_page
from support import FolderCase, needs_program, write_log

WRITE, DONE = ["begin", "alice", ["w", "user:5/name", "v1"]], ["end", "alice", "ok"]
GOOD = [WRITE, DONE, ["begin", "bob", ["r", "user:5/name"]], ["end", "bob", "v1"]]
LOST_WRITE = [WRITE, DONE, ["begin", "alice", ["r", "user:5/name"]], ["end", "alice", None]]
DIVERGED = [
    *(["begin", "a", ["w", "k", "1"]], ["end", "a", "ok"], ["begin", "b", ["w", "k", "2"]], ["end", "b", "ok"]),
    *(["begin", "a", ["r", "k"]], ["end", "a", "2"], ["begin", "b", ["r", "k"]], ["end", "b", "1"]),
]
REPEATED = [
    *(event for value in (1, 1, 2) for event in (["begin", "a", ["w", "k", value]], ["end", "a", "ok"])),
    *(event for value in (2, 1) for event in (["begin", "b", ["r", "k"]], ["end", "b", value])),
]


@needs_program
class Judged(FolderCase):
    def test_yes(self):
        verdict = judge(write_log(self.log, GOOD))
        self.assertEqual(verdict.lines, (Line("cc", "yes"), Line("cm", "yes"), Line("ccv", "yes")))
        self.assertEqual((str(verdict), verdict.cc, verdict.log), ("cc yes\ncm yes\nccv yes", Line("cc", "yes"), self.log))
        self.assertTrue(verdict.meets() and verdict.meets("cc") and verdict.meets("cm", "ccv"))
        self.assertEqual(set(verdict.reasons), {"cc", "cm", "ccv"})
        self.assertIn("2 operations of 2 clients", verdict.reasons["cc"])

    def test_no(self):
        verdict = judge(str(write_log(self.log, DIVERGED)))
        self.assertEqual(str(verdict), "cc yes\ncm yes\nccv no CyclicCF")
        self.assertEqual(verdict.ccv, Line("ccv", "no", "CyclicCF"))
        self.assertTrue(verdict.meets("cc", "cm"))
        self.assertFalse(verdict.meets() or verdict.meets("ccv", "cc"))
        self.assertEqual(verdict.unmet("cc", "ccv"), (verdict.ccv,))
        self.assertIn('line 1: "a" writes "1" to "k"', verdict.reasons["ccv"].splitlines())

    def test_unknown(self):
        verdict = judge(write_log(self.log, REPEATED))
        self.assertEqual([line.answer for line in verdict.lines], ["unknown"] * 3)
        self.assertFalse(any(verdict.meets(line.criterion) for line in verdict.lines))
        self.assertIn('line 1 and line 3 both write 1 to "k"', verdict.reasons["cc"])

    def test_explanation(self):
        """It is asked for once, and its parts are those of the criteria."""
        verdict = judge(write_log(self.log, LOST_WRITE))
        with mock.patch("causal_judge.verdicts.run_program", wraps=program.run_program) as run:
            texts = verdict.explanation, verdict.explanation, verdict.reasons["cc"]
            self.assertEqual(run.call_count, 1)
        self.assertEqual(texts[0], explain(self.log))
        self.assertTrue(texts[0].startswith("cc no WriteCOInitRead\n  line 1: "))
        self.assertIn('line 3 found nothing at "user:5/name", which line 1 had overwritten in its past.', texts[2].splitlines())
        self.assertIn("cm no WriteCOInitRead\n  as for cc\n", texts[0])
        self.assertEqual(verdict.reasons["cm"], texts[2])

    def test_forms(self):
        """Each form is a text of the program."""
        write_log(self.log, LOST_WRITE)
        self.assertEqual(explain(self.log, "words"), explain(self.log))
        found = json.loads(explain(self.log, form="json"))
        self.assertEqual(found[0], ["cc", "no", ["WriteCOInitRead", [[0, 0], [0, 1]]], "read your writes"])
        self.assertTrue(explain(self.log, "svg").startswith("<svg"))
        self.assertTrue(explain(self.log, "html").startswith("<!DOCTYPE html>"))
        for form in ("pdf", "", None):
            with self.assertRaisesRegex(ValueError, "there are words, json, svg, html"):
                explain(self.log, form)

    def test_recorder(self):
        """A recorder that is open is judged as far as it got."""
        with Recorder(self.log) as recorder:
            recorder.client("a").write("k", "v", lambda: None)
            pending = recorder.client("b").begin_read("k")
            self.assertTrue(judge(recorder).meets())
            with self.assertRaisesRegex(AssertionError, "no read was answered"):
                assert_met(recorder)
            pending.end(None)
            self.assertTrue(assert_met(recorder).meets())
            recorder.client("b").read("k", lambda: "v")
            recorder.client("b").read("k", lambda: None)
            self.assertEqual(judge(recorder).cc, Line("cc", "no", "WriteCOInitRead"))
            self.assertIn("cc no", explain(recorder))

    def test_empty_and_torn(self):
        self.log.write_bytes(b"")
        self.assertTrue(judge(self.log).meets())
        self.log.write_bytes(b'["begin","a",["w","k')
        self.assertTrue(judge(self.log).meets())

    def test_refused(self):
        write_log(self.log, [*GOOD, DONE])
        for action in (judge, explain, assert_met):
            with self.assertRaisesRegex(Refused, f"{self.log}: refused 30 5\n.*pending"):
                action(self.log)

    def test_no_log(self):
        with self.assertRaises(FileNotFoundError):
            judge(self.log)

    def test_names_of_all_kinds(self):
        """Quotes, line feeds, pictures, long texts and numbers at the edges: the program takes what a recorder writes."""
        texts = ['"', "'", "\\", "\n\r\t\x00\x1b[31m", "\u2028\u2029\u0085\u202e", "\U0001f600\U0010ffff\ufeff", "é" * 1024, "", " "]
        with Recorder(self.log, start={text: text for text in texts} | {2**64 - 1: 2**64 - 1, 0: -(2**63)}) as recorder:
            for name in (*texts, 0, 1, "1", 2**64 - 1):
                client = recorder.client(name)
                client.write(name, client.new_value(), lambda: None)
            for key, value in ((0, True), (1, 2**64 - 2), ("1", 1 - 2**63), ("2", "x" * 999_900)):
                client.write(key, value, lambda: None)
                client.read(key, lambda value=value: value)
        self.assertTrue(assert_met(self.log).meets())
        self.assertEqual(judge(self.log).explanation.count("\n"), 6)


@needs_program
class Asserted(FolderCase):
    def test_met(self):
        self.assertIsInstance(assert_met(write_log(self.log, GOOD)), Verdict)
        verdict = assert_met(write_log(self.log, DIVERGED), "cc", "cm")
        self.assertEqual(verdict.ccv.answer, "no")

    def test_unmet(self):
        """The assertion shows what explain says, and names the log and what it does not meet."""
        write_log(self.log, DIVERGED)
        for criteria, due in (((), "ccv"), (("ccv",), "ccv"), (("ccv", "cc"), "ccv")):
            with self.assertRaises(AssertionError) as raised:
                assert_met(self.log, *criteria)
            self.assertEqual(str(raised.exception), f"{explain(self.log)}{self.log} does not meet {due}.")

    def test_unknown_is_not_met(self):
        write_log(self.log, REPEATED)
        with self.assertRaisesRegex(AssertionError, "[.]jsonl is not known to meet cc, cm, ccv[.]"):
            assert_met(self.log)

    def test_too_few_reads(self):
        """A run that reads nothing meets all criteria, and the assertion says how many reads were answered."""
        for events, least, said in (
            ([], 1, "no read was answered, and at_least_reads is 1:"),
            ([WRITE, DONE], 1, "no read was answered, and at_least_reads is 1:"),
            ([WRITE, DONE, ["begin", "bob", ["r", "k"]]], 1, "no read was answered, and at_least_reads is 1:"),
            (GOOD, 2, "1 read was answered, and at_least_reads is 2:"),
            (GOOD + GOOD[2:], 3, "2 reads were answered, and at_least_reads is 3:"),
        ):
            write_log(self.log, events)
            with self.assertRaises(AssertionError) as raised:
                assert_met(self.log, at_least_reads=least)
            self.assertIn(f"cc yes\ncm yes\nccv yes\n{self.log}: {said}", str(raised.exception))
            self.assertTrue(assert_met(self.log, at_least_reads=least - 1).meets())
        write_log(self.log, LOST_WRITE)
        with self.assertRaisesRegex(AssertionError, "does not meet cc, cm, ccv[.]$"):
            assert_met(self.log, at_least_reads=5)

    def test_no_number_of_reads(self):
        write_log(self.log, GOOD)
        for count in (-1, 1.0, "1", None, True):
            with self.subTest(count=count), self.assertRaisesRegex(ValueError, "at_least_reads is a whole number from 0"):
                assert_met(self.log, at_least_reads=count)

    def test_page(self):
        """It is written where a criterion is not met, or too little was read, and named in the message."""
        page = self.folder / "out" / "run.html"
        write_log(self.log, GOOD)
        assert_met(self.log, page=page)
        self.assertFalse(page.exists())
        for events in (LOST_WRITE, REPEATED, [WRITE, DONE]):
            write_log(self.log, events)
            with self.assertRaises(AssertionError) as raised:
                assert_met(self.log, page=str(page))
            self.assertTrue(str(raised.exception).endswith(f"\nThe page {page} shows it."))
            self.assertEqual(page.read_text(encoding="utf-8"), explain(self.log, "html"))
        self.assertEqual(list(page.parent.iterdir()), [page])

    def test_page_that_can_not_be_written(self):
        """Then the message says why, after what is not met; an old page does not stay."""
        write_log(self.log, LOST_WRITE)
        for page in (self.folder, self.log / "run.html"):
            with self.assertRaises(AssertionError) as raised:
                assert_met(self.log, "cc", page=page)
            self.assertRegex(str(raised.exception), rf"does not meet cc[.]\nThere is no page {page} of it: \[Errno \d+\] ")
        page = self.folder / "run.html"
        page.write_text("an old page")
        with mock.patch("causal_judge.verdicts.explain", side_effect=RuntimeError("ended with status 4")):
            self.assertEqual(save_page(self.log, page), f"There is no page {page} of it: ended with status 4")
        self.assertEqual(list(self.folder.iterdir()), [self.log])

    def test_no_criterion(self):
        write_log(self.log, GOOD)
        for criteria in (("CC",), ("cc", "cv"), ("",)):
            with self.assertRaisesRegex(ValueError, "there are cc, cm and ccv"):
                assert_met(self.log, *criteria)
            with self.assertRaisesRegex(ValueError, "there are cc, cm and ccv"):
                judge(self.log).meets(*criteria)


class Programs(FolderCase):
    """A program is a script here, so nothing else need be there."""

    def script(self, text, name="causal_judge"):
        """A program that does what a text of the shell says."""
        path = self.folder / name
        path.parent.mkdir(exist_ok=True)
        path.write_text(f"#!/bin/sh\n{text}\n")
        path.chmod(path.stat().st_mode | stat.S_IXUSR)
        return path

    def environment(self, **variables):
        """Has these variables alone name programs."""
        patch = mock.patch.dict(os.environ, {"PATH": "/nowhere", **variables})
        patch.start()
        self.addCleanup(patch.stop)
        if program.NAMED_BY not in variables:
            os.environ.pop(program.NAMED_BY, None)
        near = mock.patch.object(program, "_near_folders", return_value=[str(self.folder / "near")])
        near.start()
        self.addCleanup(near.stop)

    def test_order(self):
        """The one that is given, the one that is named, the one nearby, the one on PATH."""
        paths = [self.script("", name) for name in ("given", "named", "near/causal_judge", "path/causal_judge")]
        self.environment(PATH=str(paths[3].parent), CAUSAL_JUDGE=str(paths[1]))
        self.assertEqual(program.find_program(paths[0]), str(paths[0]))
        self.assertEqual(program.find_program(), str(paths[1]))
        os.environ["CAUSAL_JUDGE"] = "causal_judge"
        self.assertEqual(program.find_program(), str(paths[3]))
        os.environ["CAUSAL_JUDGE"] = ""
        self.assertEqual(program.find_program(), str(paths[2]))
        paths[2].unlink()
        self.assertEqual(program.find_program(), str(paths[3]))

    def test_missing(self):
        write_log(self.log, GOOD)
        self.environment()
        for action in (judge, explain, assert_met):
            with self.assertRaisesRegex(ProgramMissing, "the program causal_judge is missing. Install a package .* CAUSAL_JUDGE="):
                action(self.log)

    def test_named_but_missing(self):
        """No other program is taken for one that was named."""
        write_log(self.log, GOOD)
        self.script("", "path/causal_judge")
        self.environment(PATH=str(self.folder / "path"), CAUSAL_JUDGE="/nowhere/judge")
        with self.assertRaisesRegex(ProgramMissing, "no program /nowhere/judge, which CAUSAL_JUDGE names"):
            judge(self.log)
        with self.assertRaisesRegex(ProgramMissing, r"no program /nowhere/other\. Install"):
            judge(self.log, program=pathlib.Path("/nowhere/other"))

    def test_near_folders(self):
        folders = program._near_folders()
        self.assertEqual(folders[0], str(pathlib.Path(program.__file__).resolve().parent))
        self.assertTrue(all(map(os.path.isabs, folders)) and len(folders) == 3)

    def test_time_limit(self):
        write_log(self.log, GOOD)
        with self.assertRaisesRegex(TimeoutError, "more than 0.1 seconds for"):
            judge(self.log, program=self.script("exec sleep 60"), timeout=0.1)

    def test_other_ends(self):
        write_log(self.log, GOOD)
        for text, said in (
            ("echo no memory >&2; exit 4", "ended with status 4 .*: no memory"),
            ("kill -9 $$", "ended with status -9"),
            ("echo usage >&2; exit 2", "ended with status 2"),
            ("echo cc maybe", "says nothing that this package knows"),
            ("printf 'cc yes\\ncm yes\\nccv yes\\nmore yes\\n'", "says nothing that this package knows"),
            ("true", "says nothing that this package knows"),
        ):
            with self.subTest(text), self.assertRaisesRegex(RuntimeError, said):
                judge(self.log, program=self.script(text))

    def test_program_that_can_not_be_run(self):
        write_log(self.log, GOOD)
        path = self.script("")
        path.write_bytes(b"\x7fELF no program")
        with self.assertRaises(OSError):
            judge(self.log, program=path)

    def test_words(self):
        """The program gets the log as its input, and the words that this package says."""
        write_log(self.log, GOOD)
        path = self.script(f'echo "$@" >> {self.folder}/words; cat > {self.folder}/input; printf "cc yes\\ncm yes\\nccv unknown 2.2\\n"')
        verdict = judge(self.log, program=path)
        self.assertEqual((verdict.ccv, str(verdict.ccv), verdict.program), (Line("ccv", "unknown", "2.2"), "ccv unknown 2.2", str(path)))
        self.assertFalse(verdict.meets("ccv"))
        self.assertEqual(verdict.explanation, "cc yes\ncm yes\nccv unknown 2.2\n")
        self.assertEqual((self.folder / "words").read_text(), "judge --long --events\nexplain --long --events\n")
        self.assertEqual((self.folder / "input").read_bytes(), self.log.read_bytes())


if __name__ == "__main__":
    unittest.main()
