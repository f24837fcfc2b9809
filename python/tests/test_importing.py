"""The command that imports: what it writes of a history, and what is left of one that is refused."""

import json
import re
import subprocess
import sys
import unittest

from causal_judge import Refused, judge
from causal_judge.importers import ABOUT, FORMATS
from support import ORDER_LINE, FolderCase, needs_program, run_python

WHOLE = "w(x,1) r(y,2)\nw(y,2) r(x,1)\n"
ENTRIES = "{:process 0 :type :invoke :f :read} {:process 0 :type :ok :f :read :value 7}"
EVENTS = """{"ClientId":0,"Kind":0,"Value":{"op":"get","key":"k"},"Id":0}
{"ClientId":0,"Kind":1,"Value":{"value":7},"Id":0}
"""
BROKEN = "w(x,1) r(y,2)\nw(y,2) r(x\n"


def imported(text, path, name="sessions"):
    """How the command ends over a text, with its log at a path."""
    words = [sys.executable, "-m", "causal_judge", "import", name]
    with path.open("wb") as log:
        return subprocess.run(words, input=text.encode(), stdout=log, stderr=subprocess.PIPE, check=False)


class Importing(FolderCase):
    @needs_program
    def test_a_whole_history_is_judged(self):
        done = imported(WHOLE, self.log)
        self.assertEqual((done.returncode, done.stderr), (0, b""))
        self.assertTrue(judge(self.log).meets("cc", "cm", "ccv"))

    @needs_program
    def test_a_history_in_the_order_of_time(self):
        """The log says so in its first line, and a start may come after that."""
        for name, text in (("jepsen", ENTRIES), ("porcupine", EVENTS)):
            self.assertEqual(imported(text, self.log, name).returncode, 0)
            first, *rest = self.log.read_bytes().splitlines(keepends=True)
            self.assertEqual((first, len(rest)), (ORDER_LINE, 2))
            self.assertEqual(judge(self.log).cc.kind, "ThinAirRead")
            key = json.loads(rest[0])[2][1]
            self.log.write_bytes(first + json.dumps(["start", key, 7]).encode() + b"\n" + b"".join(rest))
            self.assertTrue(judge(self.log).meets())

    def test_a_history_in_no_order_of_time(self):
        call = '{"client":"a","op":"write","key":"k","value":1,"start":1,"end":2,"ok":true}\n'
        for name, text in (("sessions", WHOLE), ("jsonl", call)):
            self.assertEqual(imported(text, self.log, name).returncode, 0)
            self.assertTrue(self.log.read_bytes().startswith(b'["begin",'))

    @needs_program
    def test_a_part_of_a_history_is_not_judged(self):
        done = imported(BROKEN, self.log)
        self.assertEqual(done.returncode, 1)
        self.assertIn(b"refused: line 2", done.stderr)
        with self.assertRaises(Refused):
            judge(self.log)

    def test_bytes_that_are_no_text_are_refused(self):
        words = [sys.executable, "-m", "causal_judge", "import", "sessions"]
        done = subprocess.run(words, input=b"w(x,1)\n\xff\n", capture_output=True, check=False)
        self.assertEqual(done.returncode, 1)
        self.assertEqual(done.stdout.splitlines()[-1], b'"the history was refused, and this is a part of it"')

    def test_help(self):
        """It names each format, what it is and where it comes from, and fits a terminal of 80 columns."""
        self.assertEqual(list(ABOUT), list(FORMATS))
        helps = (run_python("-m", "causal_judge", *words, "--help", COLUMNS="80") for words in ((), ("merge",), ("import",)))
        texts = [done.stdout.decode() for done in helps]
        for name, (what, source) in ABOUT.items():
            self.assertRegex(texts[2], rf"\n  {name} +{re.escape(what)}\n +{re.escape(source)}\n")
            self.assertIn(name, texts[0])
        for text in texts:
            self.assertLessEqual(max(map(len, text.splitlines())), 80, text)

    def test_a_format_that_is_unknown_names_those_there_are(self):
        done = imported(WHOLE, self.log, "csv")
        self.assertEqual(done.returncode, 1)
        for name in FORMATS:
            self.assertIn(name.encode(), done.stderr)


if __name__ == "__main__":
    unittest.main()
