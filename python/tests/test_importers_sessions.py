"""Tests the importer of sessions of single operations: the grammar, what is refused, and the lines about whole histories."""

import itertools
import unittest
from collections import Counter

from causal_judge.importers import FORMATS
from causal_judge.importers.scanning import PIECE
from support import needs_program
from test_importers_support import Endless, ImporterCase, read, write

ONE, TWO = "session 1", "session 2"


class Grammar(ImporterCase):
    format = "sessions"

    def test_sessions(self):
        self.assert_events("w(x,1) r(y,2)\nw(y,2)", write(ONE, "x", 1), read(ONE, "y", 2), write(TWO, "y", 2))

    def test_separators(self):
        for between in ("", " ", ",", " ,\t", ",,"):
            for blank in ("", " ", " \t"):
                text = f"{blank}w{blank}({blank}x{blank},{blank}1{blank}){between}r(x,1){blank}"
                self.assert_events(text, write(ONE, "x", 1), read(ONE, "x", 1))

    def test_lines_without_operations_are_no_sessions(self):
        text = "# nobody\n\n w(x,1) # the first, w(x,2)\n  ,\n\t\n#\nr(x,1)#\n"
        self.assert_events(text, write(ONE, "x", 1), read(TWO, "x", 1))
        self.assert_events("")

    def test_nothing(self):
        for word in ("nil", "null", "0", "", " "):
            self.assert_events(f"w(x,{word}) r(x,{word})", write(ONE, "x", None), read(ONE, "x", None))
        for word in ("Nil", "00", "-0", "nothing"):
            self.assert_events(f"w(x,{word}) r(x,{word})", write(ONE, "x", word), read(ONE, "x", word))

    def test_names_and_values(self):
        for text, key, value in (
            ("7", 7, 7),
            ("-7", "-7", -7),
            ("007", "007", "007"),
            ("+7", "+7", "+7"),
            ("18446744073709551615", 2**64 - 1, 2**64 - 1),
            ("18446744073709551616", "18446744073709551616", "18446744073709551616"),
            ("-9223372036854775808", "-9223372036854775808", -(2**63)),
            ("-9223372036854775809", "-9223372036854775809", "-9223372036854775809"),
            ("9" * 10_000, "9" * 10_000, "9" * 10_000),
            ("true", "true", "true"),
            ("1.0", "1.0", "1.0"),
            ('user:5/"é"', 'user:5/"é"', 'user:5/"é"'),
        ):
            with self.subTest(text=text[:30]):
                self.assert_events(f"w({text},{text})", write(ONE, key, value))
        self.assert_events("w(0,5)", write(ONE, 0, 5))

    def test_it_keeps_one_operation(self):
        for between in ("\n", " "):
            stream = Endless("", lambda number: f"w(x,{number + 1}){between}")
            events = itertools.islice(FORMATS["sessions"](stream, Counter()), 20_000)
            self.assertEqual([event[2][2] for event in events if event[0] == "begin"], list(range(1, 10_001)))
            self.assertLess(stream.count, 10_000 * len("w(x,10000) ") + 2 * PIECE)


class Refused(ImporterCase):
    format = "sessions"

    def test_lines(self):
        for text, what in (
            ("x(x,1)", 'begins with w or r, and not with "x"'),
            ("W(x,1)", 'begins with w or r, and not with "W"'),
            ("(x,1)", 'begins with w or r, and not with "\\("'),
            (")", "begins with w or r"),
            ("w", "the end of the line stands where \\( has"),
            ("w x", '"x" stands where \\('),
            ("w(", "the end of the line stands where a text"),
            ("w(,1)", '"," stands where a text'),
            ("r(x)", '"\\)" stands where ,'),
            ("r(x 1)", '"1" stands where ,'),
            ("r(x,1", "the end of the line stands where \\)"),
            ("r(x,1 2)", '"2" stands where \\)'),
            ("r(x,1,0,0)", '"," stands where \\)'),
            ("r(x,\n1)", "the end of the line stands where a text or \\)"),
            ("r(x,# 1)", "the end of the line stands where a text or \\)"),
            ("w(x,1) r(x,(", '"\\(" stands where a text or \\)'),
            (f"w(x,{'1' * 1_000_001})", "1,000,000"),
            (f"w({'x' * 999_990},1)", "1,000,000 bytes"),
        ):
            with self.subTest(text=text[:30]):
                self.assert_refused(f"w(x,1)\n\n{text}\nw(x,2)", 3, what)


@needs_program
class Verdicts(ImporterCase):
    format = "sessions"

    def test_a_cycle(self):
        """Each session writes, and reads the other's write after the value that a key holds at the start."""
        text = "w(x,1) r(y,0) r(y,1)\nw(y,1) r(x,nil) r(x,1)"
        self.assert_lines(text, "cc yes; cm yes; ccv yes")
        self.assert_lines("w(x,1) r(x,2)\nw(x,2) r(x,1)", "cc yes; cm yes; ccv no CyclicCF")

    def test_a_lost_write(self):
        self.assert_lines("w(x,1) r(x,0)", "cc no WriteCOInitRead; cm no WriteCOInitRead; ccv no WriteCOInitRead")
        self.assert_lines("w(x,1)\nr(x,0) r(x,1)\nw(x,0)", "cc yes; cm yes; ccv yes")

    def test_a_value_that_nobody_wrote(self):
        self.assert_lines("w(x,1) r(x,2)", "cc no ThinAirRead; cm no ThinAirRead; ccv no ThinAirRead")


if __name__ == "__main__":
    unittest.main()
