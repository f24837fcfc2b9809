"""Tests the importer of Jepsen's histories: which events each operation becomes, what is refused, and the lines about whole histories."""

import itertools
import unittest
from collections import Counter

from causal_judge.importers import FORMATS
from causal_judge.importers.scanning import PIECE
from support import needs_program
from test_importers_support import Endless, ImporterCase, imported, read, write

K = "register"


def entry(process, kind, function, value, more=""):
    """A line of a history."""
    return f"{{:type :{kind}, :f :{function}, :value {value}, :process {process}{more}}}\n"


def operation(process, kind, function, value, found=None):
    """The two lines of an operation, whose completion has another value where one is given."""
    return entry(process, "invoke", function, value) + entry(process, kind, function, value if found is None else found)


class Operations(ImporterCase):
    format, is_timed = "jepsen", True

    def test_answered(self):
        text = operation(0, "ok", "write", 1) + operation(0, "ok", "read", "nil", 1) + operation(1, "ok", "cas", "[1 2]")
        self.assert_events(text, write(0, K, 1), read(0, K, 1), write(1, K, 2))

    def test_a_read_of_nil_found_nothing(self):
        self.assert_events(operation(3, "ok", "read", "nil"), read(3, K, None))
        self.assert_events("{:process 0 :type :invoke :f :read} {:process 0 :type :ok :f :read}", read(0, K, None))

    def test_a_write_of_nil_is_a_delete(self):
        self.assert_events(operation(0, "ok", "write", "nil"), write(0, K, None))
        self.assert_events(operation(0, "ok", "cas", "[1 nil]"), write(0, K, None))
        self.assert_events(operation(0, "ok", "cas", "[nil 1]"), write(0, K, 1))

    def test_what_failed(self):
        text = operation(0, "fail", "write", 1) + operation(0, "fail", "read", "nil") * 2 + operation(0, "fail", "cas", "[1 2]")
        calls = ["w", K, 1], ["r", K], ["r", K], ["w", K, 2]
        self.assert_events(text, *([["begin", 0, call], ["fail", 0]] for call in calls))

    def test_what_crashed_is_lost(self):
        for function, value, call in (
            ("write", "1", write(0, K, 1, True)),
            ("write", "nil", write(0, K, None, True)),
            ("read", "nil", read(0, K)),
            ("cas", "[1 2]", write(0, K, 2, True)),
        ):
            with self.subTest(function=function, value=value):
                self.assert_events(operation(0, "info", function, value), call)
                self.assert_events(operation(0, "info", function, value, ":timed-out"), call)

    def test_a_process_that_goes_on_after_a_crash_is_another_client(self):
        """Jepsen gives its thread another process number. Where a history has the old one, it gets another name."""
        text = operation(0, "ok", "write", 1) + operation(0, "info", "read", "nil") + operation(0, "ok", "write", 2)
        text += operation(1, "fail", "write", 3) + operation(1, "ok", "write", 4) + operation(0, "info", "cas", "[2 5]")
        text += entry(0, "invoke", "read", "nil")
        failed = [["begin", 1, ["w", K, 3]], ["fail", 1]]
        wanted = write(0, K, 1), read(0, K), write("0#2", K, 2), failed, write(1, K, 4), write("0#2", K, 5, True), read("0#3", K)[:1]
        self.assert_events(text, *wanted)

    def test_what_has_no_completion_is_pending(self):
        text = entry(2, "invoke", "cas", "[1 2]") + operation(0, "ok", "write", 1) + entry(1, "invoke", "read", "nil")
        text += entry(0, "invoke", "write", 3)
        self.assert_events(text, write(2, K, 2)[:1], write(0, K, 1), read(1, K)[:1], write(0, K, 3)[:1])

    def test_the_nemesis_is_left_out(self):
        text = operation(":nemesis", "info", "kill", "#{\"n1\"}") + "{:process :nemesis}" + operation(0, "ok", "write", 1)
        self.assert_events(text, write(0, K, 1), left_out={"an entry of the nemesis": 3})

    def test_other_fields_are_passed_over(self):
        more = ', :time 17, :index 3, :error [:timeout "x"], :exception #error {:via [[java.lang.Thread run "Thread.java" 750]]}, :a/b 0x1f'
        self.assert_events(entry(0, "invoke", "write", 1, more) + entry(0, "info", "write", 1, more), write(0, K, 1, True))

    def test_operations_overlap(self):
        """Each begins at its invocation, so what a cas wrote is read on a later line than its begin."""
        for function, value in (("write", "1"), ("cas", "[0 1]")):
            text = entry(0, "invoke", function, value) + operation(1, "ok", "read", "nil", 1) + entry(0, "ok", function, value)
            begun, ended = write(0, K, 1)
            self.assert_events(text, [begun], read(1, K, 1), [ended])

    def test_values(self):
        for spelling, value in (
            ("-5", -5),
            ("18446744073709551615", 2**64 - 1),
            ("18446744073709551616", "18446744073709551616"),
            ("true", True),
            ('"a\\u00e9"', "aé"),
            (":a/b", ":a/b"),
            ("sym", "sym"),
            ("1.50", "1.5"),
            ("[1 2 3]", "[1 2 3]"),
            ('(1, "2" :c)', '[1 "2" :c]'),
            ("{:b #{2 1} :a nil}", "{:a nil, :b #{1 2}}"),
        ):
            with self.subTest(spelling=spelling):
                text = operation(0, "ok", "read", "nil") + operation(0, "ok", "write", spelling)
                text += operation(0, "ok", "read", "nil", spelling)
                self.assert_events(text, read(0, K, None), write(0, K, value), read(0, K, value))


class Texts(ImporterCase):
    format, is_timed = "jepsen", True
    text = operation(0, "ok", "write", 1) + operation(1, "ok", "read", "nil", 1)

    def test_a_vector_or_a_list_of_all(self):
        wanted = imported("jepsen", self.text)
        for opening, closing in ("[]", "()"):
            for text in (self.text, self.text.replace("\n", " ")):
                self.assertEqual(imported("jepsen", opening + text + closing), wanted)

    def test_printed_records(self):
        self.assertEqual(imported("jepsen", self.text.replace("{", "#jepsen.history.Op{")), imported("jepsen", self.text))

    def test_it_keeps_what_is_pending(self):
        for head in ("", "["):
            stream = Endless(head, lambda number: operation(number % 5, "ok", "write", number))
            events = itertools.islice(FORMATS["jepsen"](stream, Counter()), 2_000)
            self.assertEqual([event[2][2] for event in events if event[0] == "begin"], list(range(1_000)))
            self.assertLess(stream.count, 1_000 * len(operation(0, "ok", "write", 1_000)) + 2 * PIECE)


class Keys(ImporterCase):
    format, is_timed = "jepsen", True

    def test_tuples(self):
        text = operation(0, "ok", "write", "[7 1]") + operation(0, "ok", "read", "[7 nil]", "[7 1]")
        text += operation(1, "ok", "cas", '["k" [nil 2]]')
        self.assert_events(text, write(0, 7, 1), read(0, 7, 1), write(1, "k", 2))

    def test_the_first_operation_decides(self):
        for text in (
            operation(0, "ok", "read", "[1 nil]", "[1 nil]"),
            operation(0, "fail", "write", "[1 2]"),
            operation(0, "fail", "cas", "[1 [2 3]]"),
            entry(0, "invoke", "read", "[1 nil]") + entry(0, "info", "read", "nil"),
        ):
            with self.subTest(text=text):
                self.assertIn(["begin", 1, ["w", "x", "[4 5]"]], imported("jepsen", text + operation(1, "ok", "write", '["x" [4 5]]'))[0])
                self.assert_refused(text + entry(1, "invoke", "read", "nil"), 3, "no tuple")
        for text in (operation(0, "ok", "read", "nil"), operation(0, "fail", "write", "2"), operation(0, "fail", "cas", "[2 3]")):
            with self.subTest(text=text):
                self.assertIn(["begin", 1, ["w", K, "[4 5]"]], imported("jepsen", text + operation(1, "ok", "write", "[4 5]"))[0])
                self.assert_refused(text + entry(1, "invoke", "write", "#x/tuple [4 5]"), 3, "those before had none")

    def test_tags(self):
        for spelling in (
            "#jepsen.independent/tuple [7 1]",
            "#jepsen.independent.Tuple{:key 7, :val 1}",
            "#jepsen.independent.Tuple{:k 7 :v 1}",
            "#clojure.lang.MapEntry [7 1]",
            "(7 1)",
        ):
            with self.subTest(spelling=spelling):
                self.assert_events(operation(0, "ok", "write", spelling), write(0, 7, 1))
        self.assert_events(operation(0, "ok", "write", "#other [7 1]"), write(0, K, "#other [7 1]"))

    def test_names(self):
        self.assert_events(operation(0, "ok", "write", "[18446744073709551615 1]"), write(0, 2**64 - 1, 1))
        for name in ("18446744073709551616", "-1", "nil", "true", ":a", "[1 2]"):
            with self.subTest(name=name):
                self.assert_events(operation(0, "ok", "write", f"[{name} 1]"), write(0, name, 1))

    def test_two_keys_with_one_name(self):
        text = operation(0, "ok", "write", '[":a" 1]') + operation(0, "ok", "write", "[1 1]") + operation(0, "ok", "write", '["1" 1]')
        self.assert_events(text, write(0, ":a", 1), write(0, 1, 1), write(0, "1", 1))
        self.assert_refused(text + entry(0, "invoke", "read", "[:a nil]"), 7, "one name")


class Refused(ImporterCase):
    format, is_timed = "jepsen", True

    def test_entries(self):
        for text, what in (
            ("7", "no map"),
            ("[{}]", "the :process"),
            ("{:type :invoke}", "the :process"),
            (entry('"a"', "invoke", "read", "nil"), "the :process"),
            (entry(-1, "invoke", "read", "nil"), "the :process"),
            (entry("true", "invoke", "read", "nil"), "the :process"),
            (entry(":other", "invoke", "read", "nil"), "the :process"),
            ("{:process 1 :f :read}", "the :type"),
            (entry(1, "invoked", "read", "nil"), "the :type"),
            ('{:process 1 :type "ok" :f :read}', "the :type"),
            (entry(1, "invoke", "txn", "[[:r 1 nil]]"), ":txn.*not judged"),
            ("{:process 1 :type :invoke}", "the :f"),
            (entry(1, "invoke", "cas", "3"), "no pair"),
            (entry(1, "invoke", "cas", "[1 2 3]"), "no pair"),
            ("{:process 1", "never closed"),
        ):
            with self.subTest(text=text):
                self.assert_refused(f"\n{text}", 2, what)

    def test_order(self):
        begun = entry(1, "invoke", "read", "nil")
        self.assert_refused(begun + begun, 2, "line 1 has no completion")
        self.assert_refused(entry(1, "ok", "read", "nil"), 1, "has invoked nothing")
        self.assert_refused(begun + entry(1, "ok", "read", 1) * 2, 3, "has invoked nothing")
        self.assert_refused(begun + entry(1, "info", "write", 1), 2, "invoked a :read in line 1")

    def test_an_ok_of_something_else(self):
        """A register with versions shows the version in its :ok: what was written is then not what is read."""
        for function, value, found in (
            ("write", "1", "2"),
            ("write", "nil", "2"),
            ("write", "[nil 3]", "[5 3]"),
            ("write", "[7 [nil 3]]", "[7 [5 3]]"),
            ("cas", "[1 2]", "[1 3]"),
            ("cas", "[7 [nil [1 2]]]", "[7 [6 [1 2]]]"),
            ("read", "1", "2"),
            ("read", "[7 [nil nil]]", "[7 [5 3]]"),
        ):
            with self.subTest(function=function, value=value):
                self.assert_refused(operation(1, "ok", function, value, found), 2, "the value is|another key")
        self.assert_refused(operation(1, "ok", "read", "[1 nil]", "[2 3]"), 2, "another key than the :invoke of line 1")
        self.assert_events(operation(1, "ok", "write", "5", "nil"), write(1, K, 5))
        self.assert_events(operation(1, "ok", "read", "5", "5"), read(1, K, 5))


@needs_program
class Verdicts(ImporterCase):
    format, is_timed = "jepsen", True

    def test_healthy(self):
        text = operation(0, "ok", "write", 1) + operation(1, "ok", "read", "nil", 1) + operation(1, "ok", "cas", "[1 2]")
        self.assert_lines(text + operation(0, "ok", "read", "nil", 2), "cc yes; cm yes; ccv yes")

    def test_a_cas_that_crashed_and_took_effect(self):
        text = operation(0, "ok", "write", 1) + operation(1, "info", "cas", "[1 2]") + operation(6, "ok", "read", "nil", 2)
        self.assert_lines(text, "cc yes; cm yes; ccv yes")

    def test_a_history_that_ends_in_a_cas(self):
        """What it wrote is read before it is answered, also where it never is."""
        text = operation(0, "ok", "write", 1) + entry(1, "invoke", "cas", "[1 2]") + operation(0, "ok", "read", "nil", 2)
        for last in ("", entry(1, "ok", "cas", "[1 2]"), entry(1, "info", "cas", "[1 2]")):
            self.assert_lines(text + last, "cc yes; cm yes; ccv yes")
        self.assert_lines(text + entry(1, "fail", "cas", "[1 2]"), "cc no ThinAirRead; cm no ThinAirRead; ccv no ThinAirRead")

    def test_what_a_cas_compared_is_not_asked(self):
        """Process 1 saw 2 replace 1. That its cas of 1 succeeded is no fault by a log, which has a write alone."""
        text = operation(0, "ok", "write", 1) + operation(0, "ok", "write", 2) + operation(1, "ok", "read", "nil", 2)
        text += operation(1, "ok", "cas", "[1 3]")
        self.assert_lines(text, "cc yes; cm yes; ccv yes")
        self.assert_lines(text + operation(1, "ok", "read", "nil", 1), "cc no WriteCORead; cm no WriteCORead; ccv no WriteCORead")

    def test_a_lost_write(self):
        text = operation(0, "ok", "write", "[1 1]") + operation(0, "ok", "read", "[1 nil]", "[1 nil]")
        self.assert_lines(text, "cc no WriteCOInitRead; cm no WriteCOInitRead; ccv no WriteCOInitRead")

    def test_values_that_repeat(self):
        text = operation(0, "ok", "write", 1) + operation(0, "ok", "write", 2) + operation(1, "ok", "write", 1)
        text += operation(2, "ok", "read", "nil", 1) + operation(2, "ok", "read", "nil", 2) + operation(2, "ok", "read", "nil", 1)
        self.assert_lines(text, "cc unknown 2.2; cm unknown; ccv unknown")


if __name__ == "__main__":
    unittest.main()
