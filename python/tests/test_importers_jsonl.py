"""Tests the importer of calls with times: which events each call becomes, in which order, what is refused, and the lines about files."""

import json
import random
import unittest

from support import needs_program
from test_importers_support import ImporterCase, imported, read, write


def call(client, op, key, start, end, ok=True, **more):
    """A line of a call that has an end."""
    return json.dumps({"client": client, "op": op, "key": key, "start": start, "end": end, "ok": ok, **more}) + "\n"


def unanswered(client, op, key, start, **more):
    """A line of a call that got no answer."""
    return json.dumps({"client": client, "op": op, "key": key, "start": start, **more}) + "\n"


class Calls(ImporterCase):
    format = "jsonl"

    def test_words(self):
        for words in (("read", "write", "delete"), ("r", "w", "d")):
            text = call("a", words[1], "k", 0, 1, value=5) + call("a", words[0], "k", 2, 3, value=5) + call("a", words[2], "k", 4, 5)
            self.assert_events(text, write("a", "k", 5), read("a", "k", 5), write("a", "k", None))

    def test_names_and_values(self):
        for name in ("", "two\nlines", "é😀", 0, 2**64 - 1):
            for value in ("", "v", 0, -(2**63), 2**64 - 1, True, False):
                text = call(name, "w", name, 0, 1, value=value) + call(name, "r", name, 1, 2, value=value)
                self.assert_events(text, write(name, name, value), read(name, name, value))

    def test_a_read_that_found_nothing(self):
        self.assert_events(call("a", "r", "k", 0, 1, value=None), read("a", "k", None))

    def test_what_failed_is_left_out(self):
        text = "".join(call("a", word, "k", 0, 1, False, value=[1]) for word in ("r", "w", "d", "write"))
        text += unanswered("a", "r", "k", 0, ok=False)
        self.assert_events(text, left_out={"a failed read": 2, "a failed write": 2, "a failed delete": 1})

    def test_what_got_no_answer_is_lost(self):
        """Its client is a new one from then on."""
        wanted = (write("a", "k", 5, True), read("a#2", "k"), write("a#3", "k", None, True))
        for more in ({}, {"end": None}, {"ok": None}, {"end": None, "ok": None}):
            with self.subTest(more=more):
                lines = [unanswered("a", word, "k", start, **more, value=5) for start, word in enumerate("wrd")]
                self.assert_events("".join(lines), *wanted)
        lines = [call("a", word, "k", start, start + 1, None, value=5) for start, word in enumerate("wrd")]
        self.assert_events("".join(lines), *wanted)

    def test_other_fields_and_blank_lines_are_passed_over(self):
        text = call("a", "w", "k", 0, 1, value=5, node="n1", tries=[1, {"x": 1}])
        self.assert_events(f"\n  \n{text}\n\n", write("a", "k", 5))
        self.assert_events("")

    def test_a_value_is_not_looked_at_where_none_is_needed(self):
        text = call("a", "d", "k", 0, 1, value=1.5) + unanswered("a", "r", "k", 2, value=1.5)
        self.assert_events(text, write("a", "k", None), read("a", "k"))


class Order(ImporterCase):
    format = "jsonl"

    def test_any_order_of_lines(self):
        lines = [call(client, "w", "k", 10 * place, 10 * place + 9, value=f"{client}{place}") for client in "ab" for place in range(20)]
        wanted = [event for client in "ab" for place in range(20) for event in write(client, "k", f"{client}{place}")]
        rng = random.Random(1)
        for _ in range(20):
            rng.shuffle(lines)
            events, _ = imported("jsonl", "".join(lines))
            self.assertEqual(sorted(events, key=lambda event: event[1]), wanted)

    def test_clients_in_the_order_of_their_first_lines(self):
        text = call("b", "w", "k", 9, 9.5, value=1) + call(0, "w", "k", 1, 2, value=2) + call("b", "w", "k", 3, 3, value=3)
        self.assert_events(text, write("b", "k", 3), write("b", "k", 1), write(0, "k", 2))

    def test_calls_may_touch(self):
        large = 10**400
        touching = ((5, 6), (6, 7)), ((5, 5), (5, 7)), ((5, 7), (7, 7)), ((-1.5, 2), (2.0, 3)), ((large, large + 1), (large + 1, large + 2))
        for first, second in touching:
            lines = call("a", "w", "k", *first, value=1), call("a", "w", "k", *second, value=2)
            self.assert_events("".join(lines), write("a", "k", 1), write("a", "k", 2))
            self.assert_events("".join(reversed(lines)), write("a", "k", 1), write("a", "k", 2))

    def test_calls_that_overlap(self):
        for first, second in (((5, 8), (6, 7)), ((5, 8), (5, 9)), ((5, 8), (7, 9)), ((2**60, 2**60 + 2), (2**60 + 1, 2**60 + 3))):
            one, other = call("a", "w", "k", *first, value=1), call("a", "r", "k", *second, value=None)
            between = f"\n{call('b', 'w', 'k', 0, 99, value=2)}"
            self.assert_refused(one + between + other, 4, 'of "a" and that of line 1 overlap')
            self.assert_refused(other + between + one, 4, 'of "a" and that of line 1 overlap')

    def test_calls_at_one_time(self):
        text = call("a", "w", "k", 5, 5, value=1) + call("a", "r", "k", 5, 5, value=None)
        self.assert_refused(text, 2, "line 1 begin and end at 5")
        self.assert_refused(call("a", "w", "k", 5, 5, value=1) + unanswered("a", "w", "k", 5, value=2), 2, "line 1 begin and end at 5")
        self.assert_refused(unanswered("a", "w", "k", 5, value=1) + unanswered("a", "w", "k", 5, value=2), 2, "line 1 begin and end at 5")
        self.assert_events(text.replace('"a"', '"b"', 1), write("b", "k", 1), read("a", "k", None))

    def test_calls_without_an_end(self):
        lost = unanswered("a", "w", "k", 5, value=1)
        self.assert_events(call("a", "w", "k", 6, 7, value=2) + lost, write("a", "k", 1, True), write("a#2", "k", 2))
        self.assert_events(call("a", "w", "k", 5, 7, value=2) + lost, write("a", "k", 1, True), write("a#2", "k", 2))
        self.assert_events(lost + call("a", "w", "k", 4, 5, value=2), write("a", "k", 2), write("a", "k", 1, True))
        self.assert_refused(lost + call("a", "w", "k", 4, 6, value=2), 2, "overlap")
        self.assert_refused(call("a", "w", "k", 5, 9, None, value=1) + call("a", "w", "k", 8, 10, value=2), 2, "overlap")

    def test_new_clients_get_names_that_no_other_has(self):
        lines = [unanswered(client, "r", "k", 5) + call(client, "w", "k", 6, 7, value=f"of {client}") for client in ("a", 7, "a#2", "7")]
        events = [event for event in imported("jsonl", "".join(lines))[0] if event[0] == "begin"]
        wanted = (("a", "a#2"), (7, "7#2"), ("a#3", "a#4"), ("7", "7#3"))
        self.assertEqual([event[1] for event in events], [name for pair in wanted for name in pair])

    def test_what_failed_may_overlap(self):
        text = call("a", "w", "k", 0, 9, False) + call("a", "w", "k", 5, 6, value=1)
        self.assert_events(text, write("a", "k", 1), left_out={"a failed write": 1})


class Refused(ImporterCase):
    format = "jsonl"

    def test_fields(self):
        good = {"client": "a", "op": "write", "key": "k", "value": 1, "start": 0, "end": 1, "ok": True}
        self.assert_events(json.dumps(good), write("a", "k", 1))
        for change, what in (
            ({"client": None}, '"client": a client or a key is'),
            ({"client": 1.5}, '"client": a client or a key is'),
            ({"client": True}, '"client": a client or a key is'),
            ({"client": "\ud800"}, "surrogate"),
            ({"key": -1}, '"key": a client or a key .* 2\\^64'),
            ({"key": ["k"]}, '"key": a client or a key is'),
            ({"op": "increment"}, '"op" is "increment", and not one of "read"'),
            ({"op": ["w"]}, '"op" is'),
            ({"value": None}, "is a delete"),
            ({"value": 1.0}, '"value": a fraction is no value'),
            ({"value": [1]}, '"value": a value is'),
            ({"value": 2**64}, '"value": a value .* 2\\^64'),
            ({"op": "read", "value": 1.5}, '"value": a fraction is no value'),
            ({"start": None}, '"start" is null'),
            ({"start": "0"}, '"start" is .*a time is a number'),
            ({"start": True}, '"start" is .*a time is a number'),
            ({"end": [1]}, '"end" is .*a time is a number'),
            ({"end": -1}, '"end" is -1, before "start"'),
            ({"end": None}, 'there is no "end"'),
            ({"ok": 1}, '"ok" is 1,'),
            ({"ok": "true"}, '"ok" is'),
        ):
            with self.subTest(change=change):
                self.assert_refused(f"\n{json.dumps({**good, **change})}\n", 2, what)

    def test_missing_fields(self):
        good = {"client": "a", "op": "read", "key": "k", "value": 1, "start": 0, "end": 1, "ok": True}
        for field in good:
            with self.subTest(field=field):
                self.assert_refused(json.dumps({name: value for name, value in good.items() if name != field}), 1, f'"{field}"')
        self.assert_refused(unanswered("a", "w", "k", 0), 1, '"value" is missing')

    def test_lines(self):
        good = call("a", "w", "k", 0, 1, value=1)
        for text, what in (
            ("{", "no JSON"),
            ("[1]", "no object"),
            ("7", "no object"),
            (good[:-3], "no JSON"),
            ("[" * 100_000, "no JSON"),
            ("9" * 10_000, "no JSON"),
            (good.replace('"a"', "[" * 500 + "]" * 500), '"client"'),
            (good.replace('"w"', "[" * 500 + "]" * 500), '"op" is'),
            (good.replace('"start": 0', '"start": NaN'), "no JSON"),
            (good.replace('"start": 0', '"start": 1e999'), "a time is a number"),
            (good.replace('"start": 0', '"start": 0, "start": 0'), "twice"),
            (call("a", "w", "k", 2, 3, value="x" * 1_000_001), "1,000,000 bytes"),
            (" " * 4_000_001, "4,000,000 characters"),
        ):
            with self.subTest(text=text[:80]):
                self.assert_refused(good + text, 2, what)


@needs_program
class Verdicts(ImporterCase):
    format = "jsonl"

    def test_healthy(self):
        text = call("a", "r", "k", 5, 6, value=None) + call("a", "d", "k", 3, 4) + call("b", "r", "k", 2, 9, value="v")
        text += call("a", "w", "k", 1, 2, value="v")
        self.assert_lines(text, "cc yes; cm yes; ccv yes")

    def test_a_lost_write(self):
        text = call("a", "r", "k", 5, 6, value=None) + call("a", "w", "k", 1, 2, value="v")
        self.assert_lines(text, "cc no WriteCOInitRead; cm no WriteCOInitRead; ccv no WriteCOInitRead")
        self.assert_lines(text.replace('"end": 2, "ok": true', '"end": 2, "ok": null'), "cc yes; cm yes; ccv yes")


if __name__ == "__main__":
    unittest.main()
