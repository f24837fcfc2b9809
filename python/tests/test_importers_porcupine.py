"""Tests the importer of Porcupine's events: which events of a log they become, what is refused, and the lines about whole histories."""

import itertools
import json
import unittest
from collections import Counter

from causal_judge.importers import FORMATS
from support import needs_program
from test_importers_support import Endless, ImporterCase, read, write


def event(client, kind, number, value):
    """A line of an event."""
    return json.dumps({"ClientId": client, "Kind": kind, "Value": value, "Id": number}) + "\n"


def put(client, number, key, value):
    return event(client, "call", number, {"op": "put", "key": key, "value": value}) + event(client, "return", number, {})


def get(client, number, key, value):
    return event(client, "call", number, {"op": "get", "key": key}) + event(client, "return", number, {"value": value})


class Events(ImporterCase):
    format, is_timed = "porcupine", True

    def test_calls_and_returns(self):
        self.assert_events(put(0, 0, "k", "v") + get(1, 1, "k", "v"), write(0, "k", "v"), read(1, "k", "v"))

    def test_each_spelling(self):
        wanted = (*write(0, "k", 5), *read(0, "k", 5))
        for call, end in (("call", "return"), (0, 1), (False, True)):
            for putting, getting in (("put", "get"), (1, 0)):
                for returned in ({}, None, {"value": ""}, {"value": None}):
                    text = event(0, call, 0, {"op": putting, "key": "k", "value": 5}) + event(0, end, 0, returned)
                    text += event(0, call, 1, {"op": getting, "key": "k", "value": ""}) + event(0, end, 1, {"value": 5})
                    self.assert_events(text, wanted)

    def test_the_empty_text_is_nothing(self):
        text = get(0, 0, "k", "") + get(0, 1, "k", None) + put(0, 2, "k", "") + put(0, 3, "k", None)
        self.assert_events(text, read(0, "k", None) * 2, write(0, "k", None) * 2)

    def test_the_order_of_the_lines(self):
        lines = (put(0, "a", "k", 1) + get(1, "b", "k", 1)).splitlines(keepends=True)
        written, found = write(0, "k", 1), read(1, "k", 1)
        self.assert_events("".join(lines[at] for at in (0, 2, 3, 1)), [written[0], found[0], found[1], written[1]])
        self.assert_events("\n".join(lines[at] for at in (2, 0, 1, 3)), [found[0], written[0], written[1], found[1]])

    def test_no_return(self):
        lines = put(0, 0, "k", 1).splitlines(keepends=True)
        self.assert_events(lines[0], write(0, "k", 1)[:1])
        self.assert_events(lines[0] + get(0, 1, "k", 1), write(0, "k", 1, True), read("0#2", "k", 1))

    def test_a_client_that_goes_on_is_a_new_one(self):
        begun = [event(client, 0, number, {"op": "get", "key": "k"}) for number, client in enumerate((0, 0, "0#2", "0#2", 0))]
        text = begun[0] + begun[2] + begun[1] + event("0#2", 1, 2, {"value": 1}) + begun[4] + begun[3]
        wanted = (read(0, "k")[:1], read("0#2", "k")[:1], read(0, "k")[1:], read("0#3", "k")[:1], [["end", "0#2", 1]])
        self.assert_events(text, *wanted, read("0#3", "k")[1:], read("0#4", "k")[:1], read("0#2", "k")[:1])

    def test_other_fields_are_passed_over(self):
        line = '{"ClientId":0,"Kind":0,"Value":{"op":"get","key":"k"},"Id":0,"Time":12.5,"Metadata":{"a":[]}}'
        self.assert_events(f"\n{line}\n\n", read(0, "k")[:1])

    def test_an_id_may_come_again_after_its_return(self):
        self.assert_events(put(0, 0, "k", 1) + put(1, 0, "k", 2), write(0, "k", 1), write(1, "k", 2))

    def test_it_keeps_what_is_pending(self):
        stream = Endless("", lambda number: put(number % 7, number, "k", number))
        events = itertools.islice(FORMATS["porcupine"](stream, Counter()), 2_000)
        self.assertEqual([found[2][2] for found in events if found[0] == "begin"], list(range(1_000)))
        self.assertLess(stream.count, 1_001 * len(put(0, 1_000, "k", 1_000)))


class Refused(ImporterCase):
    format, is_timed = "porcupine", True

    def test_events(self):
        for client, kind, number, value, what in (
            (None, 0, 0, {}, '"ClientId"'),
            (-1, 0, 0, {}, '"ClientId"'),
            (0, 2, 0, {}, '"Kind" is 2,'),
            (0, "Call", 0, {}, '"Kind" is'),
            (0, 0.0, 0, {}, '"Kind" is 0.0'),
            (0, None, 0, {}, '"Kind" is null'),
            (0, [0], 0, {}, '"Kind" is'),
            (0, 0, 1.5, {}, '"Id"'),
            (0, 0, 0, None, '"Value" is no object'),
            (0, 0, 0, "get", '"Value" is no object'),
            (0, 0, 0, {"op": "get"}, '"key" is missing'),
            (0, 0, 0, {"op": "put", "key": "k"}, '"value" is missing'),
            (0, 0, 0, {"op": "put", "key": "k", "value": 1.5}, "a fraction is no value"),
            (0, 0, 0, {"op": "put", "key": None, "value": 1}, '"key"'),
            (0, 0, 0, {"op": "append", "key": "k", "value": "x"}, "an append"),
            (0, 0, 0, {"op": 2, "key": "k", "value": "x"}, "an append"),
            (0, 0, 0, {"op": True, "key": "k", "value": "x"}, '"op" is true'),
            (0, 0, 0, {"op": "cas", "key": "k"}, '"op" is'),
            (0, 0, 0, {"key": "k"}, '"op" is missing'),
            (0, 0, 0, {"op": "put", "key": "k", "value": 1, "ttl": 5}, 'the field "ttl"'),
        ):
            with self.subTest(what=what, value=value):
                self.assert_refused(put(9, 9, "k", 1) + event(client, kind, number, value), 3, what)

    def test_lines(self):
        self.assert_refused(put(0, 0, "k", 1) + "{", 3, "no JSON")
        self.assert_refused(put(0, 0, "k", 1) + "[]", 3, "no object")
        self.assert_refused(put(0, 0, "k", 1) + '{"Kind":0}', 3, '"ClientId" is missing')
        self.assert_refused(put(0, 0, "k", 1) + '{"ClientId":0}', 3, '"Id" is missing')

    def test_returns(self):
        call = event(0, 0, 5, {"op": "get", "key": "k"})
        for returned, what in (
            (event(0, 1, 6, {"value": 1}), "no call pending"),
            (event(1, 1, 5, {"value": 1}), "no call pending"),
            (event(0, 1, 5, {}), '"value" is missing'),
            (event(0, 1, 5, None), '"Value" is no object'),
            (event(0, 1, 5, {"value": 1.5}), "a fraction"),
            (event(0, 1, 5, {"unknown": True}), 'the field "unknown"'),
            (event(1, 0, 5, {"op": "get", "key": "k"}), "that of another call"),
            (event(0, 0, 5, {"op": "get", "key": "k"}), "that of another call"),
        ):
            with self.subTest(returned=returned):
                self.assert_refused(call + returned, 2, what)

    def test_a_return_after_the_client_called_again(self):
        text = event(0, 0, 5, {"op": "get", "key": "k"}) + get(0, 6, "k", "")
        self.assert_refused(text + event(0, 1, 5, {"value": 1}), 4, "one call at a time")
        self.assert_refused(text + event(1, 0, 5, {"op": "get", "key": "k"}), 4, "that of another call")

    def test_a_put_of_unknown_outcome(self):
        """A return says that the put was made: one that does not know it is none."""
        text = event(0, 0, 5, {"op": "put", "key": "k", "value": 1})
        self.assert_refused(text + event(0, 1, 5, {"unknown": True}), 2, 'the field "unknown"')
        self.assert_refused(text + event(0, 1, 5, "unknown"), 2, '"Value" is no object')


@needs_program
class Verdicts(ImporterCase):
    format, is_timed = "porcupine", True

    def test_healthy(self):
        text = get(1, 0, "k", "") + put(0, 1, "k", "v") + event(0, 0, 2, {"op": "put", "key": "k", "value": "w"}) + get(1, 3, "k", "v")
        self.assert_lines(text + get(1, 4, "k", "w") + get(0, 5, "k", "v"), "cc yes; cm yes; ccv yes")

    def test_a_value_that_comes_back(self):
        text = put(0, 0, "k", "v") + put(0, 1, "k", "w") + get(1, 2, "k", "w") + get(1, 3, "k", "v")
        self.assert_lines(text, "cc no WriteCORead; cm no WriteCORead; ccv no WriteCORead")


if __name__ == "__main__":
    unittest.main()
