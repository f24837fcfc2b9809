"""Tests what clients call: reads, writes and deletes, the rule for exceptions, and one call at a time, with each error."""

import unittest
from unittest import mock

from causal_judge import Recorder
from support import NO_NAMES, NO_VALUES, VALUES, ClientCase, Refused, Unreachable, events_of, raising


class Reads(ClientCase):
    def test_found(self):
        for value in (*VALUES, None):
            self.assertIs(self.alice.read("k", lambda value=value: value), value)
        events = events_of(self.log)
        self.assertEqual(events[::2], [["begin", "alice", ["r", "k"]]] * (len(VALUES) + 1))
        self.assertEqual([(event[2], type(event[2])) for event in events[1::2]], [(value, type(value)) for value in (*VALUES, None)])

    def test_no_value(self):
        """A read that found what is no value is lost, and the client goes on."""
        for value in NO_VALUES[1:]:
            with self.subTest(value=repr(value)), self.assertRaises((TypeError, ValueError)):
                self.alice.read("k", lambda value=value: value)
        with self.assertRaisesRegex(ValueError, "at most 1,000,000 bytes"):
            self.alice.read("k", lambda: "x" * 1_000_000)
        self.alice.read("k", lambda: "v")
        self.assertEqual(self.endings(), [["lost", "alice"]] * len(NO_VALUES) + [["end", "alice", "v"]])

    def test_ok_is_a_value(self):
        self.alice.read("k", lambda: "ok")
        self.assertEqual(self.endings(), [["end", "alice", "ok"]])


class Writes(ClientCase):
    def test_answer(self):
        answer = object()
        self.assertIs(self.alice.write("k", "v", lambda: answer), answer)
        self.assertEqual(events_of(self.log), [["begin", "alice", ["w", "k", "v"]], ["end", "alice", "ok"]])

    def test_no_form(self):
        """Nothing is recorded, and nothing called."""
        call, long = mock.Mock(), "x" * 1_000_000
        tried = [("k", value) for value in (*NO_VALUES, long)] + [(name, "v") for name in (*NO_NAMES, long)]
        for key, value in tried:
            with self.subTest(key=repr(key)[:20], value=repr(value)[:20]), self.assertRaises((TypeError, ValueError)):
                self.alice.write(key, value, call)
        for key in NO_NAMES:
            for method in (self.alice.read, self.alice.delete, self.alice.retry):
                with self.assertRaises((TypeError, ValueError)):
                    method(key, call)
        self.assertEqual((call.mock_calls, events_of(self.log)), ([], []))

    def test_awaitable(self):
        """A call that only gives something to await was not made: neither a write nor a read of it is taken for answered."""

        async def put():
            return None

        for method, given in ((self.alice.write, ("k", "v")), (self.alice.read, ("k",)), (self.alice.delete, ("k",))):
            coroutine = put()
            with self.assertRaisesRegex(TypeError, "record it with async_client"):
                method(*given, lambda coroutine=coroutine: coroutine)
            coroutine.close()
        self.assertEqual(self.endings(), [["lost", "alice"]] * 3)


class Deletes(ClientCase):
    def test_deletes(self):
        self.assertEqual(self.alice.delete("k", lambda: 0), 0)
        self.assertEqual(self.alice.delete("k", lambda: 1, found=bool), 1)
        self.assertEqual(self.alice.delete("k", lambda: 0, found=bool), 0)
        self.assertEqual(events_of(self.log)[0], ["begin", "alice", ["d", "k"]])
        self.assertEqual(self.endings(), [["end", "alice", "ok"]] * 2 + [["fail", "alice"]])

    def test_found_that_raises(self):
        """Its exception is not one of the store: the rule is not asked, and the delete may have taken effect."""
        with self.assertRaises(Refused):
            self.alice.delete("k", lambda: 1, found=raising(Refused()))
        self.assertEqual(self.endings(), [["lost", "alice"]])


class Rules(ClientCase):
    def outcome(self, error, **how):
        """What is recorded of a call that raises, by a client with a rule."""
        with self.assertRaises(type(error)) as raised:
            self.recorder.client("bob", **how).write("k", "v", raising(error))
        self.assertIs(raised.exception, error)
        return events_of(self.log)[-1][0]

    def test_class(self):
        self.assertEqual(self.outcome(Refused()), "fail")
        self.assertEqual(self.outcome(Unreachable()), "lost")
        self.assertEqual(self.outcome(KeyboardInterrupt()), "lost")

    def test_rule_of_a_client(self):
        self.assertEqual(self.outcome(Refused(), fails=()), "lost")
        self.assertEqual(self.outcome(Unreachable(), fails=(Refused, Unreachable)), "fail")
        self.assertEqual(self.outcome(KeyError(), fails=LookupError), "fail")

    def test_function(self):
        def is_refusal(error):
            return error.args == ("refused",)

        self.assertEqual(self.outcome(OSError("refused"), fails=is_refusal), "fail")
        self.assertEqual(self.outcome(OSError("reset"), fails=is_refusal), "lost")

    def test_function_that_raises(self):
        with self.assertRaises(ZeroDivisionError) as raised:
            self.recorder.client("bob", fails=lambda error: 1 / 0).write("k", "v", raising(Unreachable()))
        self.assertIsInstance(raised.exception.__context__, Unreachable)
        self.assertEqual(self.endings(), [["lost", "bob"]])

    def test_default(self):
        with Recorder(self.folder / "other.jsonl") as recorder:
            for error in (Refused(), ConnectionRefusedError(), ValueError()):
                with self.assertRaises(type(error)):
                    recorder.client("a").read("k", raising(error))
        self.assertEqual([event[0] for event in events_of(self.folder / "other.jsonl")], ["begin", "lost"] * 3)

    def test_reads_and_deletes(self):
        for method in (self.alice.read, self.alice.delete):
            for error in (Refused(), Unreachable()):
                with self.assertRaises(type(error)):
                    method("k", raising(error))
        self.assertEqual([event[0] for event in self.endings()], ["fail", "lost"] * 2)

    def test_bad_rule_and_name(self):
        for method in (self.recorder.client, self.recorder.async_client):
            with self.assertRaises(TypeError):
                method("bob", fails=5)
            for name in NO_NAMES:
                with self.assertRaises((TypeError, ValueError)):
                    method(name)


class OneCallAtATime(ClientCase):
    def test_second_call(self):
        for other in (self.alice, self.recorder.client("alice"), self.recorder.async_client("alice")):
            with self.assertRaisesRegex(RuntimeError, "one at a time"):
                self.alice.write("k", "v", lambda other=other: other.begin_read("k"))
        self.assertEqual(self.words(), ["begin", "lost"] * 3)
        self.alice.read("k", lambda: self.recorder.client("bob").read("k", lambda: None))

    def test_leaving_a_block(self):
        with self.recorder.client("bob") as bob:
            pending = bob.begin_write("k", "v")
        self.assertEqual(events_of(self.log)[-1], ["lost", "bob"])
        with self.assertRaisesRegex(RuntimeError, "its block was left"):
            bob.begin_read("k")
        with self.assertRaisesRegex(RuntimeError, "ends once"):
            pending.end()
        self.recorder.client("bob").read("k", lambda: None)

    def test_leaving_a_block_by_an_exception(self):
        with self.assertRaises(Refused), self.recorder.client("bob") as bob:
            bob.begin_write("k", "v")
            raise Refused
        self.assertEqual(events_of(self.log)[-1], ["lost", "bob"])

    def test_leaving_a_block_after_the_recorder(self):
        with self.recorder.client("bob") as bob:
            bob.begin_write("k", "v")
            self.recorder.close()
        self.assertEqual(self.words(), ["begin"])

    def test_call_that_outlives_the_recorder(self):
        """The exception of the store is the one that is raised."""

        def close():
            self.recorder.close()
            raise Unreachable

        with self.assertRaises(Unreachable):
            self.alice.write("k", "v", close)
        self.assertEqual(self.words(), ["begin"])


if __name__ == "__main__":
    unittest.main()
