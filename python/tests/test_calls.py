"""Tests calls that end apart from their begin, retries, decorators and new values."""

import asyncio
import threading
import time
import unittest
from unittest import mock

from support import ClientCase, Refused, Unreachable, events_of, raising, run_threads


class Calls(ClientCase):
    def test_ends(self):
        for begin, ending, due in (
            (lambda: self.alice.begin_write("k", 1), lambda call: call.end(), ["end", "alice", "ok"]),
            (lambda: self.alice.begin_delete("k"), lambda call: call.end(), ["end", "alice", "ok"]),
            (lambda: self.alice.begin_read("k"), lambda call: call.end(5), ["end", "alice", 5]),
            (lambda: self.alice.begin_read("k"), lambda call: call.end(None), ["end", "alice", None]),
            (lambda: self.alice.begin_read("k"), lambda call: call.fail(), ["fail", "alice"]),
            (lambda: self.alice.begin_write("k", 1), lambda call: call.lost(), ["lost", "alice"]),
        ):
            call = begin()
            self.assertEqual((call.name, call.outcome), ("alice", None))
            ending(call)
            self.assertEqual((events_of(self.log)[-1], call.outcome), (due, due[0]))
            for again in (lambda: ending(call), call.fail, call.lost):
                with self.assertRaisesRegex(RuntimeError, "ends once"):
                    again()

    def test_ends_that_do_not_fit(self):
        """They record nothing, and the call is still pending."""
        write = self.alice.begin_write("k", 1)
        for found in ((1,), (None,), ("ok",)):
            with self.assertRaisesRegex(TypeError, "without a value"):
                write.end(*found)
        write.end()
        read = self.alice.begin_read("k")
        for found in ((), (1, 2)):
            with self.assertRaisesRegex(TypeError, "one value, or None"):
                read.end(*found)
        read.end(1)
        self.assertEqual(self.words(), ["begin", "end"] * 2)

    def test_end_with_no_value(self):
        read = self.alice.begin_read("k")
        with self.assertRaises(TypeError):
            read.end(b"")
        self.assertEqual((read.outcome, self.endings()), ("lost", [["lost", "alice"]]))

    def test_late_end_of_an_old_call(self):
        first = self.alice.begin_write("k", 1)
        first.lost()
        second = self.alice.begin_write("k", 2)
        with self.assertRaisesRegex(RuntimeError, "ends once"):
            first.end()
        second.end()

    def test_end_in_another_thread(self):
        call = self.alice.begin_read("k")
        thread = threading.Thread(target=call.end, args=(5,))
        thread.start()
        thread.join()
        self.assertEqual(self.endings(), [["end", "alice", 5]])

    def test_end_by_an_exception(self):
        """As a callback has it: by the rule, once, and nothing where the call has ended."""
        for error, due in ((Refused(), "fail"), (Unreachable(), "lost"), (KeyboardInterrupt(), "lost")):
            call = self.alice.begin_write("k", 1)
            call.end_by(error)
            call.end_by(Refused())
            self.assertEqual((call.outcome, self.endings()[-1]), (due, [due, "alice"]))
        call = self.recorder.client("bob", fails=lambda error: error.code == 5).begin_write("k", 1)
        with self.assertRaises(AttributeError):
            call.end_by(Refused())
        self.assertEqual(call.outcome, "lost")

    def test_block(self):
        with self.alice.begin_write("k", 1) as call:
            call.end()
        with self.alice.begin_write("k", 2) as call:
            pass
        self.assertIsNone(call.outcome)
        call.lost()
        for error in (Refused(), Unreachable()):
            with self.assertRaises(type(error)), self.alice.begin_write("k", 3):
                raise error
        with self.assertRaises(Refused), self.alice.begin_write("k", 4) as call:
            call.end()
            raise Refused
        self.assertEqual([event[0] for event in self.endings()], ["end", "lost", "fail", "lost", "end"])


class Retries(ClientCase):
    def retried(self, errors, **how):
        """The values that a retry sent, where its tries raise these errors, or answer where there is none."""
        sent, errors = [], iter(errors)

        def call(value):
            sent.append(value)
            error = next(errors)
            if error:
                raise error
            return "done"

        try:
            self.assertEqual(self.alice.retry("k", call, **how), "done")
        except (Refused, Unreachable, KeyboardInterrupt, OSError) as error:
            sent.append(type(error))
        return sent

    def test_first_try(self):
        self.assertEqual(self.retried([None]), ["alice.1"])
        self.assertEqual(events_of(self.log), [["begin", "alice", ["w", "k", "alice.1"]], ["end", "alice", "ok"]])

    def test_later_try(self):
        self.assertEqual(self.retried([Unreachable(), Unreachable(), None]), ["alice.1", "alice.2", "alice.3"])
        self.assertEqual([event[2][2] for event in events_of(self.log)[::2]], ["alice.1", "alice.2", "alice.3"])
        self.assertEqual([event[0] for event in self.endings()], ["lost", "lost", "end"])

    def test_last_try(self):
        self.assertEqual(self.retried([Unreachable()] * 3), ["alice.1", "alice.2", "alice.3", Unreachable])
        self.assertEqual(self.retried([Unreachable()] * 3, tries=1), ["alice.4", Unreachable])
        self.assertEqual([event[0] for event in self.endings()], ["lost"] * 4)

    def test_failure_is_raised_at_once(self):
        self.assertEqual(self.retried([Unreachable(), Refused()]), ["alice.1", "alice.2", Refused])
        self.assertEqual([event[0] for event in self.endings()], ["lost", "fail"])

    def test_interrupt_is_raised_at_once(self):
        self.assertEqual(self.retried([KeyboardInterrupt()]), ["alice.1", KeyboardInterrupt])
        self.assertEqual(self.endings(), [["lost", "alice"]])

    def test_log_that_can_not_be_written(self):
        """The exception of the log is raised, and no other try is made."""
        patch = mock.patch("os.write", side_effect=OSError("no room"))

        def call(value):
            patch.start()
            raise Unreachable

        self.addCleanup(mock.patch.stopall)
        with self.assertRaisesRegex(OSError, "no room"):
            self.alice.retry("k", call)
        mock.patch.stopall()
        self.assertEqual(self.words(), ["begin"])

    def test_values(self):
        values = iter([5, 6])
        self.assertEqual(self.retried([Unreachable(), None], make_value=lambda: next(values)), [5, 6])
        with self.assertRaises(TypeError):
            self.alice.retry("k", lambda value: None, make_value=lambda: None)

    def test_tries(self):
        for tries in (0, -1):
            with self.assertRaisesRegex(ValueError, "once at least"):
                self.alice.retry("k", lambda value: None, tries=tries)
        self.assertEqual(self.words(), [])

    def test_pause(self):
        for pause, due in ((0.5, [0.5, 0.5]), (lambda number: number * 2.0, [2.0, 4.0])):
            with mock.patch.object(time, "sleep") as sleep:
                self.retried([Unreachable()] * 2 + [None], pause=pause)
            self.assertEqual([call.args[0] for call in sleep.mock_calls], due)


class Decorators(ClientCase):
    def test_decorators(self):
        store = {}

        @self.alice.writes
        def put(key, value, *, flag=False):
            """Puts."""
            store[key] = value
            return flag

        get = self.alice.reads(store.get)
        drop = self.alice.deletes(lambda key, other: store.pop(key, other), found=lambda answer: answer is not None)
        self.assertEqual((put.__name__, put.__doc__), ("put", "Puts."))
        self.assertEqual((put("k", "v", flag=True), get("k"), get("l", "w"), drop("k", None), drop("k", None)), (True, "v", "w", "v", None))
        called = [["w", "k", "v"], ["r", "k"], ["r", "l"], ["d", "k"], ["d", "k"]]
        self.assertEqual([event[2] for event in events_of(self.log)[::2]], called)
        self.assertEqual([event[0] for event in self.endings()], ["end"] * 4 + ["fail"])

    def test_exceptions(self):
        with self.assertRaises(Refused):
            self.alice.writes(raising(Refused()))("k", "v")
        self.assertEqual(self.endings(), [["fail", "alice"]])


class NewValues(ClientCase):
    def test_new_in_the_run(self):
        clients = [self.recorder.client(name) for name in ("alice", "bob", 1, "1", "'1", "alice.1", "é")]
        values = [client.new_value() for client in clients * 20]
        self.assertEqual(len(set(values)), len(values))
        self.assertEqual(self.recorder.async_client("alice").new_value(), "alice.21")

    def test_threads(self):
        found = []
        run_threads([threading.Thread(target=lambda: found.extend(self.alice.new_value() for _ in range(500))) for _ in range(8)])
        self.assertEqual(len(set(found)), 4000)


class NoLoop(ClientCase):
    def test_async_client_needs_no_asyncio(self):
        """Where nothing has to wait, any event loop will do, or none."""

        async def answer(value="v"):
            return value

        client = self.recorder.async_client("bob")

        async def calls():
            await client.retry("k", answer)
            return await client.read("k", answer)

        coroutine = calls()
        with self.assertRaises(StopIteration) as stopped:
            coroutine.send(None)
        self.assertEqual(stopped.exception.value, "v")
        self.assertEqual(asyncio.run(client.delete("k", answer)), "v")


if __name__ == "__main__":
    unittest.main()
