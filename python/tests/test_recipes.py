"""Tests how special calls are recorded: compare-and-sets, new connections, answers of another type, and deletes that find nothing."""

import asyncio
import unittest

from causal_judge import Recorder
from support import ClientCase, FolderCase, Refused, Unreachable, events_of, needs_program, raising, verdicts_of, write_log

WRITE = ["w", "k", "v2"]


async def answer(value=None):
    """A call that is answered later."""
    await asyncio.sleep(0)
    return value


class CompareAndSets(ClientCase):
    def outcome(self, call, **how):
        """What is recorded of a compare-and-set: its last event. Its begin is a write of the new value."""
        begun = len(events_of(self.log))
        try:
            self.alice.compare_and_set("k", "v2", call, **how)
        finally:
            events = events_of(self.log)[begun:]
            self.assertEqual((len(events), events[0]), (2, ["begin", "alice", WRITE]))
        return events[1]

    def test_begins_before_the_call(self):
        self.assertEqual(self.alice.compare_and_set("k", "v2", lambda: len(events_of(self.log))), 1)
        self.assertEqual(self.endings(), [["end", "alice", "ok"]])

    def test_answers(self):
        for given, due in ((True, ["end", "alice", "ok"]), (1, ["end", "alice", "ok"]), (False, ["fail", "alice"]), (0, ["fail", "alice"])):
            with self.subTest(given=given):
                self.assertEqual(self.outcome(lambda given=given: given), due)

    def test_done(self):
        """Of an answer that is no truth by itself: whether the call wrote, or None where nobody knows."""
        for given, due in (("stored", ["end", "alice", "ok"]), ("not stored", ["fail", "alice"]), ("timed out", ["lost", "alice"])):
            with self.subTest(given=given):
                self.assertEqual(self.outcome(lambda given=given: given, done={"stored": True, "not stored": False}.get), due)
        self.assertEqual(self.outcome(lambda: None, done=bool), ["fail", "alice"])

    def test_a_call_that_returns_nothing(self):
        """It may have written: it is not taken for refused."""
        with self.assertRaisesRegex(TypeError, "return whether it wrote"):
            self.alice.compare_and_set("k", "v2", lambda: None)
        self.assertEqual(self.endings(), [["lost", "alice"]])

    def test_exceptions(self):
        for error, due in ((Refused(), "fail"), (Unreachable(), "lost"), (KeyboardInterrupt(), "lost")):
            with self.assertRaises(type(error)):
                self.alice.compare_and_set("k", "v2", raising(error))
            self.assertEqual(events_of(self.log)[-1], [due, "alice"])
        with self.assertRaises(ZeroDivisionError):
            self.alice.compare_and_set("k", "v2", lambda: True, done=lambda answer: 1 / 0)
        self.assertEqual(events_of(self.log)[-1], ["lost", "alice"])

    def test_by_hand(self):
        for end, due in (
            (lambda call: call.end(), "end"),
            (lambda call: call.fail(), "fail"),
            (lambda call: call.lost(), "lost"),
            (lambda call: call.settle("yes", {"yes": True}.get), "end"),
            (lambda call: call.settle("no", {"no": False}.get), "fail"),
            (lambda call: call.settle("perhaps", {}.get), "lost"),
        ):
            call = self.alice.begin_write("k", "v2")
            end(call)
            self.assertEqual((call.outcome, events_of(self.log)[-1][0]), (due, due))

    def test_awaited(self):
        bob = self.recorder.async_client("bob")

        async def calls():
            self.assertIs(await bob.compare_and_set("k", "v2", lambda: answer(True)), True)
            self.assertIs(await bob.compare_and_set("k", "v3", lambda: answer(False)), False)
            self.assertEqual(await bob.compare_and_set("k", "v4", lambda: answer("?"), done={}.get), "?")
            with self.assertRaises(TypeError):
                await bob.compare_and_set("k", "v5", answer)
            with self.assertRaises(asyncio.TimeoutError):
                await asyncio.wait_for(bob.compare_and_set("k", "v6", lambda: asyncio.sleep(60, True)), 0.01)

        asyncio.run(calls())
        self.assertEqual([event[2] for event in events_of(self.log)[::2]], [["w", "k", f"v{number}"] for number in range(2, 7)])
        self.assertEqual([event[0] for event in self.endings()], ["end", "fail", "lost", "lost", "lost"])

    def test_decorator(self):
        """The write begins before the call. What it compares with, and what it returns, is the function's own."""
        store = {"k": "v1"}

        @self.alice.compares_and_sets
        def swap(key, value, expected, *, notes=()):
            """Swaps."""
            self.assertEqual(events_of(self.log)[-1], ["begin", "alice", ["w", key, value]])
            is_met = store.get(key) == expected
            store.update({key: value} if is_met else {})
            return ["written", *notes] if is_met else []

        self.assertEqual((swap.__name__, swap.__doc__), ("swap", "Swaps."))
        answers = swap("k", "v2", "v1", notes=["n1"]), swap("k", "v3", "v1"), swap("l", "v4", None)
        self.assertEqual(answers, (["written", "n1"], [], ["written"]))
        self.assertEqual([event[2] for event in events_of(self.log)[::2]], [["w", "k", "v2"], ["w", "k", "v3"], ["w", "l", "v4"]])
        self.assertEqual(self.endings(), [["end", "alice", "ok"], ["fail", "alice"], ["end", "alice", "ok"]])

    def test_decorator_and_done(self):
        """Of an answer that is no truth by itself; and without `done` a call that returns nothing is lost."""
        said = iter(("stored", "not stored", "timed out", None))
        swap = self.alice.compares_and_sets(lambda key, value: next(said), done={"stored": True, "not stored": False}.get)
        self.assertEqual([swap("k", number) for number in range(3)], ["stored", "not stored", "timed out"])
        with self.assertRaisesRegex(TypeError, "return whether it wrote"):
            self.alice.compares_and_sets(lambda key, value: next(said))("k", 3)
        self.assertEqual([event[0] for event in self.endings()], ["end", "fail", "lost", "lost"])

    def test_decorator_and_exceptions(self):
        for error, due in ((Refused(), "fail"), (Unreachable(), "lost")):
            with self.assertRaises(type(error)):
                self.alice.compares_and_sets(raising(error))("k", "v2", "v1")
            self.assertEqual(events_of(self.log)[-2:], [["begin", "alice", WRITE], [due, "alice"]])
        with self.assertRaises(TypeError):
            self.alice.compares_and_sets(raising(AssertionError("called")))("k", b"v2", "v1")
        self.assertEqual(len(events_of(self.log)), 4)

    def test_decorator_and_awaited(self):
        bob = self.recorder.async_client("bob")

        async def swap(key, value, expected, *, seconds=0):
            """Swaps."""
            await asyncio.sleep(seconds)
            return expected

        async def calls():
            recorded, told = bob.compares_and_sets(swap), bob.compares_and_sets(swap, done={}.get)
            self.assertEqual((recorded.__name__, recorded.__doc__), ("swap", "Swaps."))
            answers = await recorded("k", "v2", True), await recorded("k", "v3", False), await told("k", "v4", "?")
            self.assertEqual(answers, (True, False, "?"))
            with self.assertRaises(TypeError):
                await recorded("k", "v5", None)
            with self.assertRaises(asyncio.TimeoutError):
                await asyncio.wait_for(recorded("k", "v6", True, seconds=60), 0.01)

        asyncio.run(calls())
        self.assertEqual([event[2] for event in events_of(self.log)[::2]], [["w", "k", f"v{number}"] for number in range(2, 7)])
        self.assertEqual([event[0] for event in self.endings()], ["end", "fail", "lost", "lost", "lost"])

    @needs_program
    def test_a_log_that_ends_before_the_answer(self):
        """Others read what the call wrote. As a read and a write that follow the answer, it is a value that nobody wrote."""
        self.recorder.client("bob").write("k", "v1", lambda: None)
        self.alice.compare_and_set("k", "v2", lambda: self.recorder.client("bob").read("k", lambda: "v2") == "v2")
        events = events_of(self.log)
        cut = [write_log(self.folder / f"{size}.jsonl", events[:size]) for size in range(len(events) + 1)]
        old = [*events[:2], *events[3:5]]
        *verdicts, blamed = verdicts_of([*cut, write_log(self.folder / "old.jsonl", old)])
        self.assertEqual([verdict.unmet() for verdict in verdicts], [()] * len(cut))
        self.assertEqual(str(blamed.cc), "cc no ThinAirRead")


class Reconnected(ClientCase):
    def names(self):
        return [event[1] for event in events_of(self.log) if event[0] == "begin"]

    def test_a_new_client(self):
        client = self.alice
        for _ in range(3):
            client.write("k", client.new_value(), lambda: None)
            client = client.reconnected()
        self.assertEqual([event[1:] for event in events_of(self.log)[::2]], [[name, ["w", "k", f"{name}.1"]] for name in self.names()])
        self.assertEqual((self.names(), client.name), (["alice", "alice#2", "alice#3"], "alice#4"))

    def test_the_old_client_is_over(self):
        pending = self.alice.begin_write("k", "v")
        self.alice.reconnected().read("k", lambda: "v")
        self.assertEqual(self.words(), ["begin", "lost", "begin", "end"])
        with self.assertRaisesRegex(RuntimeError, "'alice' is over: it goes on as 'alice#2'"):
            self.alice.read("k", lambda: None)
        with self.assertRaisesRegex(RuntimeError, "ends once"):
            pending.end()

    def test_after_a_block(self):
        """A block for each connection. A stale client gives one more, and never one that is there."""
        with self.alice as connection:
            connection.read("k", lambda: None)
        with self.alice.reconnected() as connection:
            connection.read("k", lambda: None)
        self.assertEqual([self.alice.reconnected().name, connection.reconnected().name, connection.name], ["alice#3", "alice#4", "alice#2"])
        with self.assertRaisesRegex(RuntimeError, "its block was left"):
            self.alice.read("k", lambda: None)

    def test_names_that_are_there(self):
        for name in ("alice#3", "alice#x", 7, "7", "#2", "5#0", ""):
            self.recorder.client(name)
        self.assertEqual(self.alice.reconnected().reconnected().name, "alice#4")
        for name, due in ((7, "7#2"), ("7", "7#3"), ("alice#x", "alice#x#2"), ("#2", "#3"), ("5#0", "5#0#2"), ("", "#4")):
            self.assertEqual(self.recorder.async_client(name).reconnected().name, due)

    def test_after_the_log_was_opened_again(self):
        client = self.alice
        for _ in range(3):
            client.read("k", lambda: None)
            client = client.reconnected()
        self.recorder.close()
        with Recorder(self.log) as recorder:
            recorder.client("alice#5")
            self.assertEqual(recorder.client("alice").reconnected().name, "alice#4")
            self.assertEqual(recorder.client("alice").reconnected().name, "alice#6")

    def test_rules_go_along(self):
        rules = {"fails": Unreachable, "answers": int}
        for client in (self.recorder.client("bob", **rules), self.recorder.async_client("carol", **rules)):
            after = client.reconnected()
            self.assertIs(type(after), type(client))
            after.begin_read("k").end("5")
            after.begin_read("k").end_by(Unreachable())
            self.assertEqual(self.endings()[-2:], [["end", after.name, 5], ["fail", after.name]])

    def test_closed_recorder(self):
        self.recorder.close()
        with self.assertRaisesRegex(RuntimeError, "is closed"):
            self.alice.reconnected()

    @needs_program
    def test_another_replica_lags_behind(self):
        """Alice's second connection goes to a replica without her write. That breaks a session, and not two."""
        logs = []
        for is_new in (False, True):
            logs.append(self.folder / f"{is_new}.jsonl")
            with Recorder(logs[-1]) as recorder:
                client = recorder.client("alice")
                client.write("k", "v1", lambda: None)
                with self.assertRaises(Unreachable):
                    client.write("l", "v2", raising(Unreachable()))
                client = client.reconnected() if is_new else client
                client.read("k", lambda: None)
        self.assertEqual([str(verdict.cc) for verdict in verdicts_of(logs)], ["cc no WriteCOInitRead", "cc yes"])


class Answers(FolderCase):
    """Of a store that answers texts, and nothing by None."""

    def recorded(self, make_client, **how):
        """What the log has of the answers to a client's reads: of "5", of None, of "7" through a decorator, and of "9" by hand."""
        with Recorder(self.log, **how) as recorder:
            client = make_client(recorder)
            self.assertEqual((client.read("k", lambda: "5"), client.read("k", lambda: None)), ("5", None))
            self.assertEqual(client.reads({"k": "7"}.get)("k"), "7")
            client.begin_read("k").end("9")
        return [event[2] for event in events_of(self.log) if event[0] == "end"]

    def test_of_a_recorder(self):
        """The log has numbers, and the caller gets what the store answered. Nothing stays nothing."""
        self.assertEqual(self.recorded(lambda recorder: recorder.client("alice"), answers=int), [5, None, 7, 9])

    def test_of_a_client(self):
        made = self.recorded(lambda recorder: recorder.client("alice", answers=lambda text: f"<{text}>"), answers=int)
        self.assertEqual(made, ["<5>", None, "<7>", "<9>"])

    def test_no_rule(self):
        self.assertEqual(self.recorded(lambda recorder: recorder.client("alice")), ["5", None, "7", "9"])

    def test_a_rule_that_finds_nothing(self):
        """Where a store answers an empty text for nothing."""
        made = self.recorded(lambda recorder: recorder.client("alice"), answers=lambda text: None if text == "5" else text)
        self.assertEqual(made, [None, None, "7", "9"])

    def test_awaited(self):
        with Recorder(self.log, answers=bytes.decode) as recorder:
            alice = recorder.async_client("alice")

            async def calls():
                self.assertEqual((await alice.read("k", lambda: answer(b"5")), await alice.read("k", answer)), (b"5", None))
                self.assertEqual(await alice.reads(lambda key: answer(b"7"))("k"), b"7")

            asyncio.run(calls())
        self.assertEqual([event[2:] for event in events_of(self.log) if event[0] != "begin"], [["5"], [None], ["7"]])

    def test_an_answer_that_fits_no_rule(self):
        """It is lost, and its exception is raised, also where the client's rule for exceptions names it."""
        with Recorder(self.log, answers=int, fails=ValueError) as recorder:
            alice = recorder.client("alice")
            for found, error in (("x", ValueError), ([], TypeError)):
                with self.assertRaises(error):
                    alice.read("k", lambda found=found: found)
            alice.read("k", lambda: " 5 ")
        self.assertEqual([event[0] for event in events_of(self.log)], ["begin", "lost", "begin", "lost", "begin", "end"])

    def test_writes_and_deletes_are_not_asked(self):
        with Recorder(self.log, answers=raising(AssertionError())) as recorder:
            alice = recorder.client("alice")
            alice.write("k", 1, lambda: "OK")
            alice.delete("k", lambda: "1")
            alice.compare_and_set("k", 2, lambda: "1")
        self.assertEqual([event[0] for event in events_of(self.log)], ["begin", "end"] * 3)

    def test_bad_rules(self):
        for rule in (5, "int"):
            with self.assertRaisesRegex(TypeError, "answers is a function"):
                Recorder(self.log, answers=rule)
        self.assertFalse(self.log.exists())
        with Recorder(self.log) as recorder:
            for method in (recorder.client, recorder.async_client):
                with self.assertRaisesRegex(TypeError, "answers is a function"):
                    method("alice", answers=5)

    @needs_program
    def test_numbers_that_come_back_as_texts(self):
        logs = [self.folder / f"{number}.jsonl" for number in range(2)]
        for log, how in zip(logs, ({}, {"answers": int})):
            store = {}
            with Recorder(log, **how) as recorder:
                recorder.client("alice").write("k", 1, lambda store=store: store.update(k="1"))
                recorder.client("bob").read("k", lambda store=store: store.get("k"))
        self.assertEqual([str(verdict.cc) for verdict in verdicts_of(logs)], ["cc no ThinAirRead", "cc yes"])


class Deletes(ClientCase):
    def test_what_a_delete_changed(self):
        """It deleted, it changed nothing on any replica, and nobody knows."""
        for changed, due in ((True, "end"), (1, "end"), (False, "fail"), (0, "fail"), (None, "lost")):
            with self.subTest(changed=changed):
                self.alice.delete("k", lambda: "answer", found=lambda answer, changed=changed: changed)
                self.assertEqual(events_of(self.log)[-2:][0], ["begin", "alice", ["d", "k"]])
                self.assertEqual(events_of(self.log)[-1][0], due)

    def test_decorator_and_awaited(self):
        unknown = {0: None, 1: True}.get
        drop = self.alice.deletes(lambda key: 0, found=unknown)
        later = self.recorder.async_client("alice").deletes(lambda key: answer(0), found=unknown)
        self.assertEqual((drop("k"), asyncio.run(later("k"))), (0, 0))
        self.assertEqual(self.endings(), [["lost", "alice"]] * 2)

    @needs_program
    def test_a_tombstone(self):
        """Alice's replica has not got Bob's write yet. Her delete finds nothing there, and leaves a tombstone that wins at his."""
        logs = []
        for found in (bool, lambda count: None, lambda count: True):
            logs.append(self.folder / f"{len(logs)}.jsonl")
            with Recorder(logs[-1]) as recorder:
                alice, bob = recorder.client("alice"), recorder.client("bob")
                bob.write("k", "v", lambda: None)
                alice.delete("k", lambda: 0, found=found)
                bob.read("k", lambda: None)
        self.assertEqual([str(verdict.cc) for verdict in verdicts_of(logs)], ["cc no WriteCOInitRead", "cc yes", "cc yes"])

    @needs_program
    def test_a_delete_that_changed_nothing(self):
        """Alice sees Bob's value go by Carol's delete, and deletes nothing. Dave's replica took Carol's delete before Bob's write."""
        logs = []
        for found in (lambda count: True, lambda count: None, bool):
            logs.append(self.folder / f"{len(logs)}.jsonl")
            with Recorder(logs[-1]) as recorder:
                alice, bob, carol, dave = map(recorder.client, ("alice", "bob", "carol", "dave"))
                bob.write("k", "v", lambda: None)
                carol.delete("k", lambda: 1, found=found)
                alice.read("k", lambda: "v")
                alice.delete("k", lambda: 0, found=found)
                alice.write("l", "w", lambda: None)
                dave.read("l", lambda: "w")
                dave.read("k", lambda: "v")
        self.assertEqual([str(verdict.cc) for verdict in verdicts_of(logs)], ["cc no WriteCORead", "cc yes", "cc yes"])


if __name__ == "__main__":
    unittest.main()
