"""Tests notes: which there are, how they stand in a line, and that a log with notes is read, gone on with and joined."""

import asyncio
import io
import unittest

from causal_judge import LogError, Recorder, merge
from causal_judge.events import line_of, read_log
from causal_judge.notes import check_note, given, note_of, noted
from support import ClientCase, FolderCase, Refused, Unreachable, events_of, raising, write_log

NOTES = (0, "", "n1", 1.5, -(2**80), 1e299, True, False, [], {}, {"server": "n1", "at": [17.25, None]}, ("a", "b"), [[[]]], "\u2028\x00")
NO_NOTES = (b"n1", object(), {1: "a"}, {"a": {2}}, float("nan"), float("inf"), [-(10**301)], {None: 1}, range(3))
WRITTEN = (["begin", "a", ["w", "k", 1]], ["begin", "a", ["r", "k"]], ["begin", "a", ["d", "k"]])
ENDS = (["end", "a", "ok"], ["fail", "a"], ["lost", "a"])


def nested(depth):
    """Lists in lists, so many."""
    note = []
    for _ in range(depth - 1):
        note = [note]
    return note


class Notes(unittest.TestCase):
    def test_notes(self):
        for note in NOTES:
            for event in (*WRITTEN, *ENDS):
                with_note = noted(event, note)
                self.assertEqual((with_note, note_of(with_note)), ([*event, note], note))
                ((_, found),) = read_log(io.BytesIO(line_of(with_note)))
                self.assertEqual(found[:-1], event)
                self.assertEqual(found[-1], list(note) if isinstance(note, tuple) else note)

    def test_none_is_no_note(self):
        for event in (*WRITTEN, *ENDS, ["start", "k", 1]):
            self.assertEqual((noted(event, None), note_of(event)), (event, None))

    def test_no_notes(self):
        for note in NO_NOTES:
            for held in (note, [note], {"at": note}):
                with self.subTest(note=held), self.assertRaises((TypeError, ValueError)) as raised:
                    noted(ENDS[0], held)
                self.assertIn("as a text", str(raised.exception))

    def test_depth(self):
        check_note(nested(50))
        endless = []
        endless.append(endless)
        for note in (nested(51), endless):
            with self.assertRaisesRegex(ValueError, "at most 50 deep"):
                check_note(note)

    def test_functions(self):
        self.assertEqual((given(lambda: "n1"), given("n1"), given(None)), ("n1", "n1", None))


class Calls(ClientCase):
    """A value stands in the line of the begin, and what a function gives in that of the end."""

    def test_each_method(self):
        """Of functions and of coroutines."""
        carol = self.recorder.async_client("alice")

        async def awaited(answer):
            return answer

        made = (
            (self.alice.write, ("k", 1), lambda: None, ["w", "k", 1], ["end", "alice", "ok"]),
            (self.alice.compare_and_set, ("k", 1), lambda: False, ["w", "k", 1], ["fail", "alice"]),
            (self.alice.read, ("k",), lambda: 1, ["r", "k"], ["end", "alice", 1]),
            (self.alice.delete, ("k",), lambda: None, ["d", "k"], ["end", "alice", "ok"]),
            (carol.write, ("k", 1), lambda: awaited(None), ["w", "k", 1], ["end", "alice", "ok"]),
            (carol.compare_and_set, ("k", 1), lambda: awaited(False), ["w", "k", 1], ["fail", "alice"]),
            (carol.read, ("k",), lambda: awaited(None), ["r", "k"], ["end", "alice", None]),
            (carol.delete, ("k",), lambda: awaited(None), ["d", "k"], ["end", "alice", "ok"]),
        )
        for method, given_to, call, begun, ended in made:
            for note, due in (("n1", (["n1"], [])), (lambda: ["n1"], ([], [["n1"]])), (None, ([], [])), (lambda: None, ([], []))):
                answer = method(*given_to, call, note=note)
                asyncio.run(answer) if asyncio.iscoroutine(answer) else None
                self.assertEqual(events_of(self.log)[-2:], [["begin", "alice", begun, *due[0]], [*ended, *due[1]]])

    def test_retry(self):
        """Each try has a note of its own."""
        servers = iter(("n1", "n2"))
        calls = iter((raising(Unreachable()), lambda value: value))
        self.alice.retry("k", lambda value: next(calls)(value), note=lambda: next(servers))
        carol, tries = self.recorder.async_client("carol"), iter((raising(Unreachable()), lambda value: asyncio.sleep(0)))
        asyncio.run(carol.retry("k", lambda value: next(tries)(value), note={"server": 3}))
        due = [["lost", "alice", "n1"], ["end", "alice", "ok", "n2"], ["lost", "carol"], ["end", "carol", "ok"]]
        self.assertEqual(self.endings(), due)
        self.assertEqual([event[3:] for event in events_of(self.log) if event[0] == "begin"], [[], [], [{"server": 3}], [{"server": 3}]])

    def test_calls_that_end_apart(self):
        for begin, end, due in (
            (lambda: self.alice.begin_write("k", 1, note=1), lambda call: call.end(note=2), [[1], [2]]),
            (lambda: self.alice.begin_read("k", note=1), lambda call: call.end(5), [[1], []]),
            (lambda: self.alice.begin_read("k", note=lambda: 2), lambda call: call.end(5), [[], [2]]),
            (lambda: self.alice.begin_read("k", note=lambda: 2), lambda call: call.end(5, note=3), [[], [3]]),
            (lambda: self.alice.begin_delete("k", note=lambda: 2), lambda call: call.lost(lambda: 3), [[], [3]]),
            (lambda: self.alice.begin_delete("k"), lambda call: call.fail(note=[None]), [[], [[None]]]),
        ):
            end(begin())
            begun, ended = events_of(self.log)[-2:]
            self.assertEqual([begun[3:], ended[3:] if ended[0] == "end" else ended[2:]], due)

    def test_exceptions_of_the_store(self):
        for error, word in ((Refused(), "fail"), (Unreachable(), "lost")):
            with self.assertRaises(type(error)):
                self.alice.write("k", 1, raising(error), note=lambda: "n1")
            self.assertEqual(self.endings()[-1], [word, "alice", "n1"])

    def test_no_note_to_begin_with(self):
        """Nothing is recorded, and the store is not called."""
        for note in (*NO_NOTES, "x" * 1_000_000, "\ud800"):
            if not callable(note):
                with self.assertRaises((TypeError, ValueError)):
                    self.alice.write("k", 1, raising(AssertionError("called")), note=note)
        self.assertEqual(events_of(self.log), [])

    def test_no_note_at_the_end(self):
        """The end is recorded without one, and its exception is raised on."""
        for note, error in ((raising(KeyError("server")), KeyError), (lambda: b"", TypeError), (lambda: "x" * 1_000_000, ValueError)):
            with self.assertRaises(error):
                self.alice.write("k", 1, lambda: None, note=note)
            with self.assertRaises(error):
                self.alice.begin_read("k").end(5, note=note)
        self.assertEqual(self.endings(), [["end", "alice", "ok"], ["end", "alice", 5]] * 3)

    def test_no_note_after_an_exception(self):
        """That of the call is raised on: where the store raised, where its answer is no value, and where it can't be told."""
        note = raising(KeyError("server"))
        for error, action in (
            (Unreachable, lambda: self.alice.write("k", 1, raising(Unreachable()), note=note)),
            (TypeError, lambda: self.alice.read("k", lambda: b"", note=note)),
            (Unreachable, lambda: self.alice.delete("k", lambda: 1, found=raising(Unreachable()), note=note)),
        ):
            with self.assertRaises(error):
                action()
            self.assertEqual(self.endings()[-1], ["lost", "alice"])


class Logs(FolderCase):
    NOTED = [
        *(["begin", "a", ["w", "k", "a.7"], {"at": 1}], ["end", "a", "ok", "n1"]),
        *(["begin", "b", ["r", "k"], 5], ["end", "b", "a.7", None]),
    ]

    def test_log_that_goes_on(self):
        """Its notes stay; values of its writes are not given again, and a call that is pending is lost."""
        write_log(self.log, [*self.NOTED, ["begin", "c", ["d", "k"], []]])
        with Recorder(self.log) as recorder:
            self.assertEqual(recorder.client("a").new_value(), "a.8")
        self.assertEqual(events_of(self.log), [*self.NOTED, ["begin", "c", ["d", "k"], []], ["lost", "c"]])

    def test_log_that_is_joined(self):
        """Notes are kept to the byte, as they were written."""
        lines = [b'["begin","a",["w","k",1], {"at" : 1.50}]\n["end","a","ok",-0]\n', b'["begin","b",["r","k"]]\n["lost","b","\\u006e1"]']
        paths = [self.folder / f"{number}.jsonl" for number in range(2)]
        for path, line in zip(paths, lines):
            path.write_bytes(line)
        with self.log.open("wb") as out:
            counts = merge(paths, out)
        self.assertEqual((self.log.read_bytes(), counts.events, counts.lost), (b"".join(lines) + b"\n", 4, 0))

    def test_two_notes(self):
        write_log(self.log, [*self.NOTED[:1], ["end", "a", "ok", 1, 2]])
        with self.assertRaisesRegex(LogError, "line 2: .* is no event"):
            Recorder(self.log)


if __name__ == "__main__":
    unittest.main()
