"""Mangles texts of each format: whatever bytes come, an importer gives events that the program takes, or says which line it can't read."""

import contextlib
import functools
import io
import random
import re
import signal
import subprocess
import unittest
from collections import Counter

from causal_judge.events import ORDER, Progress, check_event, line_of
from causal_judge.importers import FORMATS, FormatError
from causal_judge.program import find_program
from support import SECONDS, many, needs_program

LONGEST, COUNT = 20, many(1_000, 10_000)
TEXTS = ("\n", "\r", "\x00", "nil", "null", "0", "-", "1.5", "99999999999999999999999", '"', "\\", "\\ud800", "#", "#_", "#a ")
PIECES = (*map(str.encode, TEXTS), b"\xff", b"\xed\xa0\x80")
SAMPLES = {
    "jepsen": """
{:type :invoke, :f :write, :value [1 10], :process 0, :time 5, :index 0}
{:type :invoke, :f :read, :value [1 nil], :process 1}
{:type :info, :f :kill, :value {"n1" :killed}, :process :nemesis}
{:type :ok, :f :write, :value [1 10], :process 0, :time 17}
{:type :ok, :f :read, :value [1 10], :process 1} ; found
{:type :invoke, :f :cas, :value [1 [10 "v\\u0031\\n"]], :process 0}
#jepsen.history.Op{:type :ok, :f :cas, :value [1 [10 "v1\\n"]], :process 0}
{:type :invoke, :f :write, :value [:k/a [1.5 #{2}]], :process 1}
{:type :info, :f :write, :value [:k/a [1.5 #{2}]], :process 1, :error #error {:cause "x" :at [a.b/c 7]}}
{:type :invoke, :f :cas, :value ["k" [nil true]], :process 6}
#_{:discarded 1} {:type :fail, :f :cas, :value ["k" [nil true]], :process 6}
{:type :invoke, :f :read, :value [1 nil], :process 6} {:type :invoke, :f :write, :value [1 nil], :process 2}
""",
    "jsonl": """
{"client": "a", "op": "write", "key": "k", "value": "v1", "start": 0, "end": 5, "ok": true}
{"client": "b", "op": "read", "key": "k", "value": null, "start": 1, "end": 2, "ok": true}
{"client": 7, "op": "d", "key": 1, "start": 6.5, "end": 6.75, "ok": true}
{"client": "a", "op": "r", "key": "k", "value": "v1", "start": 9, "end": 10, "ok": true, "node": "n1"}
{"client": "b", "op": "w", "key": "k", "value": -5, "start": 3, "ok": null}
{"client": "a", "op": "w", "key": "k", "value": true, "start": 6, "end": 8, "ok": false}
{"client": "b", "op": "delete", "key": "k\\u00e9", "start": 4, "end": 6, "ok": null}
{"client": 7, "op": "r", "key": "k", "start": 8}
""",
    "porcupine": """
{"ClientId":0,"Kind":0,"Value":{"op":"put","key":"k","value":"v1"},"Id":0}
{"ClientId":1,"Kind":"call","Value":{"op":"get","key":"k"},"Id":1}
{"ClientId":0,"Kind":1,"Value":{},"Id":0}
{"ClientId":1,"Kind":"return","Value":{"value":"v1"},"Id":1}
{"ClientId":0,"Kind":false,"Value":{"op":1,"key":7,"value":""},"Id":"x"}
{"ClientId":1,"Kind":0,"Value":{"op":0,"key":7,"value":""},"Id":2}
{"ClientId":0,"Kind":0,"Value":{"op":"get","key":"k"},"Id":3}
{"ClientId":1,"Kind":true,"Value":{"value":""},"Id":2}
{"ClientId":1,"Kind":0,"Value":{"op":"put","key":"k","value":12},"Id":4}
""",
    "sessions": """
w(x,1) r(y,0), w(user:5,v1)
# a comment
r(x,1) r(y,nil) ,r(user:5,v1) # found
w( y , 18446744073709551616 )w(z,)

r(y,-5)
""",
}


def mangled(rng, data):
    """The bytes with one to three edits: a byte or a word is another, some are gone or there again, a piece is put in, or a line moves."""
    for _ in range(rng.choice((1, 1, 1, 2, 3))):
        at = rng.randrange(len(data) + 1)
        end = at + rng.choice((1, 1, 4, 80))
        kind = rng.randrange(7)
        if kind == 0:
            data = data[:at] + bytes([rng.choice(data) if rng.randrange(4) else rng.randrange(256)]) + data[at + 1 :]
        elif kind == 1:
            data = data[:at] + data[end:]
        elif kind == 2:
            data = data[:end] + data[at:end] + data[end:]
        elif kind == 3:
            data = data[:at] + rng.choice(PIECES) + data[at + rng.randrange(2) :]
        elif kind < 6:
            parts = re.split(rb"([\w:.-]+)", data)
            if len(parts) > 1:
                parts[rng.randrange(1, len(parts), 2)] = rng.choice(parts[1::2])
            data = b"".join(parts)
        else:
            lines = data.splitlines(keepends=True) or [b""]
            lines.insert(rng.randrange(len(lines)), lines.pop(rng.randrange(len(lines))))
            data = b"".join(lines)
    return data


@contextlib.contextmanager
def at_most(seconds):
    """Ends what takes longer."""

    def stop(*_):
        raise AssertionError(f"no end within {seconds} seconds")

    before = signal.signal(signal.SIGALRM, stop)
    signal.alarm(seconds)
    try:
        yield
    finally:
        signal.alarm(0)
        signal.signal(signal.SIGALRM, before)


def imported(name, data):
    """The events of these bytes, none where they are refused."""
    try:
        return list(FORMATS[name](io.TextIOWrapper(io.BytesIO(data), encoding="utf-8"), Counter()))
    except FormatError as error:
        if not (1 <= error.line <= len(re.split(rb"\r\n?|\n", data)) and error.what):
            raise AssertionError(f"line {error.line} of {data!r}: {error.what}") from error
        return None


def settled(events):
    """These events, and a `lost` for each call that is pending after them, so that another log may follow: so without the order of time."""
    events = [event for event in events if event != ORDER]
    pending = dict.fromkeys(event[1] for event in events)
    for event in events:
        pending[event[1]] = event[0] == "begin"
    return events + [["lost", client] for client, is_pending in pending.items() if is_pending]


@functools.cache
def taken_of(name):
    """The mangled texts of a format that are not refused, each with its events."""
    rng, data, taken = random.Random(name), SAMPLES[name].encode(), []
    for _ in range(COUNT):
        text = mangled(rng, data)
        with at_most(LONGEST):
            events = imported(name, text)
        if events is not None:
            taken.append((text, events))
    return taken


class Mangled(unittest.TestCase):
    def test_samples(self):
        for name, text in SAMPLES.items():
            self.assertGreater(len(imported(name, text.encode())), 8)

    def test_any_bytes(self):
        for name in FORMATS:
            for data in (b"", b"\n", b"\xff", b"\x00", b"[", b"{", b'"', b"#", b"(", b"\xef\xbb\xbf", "\xe9".encode("utf-16")):
                with self.subTest(name=name, data=data), at_most(LONGEST):
                    imported(name, data)

    def test_what_is_not_refused_is_a_log(self):
        for name in FORMATS:
            taken = taken_of(name)
            self.assertTrue(COUNT // 20 < len(taken) < COUNT - COUNT // 20, f"{len(taken)} of {COUNT} are taken")
            for text, events in taken:
                with self.subTest(name=name, text=text):
                    progress = Progress()
                    for event in events:
                        check_event(event)
                        self.assertEqual(progress.fault_of(event), "")
                        progress.take(event)

    @needs_program
    def test_the_program_takes_what_is_not_refused(self):
        """All different logs of a format are one log: after each one its pending calls are lost."""
        for name in FORMATS:
            logs = {repr(events): (text, settled(events)) for text, events in taken_of(name)}
            owners = [(text, line_of(event)) for text, events in logs.values() for event in events]
            log = b"".join(line for _, line in owners)
            done = subprocess.run([find_program(), "events"], input=log, capture_output=True, check=False, timeout=SECONDS)
            at = int(done.stderr.split()[2]) - 1 if done.stderr.startswith(b"refused") else 0
            self.assertEqual((done.returncode, done.stderr), (0, b""), owners[at])


if __name__ == "__main__":
    unittest.main()
