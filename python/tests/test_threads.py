"""Tests recorders that threads share: what is recorded is what each thread noted by itself, and a correct store is blamed for nothing."""

import collections
import contextlib
import functools
import pathlib
import random
import sys
import tempfile
import threading
import time
import unittest
from concurrent.futures import ThreadPoolExecutor

from causal_judge import Recorder
from support import ORDER_LINE, FolderCase, Refused, Unreachable, events_of, many, needs_program, run_threads, verdicts_of

CLIENTS, KEYS, CALLS, SEEDS = 16, 6, 40, 3
SMALL_RUNS, SMALL_CLIENTS, WRITES = 1000, 4, 4
JOINED_RUNS = 40
OWN = "wwr"  # the first calls of each client are of a key of its own, so that a stale read is no matter of how threads take turns


class SharedMemory:
    """One copy of some keys, which threads share. A call without an answer has no effect, or one at once or later. Some reads are stale."""

    def __init__(self, rng, stale, pause=0.001):
        self.rng, self.stale, self.pause, self.lock = rng, stale, pause, threading.Lock()
        self.values = collections.defaultdict(lambda: [None])
        self.late = []

    def read(self, key):
        with self.lock:
            self.pass_on()
            held = self.values[key]
            value = held[-2] if len(held) > 1 and self.rng.random() < self.stale else held[-1]
        self.answer(0.05)
        return value

    def write(self, key, value):
        with self.lock:
            self.pass_on()
            fate = self.rng.random()
            if fate < 0.05:
                raise Refused
            if fate > 0.95:
                self.late.append((key, value))
                raise Unreachable
            self.values[key].append(value)
        self.answer(0.1)

    def delete(self, key):
        with self.lock:
            has_found = self.values[key][-1] is not None
            if has_found:
                self.values[key].append(None)
        self.answer(0.1)
        return has_found

    def pass_on(self):
        """Some late calls take effect."""
        while self.late and self.rng.random() < 0.3:
            key, value = self.late.pop(0)
            self.values[key].append(value)

    def answer(self, loss):
        """An answer is on its way, or is lost."""
        time.sleep(self.rng.random() * self.pause)
        if self.rng.random() < loss:
            raise Unreachable


def calls(memory, client, rng, noted):
    """The calls of a client, which notes each of its events by itself."""
    for number in range(CALLS):
        word, key = (OWN[number], client.name) if number < len(OWN) else (rng.choice("wwrrrrd"), rng.randrange(KEYS))
        value = f"{client.name}-{number}"
        noted.append(["begin", client.name, [word, key, value] if word == "w" else [word, key]])
        try:
            noted.append(["end", client.name, called(memory, client, word, key, value)])
        except Refused:
            noted.append(["fail", client.name])
        except Unreachable:
            noted.append(["lost", client.name])


def called(memory, client, word, key, value):
    """Makes a call, and gives what its end has to say."""
    if word == "r":
        return client.read(key, lambda: memory.read(key))
    if word == "d":
        if not client.delete(key, lambda: memory.delete(key), found=bool):
            raise Refused
        return "ok"
    client.write(key, value, lambda: memory.write(key, value))
    return "ok"


def recorded(path, seed, stale):
    """Records a run of threads; gives what each noted."""
    rng = random.Random(seed)
    memory, notes = SharedMemory(random.Random(rng.random()), stale), {f"client {number}": [] for number in range(CLIENTS)}
    with Recorder(path, fails=Refused) as recorder:
        given = [(memory, recorder.client(name), random.Random(rng.random()), noted) for name, noted in notes.items()]
        run_threads([threading.Thread(target=calls, args=one) for one in given])
    return notes


class Threads(FolderCase):
    def logs(self, stale):
        """Logs of runs, each of which has what the threads noted."""
        for seed in range(many(SEEDS, 20 * SEEDS)):
            log = self.folder / f"{seed}.jsonl"
            notes = recorded(log, seed, stale)
            events = events_of(log)
            for name, noted in notes.items():
                self.assertEqual([event for event in events if event[1] == name], noted)
            self.assertEqual(len(events), 2 * CLIENTS * CALLS)
            yield log

    @needs_program
    def test_correct_store(self):
        for verdict in verdicts_of(self.logs(0)):
            self.assertTrue(verdict.meets(), str(verdict))

    @needs_program
    def test_stale_reads(self):
        verdicts = verdicts_of(self.logs(0.5))
        self.assertTrue(any(verdict.cc.answer == "no" for verdict in verdicts))

    def test_one_client_in_two_threads(self):
        """The second call at once is refused, and whatever comes first the log is one that is allowed."""
        refused, barrier = [], threading.Barrier(4)

        def read(client):
            barrier.wait()
            for _ in range(200):
                try:
                    client.read("k", lambda: time.sleep(0))
                except RuntimeError:
                    refused.append(1)

        with Recorder(self.log) as recorder:
            run_threads([threading.Thread(target=read, args=(recorder.client("alice"),)) for _ in range(4)])
        self.assertEqual(len(events_of(self.log)), 2 * (800 - len(refused)))

    def test_call_that_is_ended_twice_at_once(self):
        """Of an answer and a time-out that come at once, one counts."""
        with Recorder(self.log) as recorder:
            for number in range(200):
                call, raised = recorder.client("alice").begin_write("k", number), []
                barrier = threading.Barrier(2)
                run_threads([threading.Thread(target=end, args=(action, barrier, raised)) for action in (call.end, call.lost)])
                self.assertEqual(raised, [RuntimeError])
        self.assertEqual(len(events_of(self.log)), 400)


def end(action, barrier, raised):
    """Ends a call together with another thread, and notes what that raised."""
    barrier.wait()
    try:
        action()
    except RuntimeError as error:
        raised.append(type(error))


class NewValues(unittest.TestCase):
    """Many small runs: in each, threads take new values of one client at the same time. Clients and keys are those of one run."""

    @classmethod
    def setUpClass(cls):
        room = tempfile.TemporaryDirectory(prefix="causal-judge-")
        cls.addClassCleanup(room.cleanup)
        cls.folder = pathlib.Path(room.name)
        cls.logs = [cls.folder / f"{run}.jsonl" for run in range(SMALL_RUNS)]
        cls.addClassCleanup(sys.setswitchinterval, sys.getswitchinterval())
        sys.setswitchinterval(1e-6)  # threads take turns as often as they can
        with ThreadPoolExecutor(SMALL_CLIENTS) as pool:
            for log in cls.logs:
                with Recorder(log, fails=Refused) as recorder:
                    memory, source = SharedMemory(random.Random(log.stem), 0, pause=0), recorder.client(log.stem)
                    clients = [recorder.client(f"{log.stem} {number}") for number in range(SMALL_CLIENTS)]
                    list(pool.map(functools.partial(write_and_read, memory, source), clients))

    def test_values(self):
        """No two writes of a run have the same value."""
        for log in self.logs:
            values = [event[2][-1] for event in events_of(log) if event[0] == "begin" and event[2][0] == "w"]
            self.assertEqual((len(values), len(set(values))), (SMALL_CLIENTS * WRITES,) * 2, log)

    @needs_program
    def test_correct_store(self):
        """Some runs at a time are judged as one log. If that meets a criterion, each of these runs meets it."""
        joined = [self.joined(first) for first in range(0, SMALL_RUNS, JOINED_RUNS)]
        for verdict in verdicts_of(joined):
            self.assertTrue(verdict.meets(), str(verdict))

    def joined(self, first):
        """The log of some runs, from the first of them on."""
        log = self.folder / f"from_{first}.jsonl"
        log.write_bytes(b"".join(log.read_bytes().removeprefix(ORDER_LINE) for log in self.logs[first : first + JOINED_RUNS]))
        return log


def write_and_read(memory, source, client):
    """A client writes new values of the source to two keys in turn, and reads after each write."""
    for number in range(WRITES):
        key, value = f"{source.name} {number % 2}", source.new_value()
        with contextlib.suppress(Refused, Unreachable):
            client.write(key, value, functools.partial(memory.write, key, value))
        with contextlib.suppress(Refused, Unreachable):
            client.read(key, functools.partial(memory.read, key))


class ManyClients(FolderCase):
    def record(self, clients, most):
        """Records a write and a read of each client, of which so many have a call pending at a time."""
        store, pending = {}, []
        with Recorder(self.log) as recorder:
            for number in range(clients):
                client = recorder.client(number)
                value = client.new_value()
                pending.append((client.begin_write(number % 20, value), number % 20, value))
                if len(pending) == most:
                    call, key, value = pending.pop(0)
                    store[key] = value
                    call.end()
                    recorder.client(call.name).read(key, lambda key=key: store[key])
        return events_of(self.log)

    def test_many_clients(self):
        self.assertEqual(len(self.record(20_000, 5_000)), 20_000 + 3 * 15_001)

    @needs_program
    def test_verdict(self):
        self.record(300, 100)
        self.assertTrue(verdicts_of([self.log])[0].meets())


if __name__ == "__main__":
    unittest.main()
