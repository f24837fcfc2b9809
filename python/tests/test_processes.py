"""Tests several processes with a file each, and processes that are killed while they record."""

import random
import subprocess
import sys
import time
import unittest

from causal_judge import merge
from served_store import CLIENTS, StoreServer
from support import ORDER_LINE, TESTS, FolderCase, environment, events_of, many, needs_program, verdicts_of

MOMENTS, LAST_MOMENT = many(20, 200), 0.04
PROCESSES, CALLS = 4, 25


class ProcessCase(FolderCase):
    def served(self, name="store", seed=1):
        """The socket of a new store, which is there until the test ends."""
        path = self.folder / f"{name}.socket"
        self.addCleanup(StoreServer(path, seed).close)
        return path

    def start(self, store, log, name, seed, count):
        """Starts a process with clients."""
        words = [sys.executable, TESTS / "served_store.py", store, log, name, seed, count]
        process = subprocess.Popen(list(map(str, words)), env=environment(), stdout=subprocess.PIPE)
        self.addCleanup(process.stdout.close)
        self.addCleanup(process.wait)
        self.addCleanup(process.kill)
        self.assertEqual(process.stdout.readline(), b"begun\n")
        return process


@needs_program
class SeveralProcesses(ProcessCase):
    def test_merged(self):
        """Each process records in a file of its own. Two that are killed and one that goes on count like any other."""
        store, logs = self.served(), [self.folder / f"{number}.jsonl" for number in range(PROCESSES)]
        processes = [self.start(store, log, f"process {number}", number, CALLS) for number, log in enumerate(logs)]
        for process in processes[:2]:
            process.kill()
        for process in processes:
            process.wait()
        self.start(store, logs[0], "process 0", 100, CALLS).wait()
        with self.log.open("wb") as out:
            counts = merge(logs, out)
        events = events_of(self.log)
        self.assertEqual((counts.files, counts.events), (PROCESSES, len(events) - counts.lost))
        self.assertEqual(counts.clients, len({event[1] for event in events}))
        self.assertEqual([log.read_bytes().find(ORDER_LINE) for log in (*logs, self.log)], [0] * PROCESSES + [-1])
        self.assertTrue(verdicts_of([self.log])[0].meets())


@needs_program
class KilledProcesses(ProcessCase):
    def test_killed_at_random_moments(self):
        """The log of a process that was killed is judged as it is, goes on in another process, and is judged again."""
        rng, logs, killed = random.Random(52), [], []
        for number in range(MOMENTS):
            log, store = self.folder / f"{number}.jsonl", self.served(str(number), number)
            process = self.start(store, log, "client", number, 1_000_000)
            time.sleep(rng.random() * LAST_MOMENT)
            process.kill()
            process.wait()
            killed.append(self.folder / f"{number} killed.jsonl")
            killed[-1].write_bytes(log.read_bytes())
            self.start(store, log, "client", number + MOMENTS, 5).wait()
            logs.append(log)
        self.check_logs(killed, logs)
        for verdict in verdicts_of([*killed, *logs]):
            self.assertTrue(verdict.meets(), f"{verdict.log}: {verdict}")

    def check_logs(self, killed, logs):
        """A log goes on where it was cut, after a line for each call that was pending. Its first line alone says the order of time."""
        most_pending = 0
        for cut, whole in zip(killed, logs):
            events, first = events_of(whole), cut.read_bytes()
            size = first.rfind(b"\n") + 1
            self.assertEqual(whole.read_bytes()[:size], first[:size])
            self.assertEqual((whole.read_bytes().find(ORDER_LINE), whole.read_bytes().count(ORDER_LINE)), (0, 1))
            count = max(0, first.count(b"\n") - 1)
            pending = {event[1] for event in events[:count]} - {event[1] for event in still_idle(events[:count])}
            self.assertEqual({event[1] for event in events[count : count + len(pending)] if event[0] == "lost"}, pending)
            most_pending = max(most_pending, len(pending))
        self.assertEqual(most_pending, CLIENTS)


def still_idle(events):
    """The last event of each client whose last call has ended."""
    return [event for event in {event[1]: event for event in events}.values() if event[0] != "begin"]


if __name__ == "__main__":
    unittest.main()
