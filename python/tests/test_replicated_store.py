"""Tests the store of examples/replicated_store: runs with correct delivery are blamed for nothing, and each `no` of the fault is one.

What counts is the store's own list: the updates in the order in which they were taken, and those that each replica had applied when it
answered a read. A replica knows what it has applied, and all that its senders knew. A read is stale where it returns another update of its
key than the newest that the replica knows. With correct delivery no read is, and the log has to say of each call what the lists say.
Operations without a stale read are causal by each criterion. So an explanation of a no has to name a stale read, and the read that it
accuses has to be stale.
"""

import itertools
import re
import sys
import unittest
from unittest import mock

from support import REPOSITORY, FolderCase, events_of, many, needs_program, verdicts_of

EXAMPLE = REPOSITORY / "examples" / "replicated_store"
if EXAMPLE.is_dir():
    sys.path.insert(0, str(EXAMPLE))
    import try_store
    from store import Store

NAMED_READ = re.compile(r'^line (\d+): "[^"]*" (?:reads|finds nothing)', re.MULTILINE)
ACCUSED_READ = re.compile(r"^line (\d+) (?:read|found nothing) .* had overwritten in its past", re.MULTILINE)
RUNS, CALLS = many(100, 1000), many(20, 100)
FAULTY_RUNS, FAULTY_CALLS = many(40, 1000), many(40, 100)
MANY_KEYS = [f"{kind}:{number}" for number in range(6) for kind in ("user", "cart")]


def noting(store_class):
    """The class of a store that notes its updates, and each answered read with its replica and how many updates that had applied."""

    class NotingStore(store_class):
        def __init__(self, *given):
            super().__init__(*given)
            self.updates, self.reads = [], []

        def update(self, at, key, value):
            is_taken = super().update(at, key, value)
            self.updates.append(self.replicas[at].applied[-1])
            return is_taken

        async def read(self, at, key):
            replica = self.replicas[at]
            value, position = await self.ask(lambda: (replica.values.get(key), len(replica.applied)))
            self.reads.append((at, position, key, value))
            return value

    return NotingStore


class Truth:
    """What the lists of a store say. `known` has for each update those that its sender knew, and itself, as bits of their numbers."""

    def __init__(self, store):
        self.store, self.known = store, {}
        for number, update in enumerate(store.updates):
            applied = store.replicas[update.sender].applied
            self.known[update] = 1 << number | self.known_by(update.sender, applied.index(update))

    def known_by(self, at, position):
        """What a replica knew when it had applied so many updates."""
        found = 0
        for update in self.store.replicas[at].applied[:position]:
            found |= self.known[update]
        return found

    def is_fresh(self, at, position, key, value):
        """Whether a read was answered by the newest update of its key that the replica knew."""
        known = self.known_by(at, position)
        values = [update.value for number, update in enumerate(self.store.updates) if known >> number & 1 and update.key == key]
        return value == (values[-1] if values else None)

    def stale_lines(self, events):
        """The lines of the begins of all answered reads, each with whether it was stale. The log has the reads in the store's order, after
        a first line that says the order of time."""
        begins, found, reads = {}, {}, iter(self.store.reads)
        for line, (word, client, *more) in enumerate(events, 2):
            if word == "begin":
                begins[client] = line, more[0]
            elif word == "end" and begins[client][1][0] == "r":
                line, (_, key) = begins[client]
                at, position, asked, value = next(reads)
                if (asked, value) != (key, more[0]):
                    raise AssertionError(f"line {line} reads {more[0]!r} from {key!r}, and the store answered {value!r} for {asked!r}")
                found[line] = not self.is_fresh(at, position, key, value)
        if next(reads, None):
            raise AssertionError("the store answered a read that the log lacks")
        return found

    def write_faults(self, events):
        """The writes and deletes of the log that the store's list contradicts: done but not there, or failed and there."""
        writes, deletes = {}, 0
        for word, client, *more in events:
            if word == "begin":
                writes[client] = more[0]
                continue
            called = writes[client]
            deletes += called[0] == "d" and word == "end"
            is_there = any((update.key, update.value) == tuple(called[1:]) for update in self.store.updates) if called[0] == "w" else None
            if (is_there, word) in ((False, "end"), (True, "fail")):
                yield called
        if deletes > sum(update.value is None for update in self.store.updates):
            yield f"{deletes} deletes"


@needs_program
@unittest.skipUnless(EXAMPLE.is_dir(), "skipped: the example examples/replicated_store is not beside the package")
class ReplicatedStore(FolderCase):
    def recorded(self, seeds, is_eager, **constants):
        """Logs of runs, with what the store's lists say of each."""
        runs = []
        with mock.patch.multiple(try_store, Store=noting(Store), **constants):
            for seed in seeds:
                log = self.folder / f"{seed}.jsonl"
                runs.append((log, Truth(try_store.record(log, is_eager, seed))))
        return runs

    def test_correct_delivery(self):
        for (log, truth), verdict in self.judged(range(RUNS), False, CALLS=CALLS):
            self.check_correct(log, truth, verdict)

    def test_64_clients(self):
        """Many clients with deletes, retries and time-outs, and requests that take effect after the client gave up."""
        constants = {"REPLICAS": 4, "CLIENTS": 64, "CALLS": many(8, 20), "KEYS": MANY_KEYS, "LOSS": 0.05}
        endings = set()
        for (log, truth), verdict in self.judged(range(many(20, 500)), False, **constants):
            self.check_correct(log, truth, verdict)
            endings |= endings_of(events_of(log))
        self.assertEqual(len({client for client, _, _ in endings}), 64)
        self.assertEqual({ending[1:] for ending in endings}, set(itertools.product("rwd", ("end", "lost", "fail"))) - {("r", "fail")})

    def check_correct(self, log, truth, verdict):
        """The log says what the store did, its lists show no fault, and so does the verdict."""
        events = events_of(log)
        self.assertEqual(list(truth.write_faults(events)), [], log)
        self.assertFalse(any(truth.stale_lines(events).values()), log)
        self.assertTrue(verdict.meets(), f"{log}: {verdict}")

    def test_fault(self):
        """Most runs with the fault are a no, and each no is one by the store's own lists."""
        caught = 0
        for (log, truth), verdict in self.judged(range(FAULTY_RUNS), True, CALLS=FAULTY_CALLS):
            events = events_of(log)
            self.assertEqual(list(truth.write_faults(events)), [], log)
            stale, unmet = truth.stale_lines(events), verdict.unmet()
            caught += bool(unmet)
            for line in unmet:
                self.check_reason(verdict, line, stale)
        self.assertGreater(caught, FAULTY_RUNS / 2)

    def judged(self, seeds, is_eager, **constants):
        """Runs, and their verdicts."""
        runs = self.recorded(seeds, is_eager, **constants)
        return zip(runs, verdicts_of(log for log, _ in runs))

    def check_reason(self, verdict, line, stale):
        """Of the reads that the explanation of a no names one is stale, and each that it accuses is."""
        reason = verdict.reasons[line.criterion]
        if reason.startswith("as for "):
            reason = verdict.reasons[reason.split()[2]]
        named, accused = ({int(number) for number in form.findall(reason)} for form in (NAMED_READ, ACCUSED_READ))
        self.assertEqual(line.answer, "no")
        self.assertTrue(any(stale[number] for number in named), f"{verdict.log}: {reason}")
        self.assertTrue(all(stale[number] for number in accused), f"{verdict.log}: {reason}")
        if line.kind in ("WriteCORead", "WriteCOInitRead"):
            self.assertEqual(len(accused), 1, f"{verdict.log}: {reason}")


def endings_of(events):
    """The clients with the words of their calls and of how these ended."""
    begun, found = {}, set()
    for word, client, *more in events:
        if word == "begin":
            begun[client] = more[0][0]
        else:
            found.add((client, begun[client], word))
    return found


if __name__ == "__main__":
    unittest.main()
