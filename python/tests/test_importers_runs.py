"""Records simulated runs in each format and imports them: of a correct store none is a `no`, and a store that loses writes is found out."""

import json
import random
import unittest

from causal_judge.importers import FORMATS
from support import FolderCase, many, needs_program, verdicts_of, write_log
from test_importers_store import CLIENTS, Run
from test_importers_support import imported

FUNCTIONS, TYPES = {"r": "read", "w": "write", "c": "cas"}, {"ok": "ok", "fail": "fail", "lost": "info"}
CORRECT, FAULTY, LEAST_FOUND = many(18, 400), many(12, 100), 2


def edn(value):
    """A key or a value as Clojure prints it."""
    return "nil" if value is None else json.dumps(value)


def jepsen(run):
    """A Jepsen history with keys. After an operation without an answer the client has another process."""
    lines, processes = ["{:process :nemesis, :type :info, :f :start}"], dict(enumerate(range(CLIENTS)))
    for told, call in run.told:
        found = edn(call.found if told == "end" else None)
        value = {"r": found, "w": edn(call.value), "c": f"[{edn(call.old)} {edn(call.value)}]"}[call.word]
        kind, function = TYPES[call.outcome] if told == "end" else "invoke", FUNCTIONS[call.word]
        asked = f":f :{function}, :value [{edn(call.key)} {value}]"
        lines.append(f"{{:process {processes[call.client]}, :type :{kind}, {asked}, :time {len(lines)}}}")
        if kind == "info":
            processes[call.client] += CLIENTS
    return "\n".join(lines)


def jsonl(run):
    """The calls with their times, in any order of the lines."""
    rng, lines = random.Random(0), []
    for call in (call for told, call in run.told if told == "begin"):
        word = "d" if call.word == "w" and call.value is None else call.word
        line = {"client": f"client {call.client}", "op": word, "key": call.key, "start": call.start}
        if word != "d":
            line["value"] = call.value if word == "w" else call.found
        if call.outcome and (call.outcome != "lost" or rng.randrange(2)):
            line |= {"end": call.end, "ok": {"ok": True, "fail": False, "lost": None}[call.outcome]}
        lines.append(json.dumps(line))
    rng.shuffle(lines)
    return "\n".join(lines)


def porcupine(run):
    """Calls and returns, without the calls that were refused."""
    lines, numbers = [], {}
    for told, call in run.told:
        if call.outcome == "fail" or (told == "end" and call.outcome == "lost"):
            continue
        number = numbers.setdefault(id(call), len(numbers))
        asked = {"op": "get", "key": call.key} if call.word == "r" else {"op": "put", "key": call.key, "value": call.value or ""}
        value = asked if told == "begin" else {"value": call.found} if call.word == "r" else {}
        lines.append(json.dumps({"ClientId": call.client, "Kind": int(told == "end"), "Value": value, "Id": number}))
    return "\n".join(lines)


def sessions(run):
    """A session a line. A write without an answer is a session of its own, and what its client called afterwards begins another one."""
    lines, alone = {client: [] for client in range(CLIENTS)}, []
    for call in (call for told, call in run.told if told == "begin"):
        written = f"w({call.key},{'nil' if call.value is None else call.value})"
        if call.outcome == "ok":
            read = f"r({call.key},{'nil' if call.found is None else call.found})"
            lines[call.client].append(read if call.word == "r" else written)
        elif call.outcome != "fail":
            alone += [", ".join(lines[call.client])] + [written] * (call.word != "r")
            lines[call.client] = []
    return "\n".join([*map(", ".join, lines.values()), *alone])


RECORDED = {"jepsen": (jepsen, "rrwwc"), "jsonl": (jsonl, "rrrwwwd"), "porcupine": (porcupine, "rw"), "sessions": (sessions, "rrwwc")}


@needs_program
class Runs(FolderCase):
    def judged(self, name, count, **fault):
        """The runs of a format with their verdicts."""
        recorded, words = RECORDED[name]
        runs = [Run(seed, words, **fault) for seed in range(count)]
        logs = [write_log(self.folder / f"{name}{seed}.jsonl", imported(name, recorded(run))[0]) for seed, run in enumerate(runs)]
        return zip(runs, logs, verdicts_of(logs))

    def test_correct_stores_get_no_no(self):
        for name in FORMATS:
            for run, log, verdict in self.judged(name, CORRECT):
                with self.subTest(name=name, log=log.name):
                    self.assertEqual(verdict.unmet(*run.kind.promised), (), log.read_text())

    def test_logs_in_the_order_of_the_run_may_end_anywhere(self):
        """So a part of a log that was imported from a history in order blames no correct store either."""
        rng = random.Random(0)
        for name in ("jepsen", "porcupine"):
            recorded, words = RECORDED[name]
            runs = [Run(seed, words) for seed in range(CORRECT)]
            logs = [imported(name, recorded(run))[0] for run in runs]
            parts = [events[: rng.randrange(len(events))] for events in logs]
            paths = [write_log(self.folder / f"{name}{seed}.jsonl", part) for seed, part in enumerate(parts)]
            for run, verdict in zip(runs, verdicts_of(paths)):
                self.assertEqual(verdict.unmet(*run.kind.promised), (), f"{verdict.log}: {verdict}")

    def test_a_store_that_loses_writes_is_found_out(self):
        for name in FORMATS:
            found = [verdict.cc.answer for _, _, verdict in self.judged(name, FAULTY, has_fault=True)]
            self.assertGreaterEqual(found.count("no"), LEAST_FOUND, f"{name}: {found}")


if __name__ == "__main__":
    unittest.main()
