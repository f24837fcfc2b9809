#!/usr/bin/env python3
"""Records runs of correct stores by the rules of docs/recording.md, and wants no `no` about any of them.

    python3 tests/process/recorded_stores.py RUNS -- PROGRAM

The stores run in simulated time, a seed a run, with four clients each. Requests and answers get lost or come late, so a write may take
effect long after its client gave it up. Replicas refuse some writes, keys are deleted, clients try again, and some stop in a call.

    one copy     one replica answers everything                                               cc, cm and ccv have to be met
    as it comes  three replicas, each write after all that it depends on, the last one wins   cc and cm
    by stamp     the same, and the write with the greatest stamp wins                         cc and ccv

Each run is recorded twice. First as a log of events: a try without an answer is lost, and the next one is a call of its own, of a write with a
new value. The log is judged with the first line that recorders write, which says that it is in the order of time, and without it. Then as a
history, by history_recorder.py: a try without an answer is given up, a delete is a write of a new value, and a read that
finds nothing is left out, but for the keys that no run deletes: there it is a read of 0.

Then 100 of these runs are recorded by each of three recipes that blame correct stores: a retry as one call with its first try, in a log and in
a history, and each read that finds nothing as a read of 0 in a history. Some of them have to be a `no`, else such runs could not tell a wrong
recipe.

Half as many runs of each situation below are recorded as logs, by the recipe that is right there and by one that is wrong. Half of these
logs end anywhere. By a right recipe none is a `no`. By a wrong one at least one is, by itself.

    compare-and-sets           a write that begins before the call; wrong: a read and a write that are recorded after its answer
    new connections            after a loss a client connects to any replica, and is a new one; wrong: it is the same one
    answers of another type    numbers that are answered as texts are numbers again; wrong: they are texts
    deletes that find nothing  done where each leaves a tombstone, lost where it may, failed where none does; wrong: failed where one may
    a file for each client     joined, they do not say that they are in the order of time; wrong: they say it

Runs of one kind of store are judged as one log, since they have neither clients nor keys in common. Where that is a `no`, it is halved until
one run is left.
"""

import argparse
import itertools
import json
import os
import pathlib
import random
import subprocess
import sys
from collections.abc import Callable
from concurrent.futures import ThreadPoolExecutor
from typing import NamedTuple

import folders  # noqa: F401
from command_words import with_program
from counting import end
from history_recorder import History

sys.dont_write_bytecode = True
sys.path.insert(0, str(pathlib.Path(__file__).resolve().parents[2] / "examples" / "replicated_store"))

from simulation import Simulation  # noqa: E402
from store import TimedOut  # noqa: E402

CLIENTS, CALLS, TRIES = 4, 20, 3
KEYS, DELETED_KEYS = 4, (2, 3)
TRAVEL, LATE, MESSAGES, PAUSES, TIME_OUT = (0.1, 1.0), (4.0, 30.0), (0.1, 10.0), (0.0, 2.0), 5.0
LOST_SHARE, LATE_SHARE, REFUSED_SHARE, DELETE_SHARE, STOP_SHARE = 0.03, 0.06, 0.03, 0.3, 0.25
ORDER = '["order","time"]\n'
BLAMING_RUNS, LEAST_BLAMED, SITUATED_BLAMING_RUNS = 100, 3, 300
SLOW_MESSAGES, CUT_SHARE, JUDGED_TOGETHER = (0.1, 40.0), 0.5, 25


class Kind(NamedTuple):
    """A kind of store: how many replicas it has, whether stamps settle concurrent writes, and what it promises."""

    replicas: int
    is_by_stamp: bool
    promised: tuple


class Recipe(NamedTuple):
    """How clients record: a retry as a write of its own, and for which keys a read that finds nothing is left out of a history; or as a
    log, which may say that it is in the order of time."""

    is_retry_of_its_own: bool
    left_out: tuple = ()
    is_log: bool = False
    is_timed: bool = False


KINDS = (Kind(1, False, ("cc", "cm", "ccv")), Kind(3, False, ("cc", "cm")), Kind(3, True, ("cc", "ccv")))
RIGHT = (Recipe(True, is_log=True, is_timed=True), Recipe(True, is_log=True), Recipe(True, DELETED_KEYS))
WRONG = {
    "a retry as one call of a log": Recipe(False, is_log=True, is_timed=True),
    "a retry as one operation": Recipe(False, DELETED_KEYS),
    "finding nothing as a read of 0": Recipe(True),
}


class Log:
    """A log of events, to which the clients of a run append. A run with a name shares neither clients nor keys with others."""

    def __init__(self, name=""):
        self.name, self.lines, self.values, self.clients = name, [], itertools.count(1), itertools.count()

    def session(self):
        return Client(self, f"{self.name}client {next(self.clients)}")

    def new_value(self):
        return next(self.values)

    def text(self):
        return "".join(f"{json.dumps(line)}\n" for line in self.lines)


class Client:
    """A client of a log, and its pending call."""

    def __init__(self, log, name):
        self.log, self.name, self.is_over = log, name, True

    def begin(self, word, key, *value):
        name = f"{self.log.name}key {key}" if self.log.name else key
        self.log.lines.append(["begin", self.name, [word, name, *value]])
        self.is_over = False
        return self

    def close(self, *event):
        self.log.lines.append(list(event))
        self.is_over = True

    def end(self, answer="ok"):
        self.close("end", self.name, answer)

    def give_up(self):
        self.close("lost", self.name)

    def drop(self):
        self.close("fail", self.name)


class Update(NamedTuple):
    """A write as replicas tell it: its sender, what that had taken in of each replica, its stamp, the key, and the value or nothing."""

    sender: int
    before: tuple
    stamp: tuple
    key: int
    value: int | None


class Replica:
    """What one replica holds: under each key the stamp and the value of the write that won, none where that was a delete."""

    def __init__(self, kind):
        self.is_by_stamp = kind.is_by_stamp
        self.clock, self.seen, self.held, self.entries = 0, [0] * kind.replicas, [], {}

    def take_in(self, update):
        """A write takes effect here."""
        self.clock = max(self.clock, update.stamp[0])
        self.seen[update.sender] += 1
        if not self.is_by_stamp or update.key not in self.entries or update.stamp > self.entries[update.key][0]:
            self.entries[update.key] = update.stamp, update.value

    def receive(self, update):
        """An update comes, and it and those held back are taken in as far as all that they depend on is there."""
        self.held.append(update)
        while ready := next((one for one in self.held if all(map(int.__ge__, self.seen, one.before))), None):
            self.held.remove(ready)
            self.take_in(ready)


class Store:
    """The replicas, and the network between them and to their clients."""

    def __init__(self, kind, simulation, rng, messages=MESSAGES):
        self.simulation, self.rng, self.messages = simulation, rng, messages
        self.replicas = [Replica(kind) for _ in range(kind.replicas)]

    def travel(self):
        """How long a request or an answer is on its way: it may be for good."""
        fate = self.rng.random()
        if fate < LOST_SHARE:
            return None
        return self.rng.uniform(*(LATE if fate < LOST_SHARE + LATE_SHARE else TRAVEL))

    def ask(self, action):
        """A client's call: what the action gave when the request arrived, which it may do after the client gave up."""
        there, back, given = self.travel(), self.travel(), []
        if there is not None:
            self.simulation.after(there, lambda: given.append(action()))
        if there is None or back is None or there + back > TIME_OUT:
            yield TIME_OUT
            raise TimedOut
        yield there + back
        return given[0]

    def write(self, at, key, value, refused=REFUSED_SHARE):
        """A replica is asked to write, or to delete where there is no value: whether it did."""
        if self.rng.random() < refused:
            return False
        sender = self.replicas[at]
        update = Update(at, tuple(sender.seen), (sender.clock + 1, at), key, value)
        for replica in self.replicas:
            if replica is sender:
                replica.take_in(update)
            else:
                self.simulation.after(self.rng.uniform(*self.messages), lambda replica=replica: replica.receive(update))
        return True

    def read(self, at, key):
        """What a replica holds under a key, if anything."""
        return self.replicas[at].entries.get(key, (None, None))[1]

    def compare_and_set(self, at, key, expected, value):
        """A replica is asked to write where it holds what is expected, or nothing where nothing is: whether it did."""
        return self.read(at, key) == expected and self.write(at, key, value)

    def delete(self, at, key, tombstones):
        """A replica is asked to delete. It leaves a tombstone also where it finds nothing, in this share of deletes: whether it found something."""
        is_there = self.read(at, key) is not None
        if is_there or self.rng.random() < tombstones:
            self.write(at, key, None, refused=0)
        return is_there


def write(store, history, session, at, key, is_delete, recipe):
    """A client writes or deletes, and tries again where no answer came."""
    call, has_timed_out = None, False
    for _ in range(TRIES):
        if recipe.is_retry_of_its_own or call is None:
            value = history.new_value()
            call = session.begin("d", key) if is_delete and recipe.is_log else session.begin("w", key, value)
        try:
            is_taken = yield from store.ask(lambda value=value: store.write(at, key, None if is_delete else value))
        except TimedOut:
            has_timed_out = True
            if recipe.is_retry_of_its_own:
                call.give_up()
            continue
        if is_taken:
            call.end()
        elif recipe.is_retry_of_its_own or not has_timed_out:
            call.drop()
        else:
            call.give_up()
        return
    if not call.is_over:
        call.give_up()


def read(store, session, at, key, recipe):
    """A client reads."""
    call = session.begin("r", key)
    try:
        value = yield from store.ask(lambda: store.read(at, key))
    except TimedOut:
        call.give_up()
        return
    if recipe.is_log:
        call.end(value)
    elif value is None and key in recipe.left_out:
        call.drop()
    else:
        call.end(value or 0)


def client(store, history, at, recipe):
    """A client of one replica, which calls, waits, pauses, and calls again. It may stop in the middle of a write."""
    rng, session = store.rng, history.session()
    for _ in range(CALLS):
        yield rng.uniform(*PAUSES)
        key = rng.randrange(KEYS)
        if rng.random() < 0.5:
            is_delete = key in DELETED_KEYS and rng.random() < DELETE_SHARE
            yield from write(store, history, session, at, key, is_delete, recipe)
        else:
            yield from read(store, session, at, key, recipe)
    if rng.random() < STOP_SHARE:
        value = history.new_value()
        session.begin("w", 0, value)
        yield from store.ask(lambda: store.write(at, 0, value))


def stopping(process):
    """The process, which ends where its last call has no answer."""
    try:
        yield from process
    except TimedOut:
        return


def recorded(seed, recipe):
    """The log or the history of one run."""
    kind = KINDS[seed % len(KINDS)]
    simulation, history = Simulation(), Log() if recipe.is_log else History()
    store = Store(kind, simulation, random.Random(seed))
    for number in range(CLIENTS):
        simulation.start(stopping(client(store, history, number % kind.replicas, recipe)))
    simulation.run()
    return ORDER * recipe.is_timed + history.text()


class User:
    """A client in a situation: its session, its replica, and what it saw last of each key. It records by a recipe, which has a name."""

    def __init__(self, store, log, at, recipe):
        self.store, self.log, self.at, self.recipe, self.session, self.seen = store, log, at, recipe, log.session(), {}

    def ask(self, call, action):
        """Has a call that has begun act at the replica: whether an answer came, and that."""
        try:
            return True, (yield from self.store.ask(action))
        except TimedOut:
            call.give_up()
            return False, None

    def write(self, key):
        """A call of a write: whether an answer came."""
        at, value = self.at, self.log.new_value()
        call = self.session.begin("w", key, value)
        is_answered, is_taken = yield from self.ask(call, lambda: self.store.write(at, key, value))
        if is_answered:
            (call.end if is_taken else call.drop)()
        return is_answered

    def read(self, key, recorded=lambda value: value):
        """A call of a read: whether an answer came. The log has what is recorded for the value."""
        at, call = self.at, self.session.begin("r", key)
        is_answered, value = yield from self.ask(call, lambda: self.store.read(at, key))
        if is_answered:
            self.seen[key] = value
            call.end(None if value is None else recorded(value))
        return is_answered


def compare(user, key):
    """A read, or a compare-and-set of what the client saw last."""
    if user.store.rng.random() < 0.5:
        yield from user.read(key)
        return
    expected, value = user.seen.get(key), user.log.new_value()
    if user.recipe == "a write that begins before":
        user.session.begin("w", key, value)
    try:
        is_done = yield from user.store.ask(lambda: user.store.compare_and_set(user.at, key, expected, value))
    except TimedOut:
        is_done = None
    if user.recipe == "a read and a write after the answer":
        if is_done:
            user.session.begin("r", key).end(expected)
        user.session.begin("w", key, value)
    {True: user.session.end, False: user.session.drop, None: user.session.give_up}[is_done]()


def connect_anew(user, key):
    """A write or a read. Where no answer came, the client connects to a replica, which knows nothing of what the client saw."""
    is_answered = yield from (user.write(key) if user.store.rng.random() < 0.5 else user.read(key))
    if not is_answered:
        user.at = user.store.rng.randrange(len(user.store.replicas))
        if user.recipe == "a new client":
            user.session = user.log.session()


def answer_texts(user, key):
    """A write of a number, or a read, which is answered by the number's text."""
    if user.store.rng.random() < 0.5:
        yield from user.write(key)
    else:
        answers = {"numbers": int, "texts": str}[user.recipe]
        yield from user.read(key, lambda value: answers(str(value)))


def delete(user, key, tombstones, share):
    """A write, a read, or a delete in this share of calls: the recipe says how one that found nothing is recorded."""
    if user.store.rng.random() > share:
        yield from (user.write(key) if user.store.rng.random() < 0.5 else user.read(key))
        return
    call = user.session.begin("d", key)
    is_answered, is_found = yield from user.ask(call, lambda: user.store.delete(user.at, key, tombstones))
    if is_answered:
        (call.end if is_found else {"lost": call.give_up, "failed": call.drop}.get(user.recipe, call.end))()


class Situation(NamedTuple):
    """What clients call, of which calls a recorder has to take care; how they are recorded rightly, and how wrongly, if that shows in random
    runs; how long messages between replicas take; and whether each client has a file, which are joined."""

    name: str
    call: Callable
    right: str
    wrong: str = ""
    messages: tuple = MESSAGES
    is_joined: bool = False

    def heads(self, recipe):
        """How logs of a recipe begin. What is recorded rightly is judged also where it does not say that it is in the order of time."""
        if recipe == self.wrong:
            return (ORDER,)
        return ("",) if self.is_joined else (ORDER, "")


SITUATIONS = (
    Situation("compare-and-sets", compare, "a write that begins before", "a read and a write after the answer"),
    Situation("new connections", connect_anew, "a new client", "the same client", SLOW_MESSAGES),
    Situation("answers of another type", answer_texts, "numbers", "texts"),
    Situation("deletes that leave a tombstone", lambda user, key: delete(user, key, 1.0, 0.05), "done", "failed"),
    Situation("deletes that may leave a tombstone", lambda user, key: delete(user, key, 0.5, 0.1), "lost", "failed"),
    Situation("deletes that leave nothing", lambda user, key: delete(user, key, 0.0, 0.2), "failed"),
    Situation("a file for each client", lambda user, key: delete(user, key, 1.0, 0.2), "done", "done in the order of time", is_joined=True),
)


def user_of(store, log, at, situation, recipe):
    """A client in a situation, which calls and pauses. It may stop in the middle of a call, of which its request goes its way."""
    user, stops = User(store, log, at, recipe), store.rng.random() < STOP_SHARE
    for _ in range(store.rng.randrange(CALLS) if stops else CALLS):
        yield store.rng.uniform(*PAUSES)
        yield from situation.call(user, store.rng.randrange(KEYS))
    if stops:
        next(situation.call(user, store.rng.randrange(KEYS)))


def situated(seed, situation, recipe):
    """The log of one run in a situation, which may end anywhere."""
    kind, simulation, log = KINDS[seed % len(KINDS)], Simulation(), Log(f"{seed} ")
    store = Store(kind, simulation, random.Random(seed), situation.messages)
    for number in range(CLIENTS):
        simulation.start(user_of(store, log, number % kind.replicas, situation, recipe))
    simulation.run()
    if store.rng.random() < CUT_SHARE:
        del log.lines[store.rng.randrange(len(log.lines)) :]
    if situation.is_joined:
        log.lines.sort(key=lambda event: event[1])
    return log.text()


def lines_of(text):
    """What the lines of a report say of each criterion."""
    return dict(word.split(" ", 1) for word in text.split("; ")) if "; " in text else {}


def verdict_of_log(program, text):
    """The lines of a log."""
    done = subprocess.run([*program, "judge", "--long", "--events"], input=text, capture_output=True, check=False, text=True, timeout=800)
    return lines_of("; ".join(done.stdout.splitlines()))


def verdicts(program, texts, recipe):
    """For each log or history its three lines."""
    if recipe.is_log:
        with ThreadPoolExecutor(os.cpu_count() or 2) as pool:
            return list(pool.map(lambda text: verdict_of_log(program, text), texts))
    done = subprocess.run([*program, "judge", "--lines"], input="\n".join(texts), capture_output=True, check=False, text=True, timeout=800)
    lines = [lines_of(line) for line in done.stdout.splitlines()]
    return lines + [{}] * (len(texts) - len(lines))


def faults(seed, lines):
    """Which of the lines that the store of a seed promises are no yes."""
    return [f"{criterion} {lines.get(criterion)}" for criterion in KINDS[seed % len(KINDS)].promised if lines.get(criterion) != "yes"]


def blamed_run(program, runs, heads):
    """The first of these runs, of one kind of store, of which something promised is no yes where the log begins with one of these heads;
    none where there is none. A run is its seed and its log."""
    seed = runs[0][0]

    def is_met(some):
        log = "".join(text for _, text in some)
        return not any(faults(seed, verdict_of_log(program, head + log)) for head in heads)

    if is_met(runs):
        return None
    while len(runs) > 1:
        half = len(runs) // 2
        runs = runs[half:] if is_met(runs[:half]) else runs[:half]
    return runs[0]


def blamed_runs(program, count, situation, recipe):
    """Of so many runs in a situation, one of each JUDGED_TOGETHER of which something promised is no yes, if any."""
    step = len(KINDS) * JUDGED_TOGETHER
    for first, kind in itertools.product(range(0, count, step), range(len(KINDS))):
        runs = [(seed, situated(seed, situation, recipe)) for seed in range(first + kind, min(count, first + step), len(KINDS))]
        if runs and (found := blamed_run(program, runs, situation.heads(recipe))):
            yield found


def judge_situation(program, count, situation):
    """Judges runs in a situation; gives how many came out as they should, and how many did not. By a wrong recipe one has to be a `no`."""
    found = list(blamed_runs(program, count, situation, situation.right))
    for seed, text in found:
        print(f"{situation.name}, recorded as {situation.right}: seed {seed}: {text}", flush=True)
    if not situation.wrong:
        return count - len(found), len(found)
    seed, text = next(blamed_runs(program, SITUATED_BLAMING_RUNS, situation, situation.wrong), (0, ""))
    said = "; ".join(faults(seed, verdict_of_log(program, ORDER + text)))
    is_blamed = " no " in said
    print(f"{situation.name}, recorded as {situation.wrong}: seed {seed}: {said or 'no run is a no'}", flush=True)
    return count - len(found) + is_blamed, len(found) + (not is_blamed)


def main():
    parser = argparse.ArgumentParser(description=__doc__, formatter_class=argparse.RawDescriptionHelpFormatter)
    parser.add_argument("runs", type=int)
    given = with_program(parser)
    passed = failed = 0
    for recipe in RIGHT:
        texts = [recorded(seed, recipe) for seed in range(given.runs)]
        for seed, lines in enumerate(verdicts(given.program, texts, recipe)):
            found = faults(seed, lines)
            passed, failed = passed + (not found), failed + bool(found)
            if found:
                print(f"seed {seed}: {'; '.join(found)}: {texts[seed]}", flush=True)
    for name, recipe in WRONG.items():
        found = verdicts(given.program, [recorded(seed, recipe) for seed in range(BLAMING_RUNS)], recipe)
        blamed = sum(" no " in "; ".join(faults(seed, lines)) for seed, lines in enumerate(found))
        print(f"{name}: {blamed} of {BLAMING_RUNS} runs are a no", flush=True)
        passed, failed = passed + (blamed >= LEAST_BLAMED), failed + (blamed < LEAST_BLAMED)
    with ThreadPoolExecutor(os.cpu_count() or 2) as pool:
        counts = list(pool.map(lambda situation: judge_situation(given.program, given.runs // 2, situation), SITUATIONS))
    end(passed + sum(count[0] for count in counts), failed + sum(count[1] for count in counts))


if __name__ == "__main__":
    main()
