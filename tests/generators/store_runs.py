"""Makes runs of replicated stores, memory histories of any length, and the text of each, the same one each time.

Every session has a replica, and now and then it takes in all that another replica has and it has not, in the order in which this was
written: so it takes in a write only after all that is before it. The sessions take turns at random. Few keys are hot; of many, each is
written by few.

| store | a read returns | what is met |
|---|---|---|
| arrival | what its replica wrote or took in last under the key | cc and cm: each session sees the writes in one order |
| stamps | what has the greatest stamp of a Lamport clock, of equal ones that of the greatest session | cc and ccv: stamps order all |
| copy | what was written last under the key, by whomever | all three |
"""

import bisect
import random

import planted

MET = {"arrival": {"cc": "yes", "cm": "yes"}, "stamps": {"cc": "yes", "ccv": "yes"}, "copy": {"cc": "yes", "cm": "yes", "ccv": "yes"}}


class Arrival:
    """Replicas of which each has the writes of all in an order of its own. A value is the number of its write, which rises from all that is
    before it; `written[s]` lists the values that a session wrote, and `seen[t][s]` says how many of them a replica took in."""

    def __init__(self, sessions):
        self.key_of = [None]
        self.written = [[] for _ in range(sessions)]
        self.seen = [[0] * sessions for _ in range(sessions)]
        self.held = [{} for _ in range(sessions)]

    def write(self, session, key):
        value = len(self.key_of)
        self.key_of.append(key)
        self.written[session].append(value)
        self.seen[session][session] += 1
        self.held[session][key] = value
        return value

    def read(self, session, key):
        return self.held[session].get(key, 0)

    def take_in(self, session, other):
        """Takes in all that another replica has, in the order in which it was written."""
        mine, fresh = self.seen[session], []
        for s, (have, has) in enumerate(zip(mine, self.seen[other])):
            if has > have:
                fresh += self.written[s][have:has]
                mine[s] = has
        fresh.sort()
        self.held[session].update(zip(map(self.key_of.__getitem__, fresh), fresh))


class Stamps:
    """Replicas that answer by Lamport stamps. A value is a stamp with the session behind it, so that the greatest one counts;
    `values[key]` lists those of a key as they rise, and `seen[t][s]` has the greatest of a session that a replica took in."""

    def __init__(self, sessions):
        self.values = {}
        self.seen = [[0] * sessions for _ in range(sessions)]
        self.held = [{} for _ in range(sessions)]

    def write(self, session, key):
        seen = self.seen[session]
        value = (max(seen) // len(seen) + 1) * len(seen) + session
        bisect.insort(self.values.setdefault(key, []), value)
        seen[session] = self.held[session][key] = value
        return value

    def read(self, session, key):
        """The greatest value that was taken in, which is held until more is."""
        seen, held = self.seen[session], self.held[session]
        if key not in held:
            held[key] = next((value for value in reversed(self.values.get(key, ())) if value <= seen[value % len(seen)]), 0)
        return held[key]

    def take_in(self, session, other):
        """Takes in all that another replica has."""
        self.seen[session] = list(map(max, self.seen[session], self.seen[other]))
        self.held[session].clear()


class Copy:
    """One copy for all sessions. A value is the number of its write."""

    def __init__(self, _):
        self.writes = 0
        self.held = {}

    def write(self, _, key):
        self.writes += 1
        self.held[key] = self.writes
        return self.writes

    def read(self, _, key):
        return self.held.get(key, 0)

    def take_in(self, session, other):
        """Nothing is there that a session has not."""


STORES = {"arrival": Arrival, "stamps": Stamps, "copy": Copy}


def turns(sessions, operations, rng):
    """The sessions in the order of their operations."""
    all_turns = [turn % sessions for turn in range(operations)]
    rng.shuffle(all_turns)
    return all_turns


def run_of(store, sessions, operations, keys, rng, writes=50, gap=8):
    """The operations of a run of a store, of each session a list of words, keys and values."""
    run, found, names = STORES[store](sessions), [[] for _ in range(sessions)], list(range(keys))
    for session in turns(sessions, operations, rng):
        if sessions > 1 and rng.random() * gap < 1:
            other = int(rng.random() * (sessions - 1))
            run.take_in(session, other + (other >= session))
        key = names[int(rng.random() * keys)]
        if rng.random() * 100 < writes:
            found[session].append(("w", key, run.write(session, key)))
        else:
            found[session].append(("r", key, run.read(session, key)))
    return found


def read_writes(sessions):
    """The places of the writes that were read."""
    read = {(key, value) for operations in sessions for word, key, value in operations if word == "r"}
    return [
        (s, place)
        for s, operations in enumerate(sessions)
        for place, (word, *written) in enumerate(operations)
        if word == "w" and tuple(written) in read
    ]


def lose(sessions, lost, rng):
    """Takes the answer away from so many writes that were read, each of which gets a session of its own, behind a mark in its old place."""
    places = read_writes(sessions)
    if len(places) < lost:
        raise SystemExit(f"only {len(places)} writes were read")
    mark = 1 + max((key for operations in sessions for _, key, _ in operations), default=-1)
    for number, (s, place) in enumerate(sorted(rng.sample(places, lost)), mark):
        _, key, value = sessions[s][place]
        sessions[s][place] = ("w", number, value)
        sessions.append([("r", number, value), ("w", key, value, "?")])


def sure_lines(store, fault=None):
    """What is sure of the lines of a run: of a criterion `yes` or `no KIND`. Of what is not named nothing is known but that it is decided."""
    return planted.lines_with(MET[store], fault) if fault else MET[store]


def history(store, sessions, operations, keys, seed, fault=None, width=1, writes=50, gap=8, lost=0):
    """The operations of the history of a seed."""
    rng = random.Random(f"{store} {sessions} {operations} {keys} {seed}")
    found = run_of(store, sessions, operations, keys, rng, writes, gap)
    if fault and not planted.plant(found, fault, width, keys, rng):
        raise SystemExit(f"{sessions} sessions are too few for this fault")
    if lost:
        lose(found, lost, rng)
    return found


FORMS = {3: '["%s",%d,%d]', 4: '["%s",%d,%d,"%s"]'}


def pieces(sessions):
    """The text of a history, a piece for each session and one before and behind them."""
    yield '["memory",['
    for s, operations in enumerate(sessions):
        yield "," * (s > 0) + "[" + ",".join([FORMS[len(operation)] % operation for operation in operations]) + "]"
    yield "]]\n"
