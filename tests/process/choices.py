#!/usr/bin/env python3
"""Compares what is said of logs with deletes with all that reads which found nothing can have seen, and with what is forced of them.

    python3 tests/process/choices.py SEED LOGS RUNS [--long] [--timed] -- PROGRAM

- LOGS tiny logs (deleting_stores.py), each with a null read, a read that found nothing of a key that some delete names. All are in the
  order of time, and every other one says so, or all with `--timed`. What `judge` says of each is compared with plain_choices.py. A `no`
  has to be one by every choice of what the null reads saw. Each line has to be that of the history by the forced choice. What is a `no`
  where all null reads are left out has to stay one. One in 2,000 logs may lack a `no` of the forced choice, if a write or a delete was
  lost, since not all is found there, and one in 500 of the runs below. Where `explain` says that an order explains every read, some choice
  has to meet the criterion, and it has to say so of 99 in 100 logs that meet it by some choice. Of a read that nothing is left for, each
  reason that `explain` gives has to hold.
- The cuts of every ninth of these, by `judge --every 1`, which are judged in the order of time: each `no` of a cut is one of each later
  cut, and of the whole log judged in the order of time. The same by every choice of what the null reads saw.
- The examples of plain_choices.py, which that program is tried on too.
- RUNS runs of correct stores, of which none may be a `no`, and as many with each planted fault, with the order of time and without it. Of
  the first 60 with a fault at least so many have to be a `no` as the forced choice finds: the table FOUND. With `--long` each run is
  compared with the history by the forced choice.

It prints for each criterion how many logs are a `no` by every choice, with all null reads left out, by the forced choice and by the
program, without the order of time and with it.
"""

import argparse
import itertools
import random
import subprocess
from collections import Counter

import folders  # noqa: F401
import deleting_stores
import order_remarks
import plain_choices
import plain_events
import plain_forced
from command_words import CRITERIA, with_program
from counting import counted_faults, end
from many_logs import answers_of, kept, said_of

JUDGE, EXPLAIN = ["judge", "--long", "--events"], ["explain", "--long", "--events"]
SECONDS = 120
MOST_CHOICES, FIRST_CHOICES = 2_000, 50
TABLE_RUNS, ENOUGH, CUT_OF = 60, 1_000, 9
TIMED, ORDER = {False: "without the order of time", True: "in the order of time"}, b'["order","time"]\n'
FOUND = {"lost write": (26, 34), "evicted key": (27, 38), "resurrected value": (21, 21), "any replica": (19, 24)}
MISSED, MISSED_OF, MISSED_RUNS_OF = "lack a no of the forced choice where a call was lost", 2_000, 500
LEAST_EXPLAINED = 0.99
ORDERS = ("are met by some choice", "have an order that explains every read")
WAYS = ("every choice", "the log without null reads", "the forced choice", "the program")
REASONS = ("replaced", "comes after it", "began after it had ended")
SEEN = ("the start", "a delete", "more than one candidate", "no candidate", "a lost delete", "a pending delete")


def lines_of(program, logs):
    """Of each log what the program says of each criterion, in the order of the logs."""
    return (answers_of(said.text) for said in said_of(program, JUDGE, logs))


def refusing(kinds):
    """The criteria against which some kinds are."""
    return {criterion for criterion, kind in kinds.items() if kind}


def said_no(said):
    """The criteria of which the program says `no`."""
    return {criterion for criterion, answer in said.items() if answer.startswith("no ")}


def forced_faults(forced, by_forced, said, counts):
    """What is wrong with what the program says of each criterion of a log, of which these are not met by the forced choice. What may be
    missed is counted."""
    for criterion in CRITERIA:
        if said.get(criterion) != "yes" and criterion not in said_no(said):
            yield f"{criterion} {said.get(criterion)}, where values are distinct"
    for criterion in said_no(said) - by_forced:
        yield f"{criterion} {said[criterion]}, and the forced choice meets it"
    missed = by_forced - said_no(said)
    if any(call.ending == "lost" and call.word != "r" for call in forced.calls):
        counts[MISSED] += bool(missed)
    else:
        yield from (f"{criterion} {said.get(criterion)}, and the forced choice does not meet it" for criterion in missed)


def all_faults_of(forced, ways, said, counts):
    """The same of a tiny log, with what is wrong by every choice of it, and with all null reads left out."""
    by_all, left_out, by_forced = ways
    if not all(forced.left.values()) and by_forced != set(CRITERIA):
        yield "a read is left with no candidate, and the forced choice meets a criterion"
    yield from forced_faults(forced, by_forced, said, counts)
    for criterion in said_no(said) - by_all:
        yield f"{criterion} {said[criterion]}, and some choice meets it"
    for criterion in left_out - said_no(said):
        yield f"{criterion} {said.get(criterion)}, and no where all null reads are left out"


def no_by_all(events, forced, is_timed):
    """The criteria that no choice meets of what the null reads of some events saw. Choices that are not out are tried first."""
    likely = itertools.islice(plain_choices.choices_of(forced.left), FIRST_CHOICES)
    met = plain_choices.met_by_some(events, is_timed, likely)
    return set() if met is None else set(CRITERIA) - met


def ways_of(events, forced, is_timed):
    """The criteria of which the history of some events is a `no`: by every choice, with null reads left out, and by the forced choice."""
    left_out, by_forced = plain_choices.kinds_by(events, {}), plain_choices.kinds_by(events, forced.choice)
    return no_by_all(events, forced, is_timed), refusing(left_out), refusing(by_forced)


def seen_of(forced):
    """What null reads saw by the forced choice."""
    lost, pending = ({call.place for call in forced.calls if call.ending == ending} for ending in ("lost", "open"))
    for left in forced.left.values():
        if len(left) != 1:
            yield "more than one candidate" if left else "no candidate"
            continue
        yield "the start" if left[0] is plain_forced.START else "a delete"
        yield from ["a lost delete"] * (left[0] in lost) + ["a pending delete"] * (left[0] in pending)


def late_faults(events):
    """What is wrong with some events that have to be in the order of time: a value that is read before its write begins."""
    late = plain_events.late_write(events, 1, len(events))
    return [f"not in the order of time: the read at {late[0]}, the write at {late[1]}"] if late else []


def order_faults(text, by_all, is_timed, counts):
    """What is wrong with what the words of the program say of a tiny log, which no choice meets by these criteria: where an order explains
    every read, some choice has to meet the criterion. How often such an order was found is counted."""
    try:
        explained = order_remarks.explained_in(text)
    except order_remarks.NotRead as fault:
        return [f"words on reads that found nothing: {fault}"]
    counts.update((what, is_timed, criterion) for what, some in zip(ORDERS, (set(CRITERIA) - by_all, explained)) for criterion in some)
    return [f"{criterion}: an order is said to explain every read, and no choice meets it" for criterion in explained & by_all]


def lacking_faults(found, forced, text, counts):
    """What is wrong with what the words say of a read that nothing is left for: each candidate has to be named with a reason that holds."""
    try:
        said = order_remarks.lacking_in(text)
    except order_remarks.NotRead as fault:
        return [f"words on a read that nothing is left for: {fault}"]
    if said is None:
        is_lossy = any(call.ending == "lost" for call in forced.calls)
        return [] if all(forced.left.values()) or is_lossy else ["no word on a read that nothing is left for"]
    place = {line: place for place, line in enumerate(found.lines)}
    [read] = [read for read in forced.reads if read.place == place[said.line]] or [None]
    if read is None or forced.left_at_end(read):
        return [f"line {said.line}: something is left that it can have seen"]
    named = {place.get(exclusion.delete, plain_forced.START) for exclusion in said.exclusions}
    counts.update(exclusion.reason for exclusion in said.exclusions)
    due = set(plain_events.Run(found.events, {}).candidates()[read.place])
    wrong = [] if named <= due and len(named) + said.more == len(due) else [f"line {said.line}: {named} and {said.more} more, due {due}"]
    for delete, reason, other in said.exclusions:
        if not forced.excludes(read, place.get(delete, plain_forced.START), place.get(other)):
            wrong.append(f"line {said.line}: {delete or 'the start'} {reason} {other or ''} does not hold")
    return wrong


def log_faults(log, said, text, counts):
    """What is wrong with what the program says of a tiny log, in lines and in words. How often each thing came is counted."""
    found = plain_events.read_log(log)
    events, is_timed = found.events, found.is_timed
    forced = plain_events.Run(events, {}, is_timed).forced()
    ways = ways_of(events, forced, is_timed)
    counts["logs", is_timed] += 1
    counts.update(seen_of(forced))
    counts.update((way, is_timed, criterion) for way, some in zip(WAYS, (*ways, said_no(said))) for criterion in some)
    wrong = [] if answers_of(text) == said else [f"explain: {answers_of(text)}, judge: {said}"]
    wrong += [*order_faults(text, ways[0], is_timed, counts), *lacking_faults(found, forced, text, counts)]
    return [*wrong, *all_faults_of(forced, ways, said, counts), *late_faults(events)]


def cut_choice_faults(events):
    """What is wrong with the cuts of some events by every choice: each `no` of a cut has to be one of the next cut."""
    earlier = set()
    for many in range(1, len(events) + 1):
        some = no_by_all(events[:many], plain_events.Run(events[:many], {}, True).forced(), True)
        if earlier - some:
            yield f"{many - 1} events are a no by every choice for {earlier - some}, and {many} are none"
        earlier = some


def cut_faults(program, log, counts):
    """What is wrong with what the program says of the cuts of a log, and with the cuts by every choice."""
    done = subprocess.run([*program, *JUDGE, "--every", "1"], input=log, capture_output=True, check=False, timeout=SECONDS)
    cuts = [line.partition(" ")[::2] for line in done.stdout.decode(errors="replace").splitlines()]
    refused = [(int(many), {text.split(" ")[0] for text in lines.split("; ") if " no " in text}) for many, lines in cuts]
    found = plain_events.read_log(log)
    events = found.events
    if [many for many, _ in refused] != list(range(1, len(events) + 1)):
        yield f"cuts at {[many for many, _ in refused]}"
        return
    yield from cut_choice_faults(events)
    [whole] = lines_of(program, [log if found.is_timed else ORDER + log])
    refused.append(("all", said_no(whole)))
    for (many, some), (more, later) in itertools.pairwise(refused):
        counts["cuts"] += 1
        counts["cuts with a no that a later one takes back"] += bool(some - later)
        if some - later:
            yield f"{many} events are a no for {some - later}, and {more} are none"


def missed_faults(counts, many, share):
    """What is wrong with how many logs lack a `no`, of so many: one may, and one more of each share."""
    return [] if counts[MISSED] <= 1 + many // share else [f"{counts[MISSED]} of {many} logs {MISSED}"]


def tiny_log(seed, number, is_timed):
    """A tiny log in which some read found nothing of a key that some delete names, with few choices. It says the order of time or not."""
    rng = random.Random(f"{seed} {number}")
    while True:
        log = deleting_stores.tiny_log(rng).encode()
        found = plain_events.Run(plain_events.read_log(log).events, {}).candidates()
        if found and plain_choices.how_many(found) <= MOST_CHOICES:
            return ORDER * is_timed + log


def tiny_faults(given, counts):
    """The faults of each tiny log, and of the examples of plain_choices.py, in which each kind of a null read comes."""
    logs = [tiny_log(given.seed, number, given.timed or number % 2 == 1) for number in range(given.logs)]
    logs += [plain_choices.log_of(*example.calls) for example in plain_choices.EXAMPLES.values()]
    for log, said, words in zip(logs, lines_of(given.program, logs), said_of(given.program, EXPLAIN, logs)):
        wrong = log_faults(log, said, words.text, counts)
        yield [kept(log), *wrong] if wrong else []
    for log in logs[::CUT_OF]:
        wrong = list(cut_faults(given.program, log, counts))
        yield [kept(log), *wrong] if wrong else []
    yield missed_faults(counts, given.logs, MISSED_OF)
    for what in (*SEEN, *REASONS) if given.logs >= ENOUGH else ():
        yield [] if counts[what] else [f"never seen: {what}"]
    for is_timed, criterion in itertools.product(TIMED, CRITERIA) if given.logs >= ENOUGH else ():
        met, explained = (counts[what, is_timed, criterion] for what in ORDERS)
        yield [] if explained >= LEAST_EXPLAINED * met else [f"{criterion} {TIMED[is_timed]}: {explained} of {met} tiny logs {ORDERS[1]}"]


def run_faults(log, said, counts):
    """What is wrong with what the program says of a run of a faulty store, by the forced choice."""
    read = plain_events.read_log(log)
    forced = plain_events.Run(read.events, {}, read.is_timed).forced()
    return list(forced_faults(forced, refusing(plain_choices.kinds_by(read.events, forced.choice)), said, counts))


def correct_faults(given, is_timed):
    """The faults of each run of a correct store: what the store promises is met."""
    runs = [deleting_stores.store_log(seed) for seed in range(given.runs)]
    logs = [ORDER * is_timed + text.encode() for text, _ in runs]
    for (_, promised), log, said in zip(runs, logs, lines_of(given.program, logs)):
        wrong = [f"{criterion} {said.get(criterion)}, which the store promises" for criterion in promised if said.get(criterion) != "yes"]
        wrong += late_faults(plain_events.read_log(log).events)
        yield [kept(log), *wrong] if wrong else []


def planted_faults(given, fault, is_timed):
    """The faults of each run of a store with a planted fault, and of how many are found."""
    runs, found, counts = [deleting_stores.store_log(seed, fault) for seed in range(given.runs)], [], Counter()
    logs = [ORDER * is_timed + text.encode() for text, _ in runs]
    for (_, promised), log, said in zip(runs, logs, lines_of(given.program, logs)):
        found.append(bool(said_no(said) & set(promised)))
        wrong = run_faults(log, said, counts) if given.long else [] if set(said) == set(CRITERIA) else [f"it says {said}"]
        yield [kept(log), *wrong] if wrong else []
    print(f"{fault}: {sum(found)} of {len(runs)} runs are a no {TIMED[is_timed]}, {counts[MISSED]} {MISSED}", flush=True)
    yield missed_faults(counts, given.runs, MISSED_RUNS_OF)
    many, due = sum(found[:TABLE_RUNS]), FOUND[fault][is_timed]
    yield [] if len(runs) < TABLE_RUNS or many >= due else [f"{fault}: {many} of {TABLE_RUNS} runs are a no {TIMED[is_timed]}, due {due}"]


def all_faults(given, counts):
    yield from plain_choices.faults_of_examples()
    yield from tiny_faults(given, counts)
    for is_timed in TIMED:
        yield from correct_faults(given, is_timed)
        for fault in deleting_stores.FAULTS:
            yield from planted_faults(given, fault, is_timed)


def main():
    parser = argparse.ArgumentParser(description=__doc__, formatter_class=argparse.RawDescriptionHelpFormatter)
    parser.add_argument("seed", type=int)
    parser.add_argument("logs", type=int)
    parser.add_argument("runs", type=int)
    parser.add_argument("--long", action="store_true")
    parser.add_argument("--timed", action="store_true")
    given = with_program(parser)
    counts = Counter()
    passed, failed = counted_faults(all_faults(given, counts))
    for is_timed, way in itertools.product(TIMED, WAYS):
        said = ", ".join(f"{criterion} {counts[way, is_timed, criterion]}" for criterion in CRITERIA)
        print(f"{counts['logs', is_timed]} tiny logs {TIMED[is_timed]} are a no by {way}: {said}")
    for is_timed, what in itertools.product(TIMED, ORDERS):
        said = ", ".join(f"{criterion} {counts[what, is_timed, criterion]}" for criterion in CRITERIA)
        print(f"{counts['logs', is_timed]} tiny logs {TIMED[is_timed]} {what}: {said}")
    print(f"{counts[MISSED]} tiny logs {MISSED}")
    for what in ("cuts", "cuts with a no that a later one takes back"):
        print(f"{counts[what]:8} {what}")
    for what in SEEN:
        print(f"{counts[what]:8} null reads see {what}")
    for reason in REASONS:
        print(f"{counts[reason]:8} things were not seen, by the words: {reason}")
    end(passed, failed)


if __name__ == "__main__":
    main()
