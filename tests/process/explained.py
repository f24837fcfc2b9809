#!/usr/bin/env python3
"""Puts what `explain` shows of random histories to `judge`, `refute` and `check`.

    python3 tests/process/explained.py SEED COUNT -- PROGRAM

Each history is small, of a memory, and read at random: most of its values are there, and some patterns too. `explain --json` has
to say of each criterion what `judge` says, and `refute` has to accept each pattern that it shows. Beside a pattern stands the guarantee
that its stale read breaks, by plain_remarks.py; and beside an unknown, without which variables `judge` says no, and by which kind, exactly
where it does. `explain --json --certificates`
has to say the same, with a certificate in the place of each `null` of a yes, and `check` has to say yes of each. The words of
`explain` have to have the lines of `judge` among them, and `judge` has to say `no` of each core that stands there, of the same
criterion: behind a `no`, and behind an `unknown` where variables were left out.
`explain --svg` has to draw one picture, with all that pictures.py asks of it. A form that the program doesn't know is left out, and so are
its counts. It prints a line for each history where that is not so, and how many patterns of each kind, certificates and cores were accepted,
and ends with status 1 where there is one.
"""

import json
import random
import subprocess
import sys
from collections import Counter

import folders  # noqa: F401
import pictures
import plain_remarks
import reading
from counting import end

CRITERIA = ("cc", "cm", "ccv")
USAGE = 2


def history(rng):
    """Some sessions that write new values, a few of them twice, and read what was written or the initial value."""
    written = [[0] for _ in range(3)]
    fresh = iter(range(1, 1000))
    operations = [rng.choice("wrr") for _ in range(rng.randint(2, 14))]
    sessions = [[] for _ in range(rng.randint(1, 4))]
    planned = []
    for word in operations:
        key = rng.randrange(len(written))
        if word == "w":
            again = rng.random() < 0.03
            value = rng.choice(written[key]) if again else next(fresh)
            written[key].append(value)
            planned.append(["w", key, value])
        else:
            planned.append(["r", key])
    for operation in planned:
        if operation[0] == "r":
            operation.append(next(fresh) if rng.random() < 0.02 else rng.choice(written[operation[1]]))
        rng.choice(sessions).append(operation)
    return ["memory", sessions]


def said(program, words, value):
    ran = subprocess.run([*program, *words], input=json.dumps(value), capture_output=True, text=True)
    return ran.returncode, ran.stdout


def line_of(reason):
    """The line of `judge` for a reason, but for the kind of a pattern that is not written out."""
    criterion, word, shown, *_ = reason
    if word == "no":
        return f"{criterion} no {shown if isinstance(shown, str) else shown[0]}"
    return f"{criterion} {word}" + ("" if shown is None else f" {shown[0]}.{shown[1]}")


def has_idle_line(pattern):
    """Whether a derivation has a line before its last one to which no other refers."""
    if pattern[0] not in ("WriteHBInitRead", "CyclicHB"):
        return False
    lines = pattern[2]
    needed = {number for word, *parts in lines for number in (parts if word == "tr" else parts[:1] if word == "rf" else ())}
    return not needed.issuperset(range(len(lines) - 1))


def remark_faults(program, form, reasons, accepted):
    """What is wrong with what stands beside what shows the findings on a memory."""
    start, sessions = reading.read_long(json.dumps(form).encode())
    repeated, found = plain_remarks.repeated_variables(start, sessions), []
    rest = said(program, ["judge"], plain_remarks.without(form, repeated))[1] if repeated else ""
    for criterion, word, shown, *beside in reasons:
        due = plain_remarks.on_pattern(shown) if word == "no" else plain_remarks.on_unknown(criterion, repeated, rest) if word == "unknown" else []
        if due:
            accepted[f"{criterion} {word} with {due[0] if word == 'no' else 'variables left out'}"] += 1
        if beside != due:
            found.append(f"beside {shown!r} of {criterion} stands {beside!r}, due {due!r}")
    return found


def pattern_faults(program, form, lines, accepted):
    """What is wrong with the reasons on a history, and what they are."""
    status, text = said(program, ["explain", "--json"], form)
    if status != 0:
        return [f"status {status} of explain --json"], []
    reasons = json.loads(text)
    found = []
    if [line_of(reason) for reason in reasons] != lines.splitlines() or [reason[0] for reason in reasons] != list(CRITERIA):
        found.append(f"judge says {lines!r}, and explain {text!r}")
    found += remark_faults(program, form, reasons, accepted)
    for criterion, word, shown, *_ in reasons:
        if word == "no" and not isinstance(shown, str):
            claim = [form, criterion, shown]
            if said(program, ["refute"], claim) != (0, f"{criterion} no {shown[0]}\n"):
                found.append(f"refute does not accept {json.dumps(claim)}")
            if has_idle_line(shown):
                found.append(f"a line is idle: {json.dumps(claim)}")
            accepted[f"{criterion} {shown[0]}"] += 1
    return found, reasons


def certificate_faults(program, form, reasons, accepted):
    """What is wrong with the certificates of a history, which stand where reasons have the `null` of a yes."""
    status, text = said(program, ["explain", "--json", "--certificates"], form)
    if status == USAGE:
        return []
    if status != 0:
        return [f"status {status} of explain --json --certificates"]
    found, certified = [], json.loads(text)
    bare = [[criterion, word, None if word == "yes" else shown, *beside] for criterion, word, shown, *beside in certified]
    if bare != reasons:
        found.append(f"explain says {reasons!r}, and with certificates {certified!r}")
    for criterion, word, shown, *_ in certified:
        if word == "yes":
            if shown is None:
                found.append(f"no certificate for {criterion}")
            elif said(program, ["check"], [form, shown]) != (0, f"{criterion} yes\n"):
                found.append(f"check does not accept {json.dumps([form, shown])}")
            accepted[f"{criterion} certificate"] += 1
    return found


def core_in(words):
    """The history that a line of words ends with, where it does."""
    start = words.find('["memory"')
    return json.loads(words[start:]) if start >= 0 else None


def written_sections(text):
    """Each line that is not indented, with the indented ones after it."""
    found = []
    for line in text.splitlines():
        if line.startswith("  ") and found:
            found[-1][1].append(line.strip())
        else:
            found.append((line, []))
    return found


def sections(text):
    """The same, with the lines of a criterion in full where one says that they are those of a criterion before."""
    found = written_sections(text)
    own = {line.split(" ")[0]: reason for line, reason in found}
    return [(line, [part for words in reason for part in own.get(words.removeprefix("as for "), [words])]) for line, reason in found]


def repeated_reasons(text):
    """What is given twice: reasons of several lines that are those of a criterion before."""
    reasons = [reason for _, reason in written_sections(text) if len(reason) > 1]
    return [f"given twice: {reason!r}" for at, reason in enumerate(reasons) if reason in reasons[:at]]


def core_faults(program, line, words, accepted):
    """What is wrong with a line of words that ends with a core: `judge` says `no` of it, of the same criterion."""
    core = core_in(words)
    if core is None:
        return []
    criterion, word = line.split()[:2]
    accepted[f"{criterion} core" if word == "no" else f"{criterion} core without variables"] += 1
    judged = [line.split()[:2] for line in said(program, ["judge"], core)[1].splitlines()]
    return [] if [criterion, "no"] in judged else [f"the core of {criterion} is {json.dumps(core)}, of which judge says {judged}"]


def word_faults(program, form, lines, accepted):
    """What is wrong with the words on a history: the lines of `judge` stand there in order, each before its indented reason."""
    status, text = said(program, ["explain"], form)
    if status != 0 or text.startswith("["):
        return [] if status in (0, USAGE) else [f"status {status} of explain"]
    parts = sections(text)
    found = [fault for line, reason in parts for words in reason for fault in core_faults(program, line, words, accepted)]
    if [line for line, _ in parts] != lines.splitlines():
        found.append(f"judge says {lines!r}, and the words begin with {[line for line, _ in parts]!r}")
    return found + repeated_reasons(text)


def picture_faults(program, form):
    """What is wrong with the picture of a history."""
    status, text = said(program, ["explain", "--svg"], form)
    if status != 0:
        return [] if status == USAGE else [f"status {status} of explain --svg"]
    return pictures.faults_of(text, form[1])


def faults(program, form, accepted):
    """What is wrong with the explanations of a history."""
    status, lines = said(program, ["judge"], form)
    if status != 0:
        return [f"status {status} of judge"]
    found, reasons = pattern_faults(program, form, lines, accepted)
    found += certificate_faults(program, form, reasons, accepted)
    return found + word_faults(program, form, lines, accepted) + picture_faults(program, form)


def main():
    split = sys.argv.index("--")
    seed, count = (int(word) for word in sys.argv[1:split])
    program, rng, accepted, wrong = sys.argv[split + 1 :], random.Random(seed), Counter(), 0
    for _ in range(count):
        form = history(rng)
        found = faults(program, form, accepted)
        wrong += bool(found)
        for fault in found:
            print(f"{json.dumps(form)}: {fault}")
    for what, times in sorted(accepted.items()):
        print(f"{what}: {times} accepted")
    end(count - wrong, wrong)


if __name__ == "__main__":
    main()
