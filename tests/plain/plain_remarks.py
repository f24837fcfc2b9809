"""What `explain --json` says beside what shows a finding, worked out plainly from docs/definitions.md."""

from collections import Counter

GUARANTEES = ("read your writes", "monotonic reads", "monotonic writes", "writes follow reads", "causal order")
WAY_AT = {"WriteCOInitRead": 1, "WriteCORead": 2}


def of_links(links):
    """The guarantee of a way with so many links."""
    return GUARANTEES[min(links, len(GUARANTEES)) - 1]


def of_steps(steps):
    """The guarantee of a way, given for each of its steps whether it is of the same client."""
    return of_links(sum(not (stays and before) for stays, before in zip(steps, (False, *steps))))


def is_later(before, after):
    """Whether an operation comes after another in its session."""
    return before[0] == after[0] and before[1] < after[1]


def on_pattern(pattern, stays=is_later):
    """What stands beside a pattern: the guarantee that its stale read breaks, or nothing."""
    if type(pattern) is str or pattern[0] not in WAY_AT:
        return []
    way = pattern[WAY_AT[pattern[0]]]
    return [of_steps([stays(*step) for step in zip(way, way[1:])])]


def repeated_variables(start, sessions):
    """The variables that are written twice with one value, or with their initial value."""
    initial = dict(start)
    written = Counter(tuple(call[1:3]) for session in sessions for call, _ in session if call[0] == "w")
    return sorted({key for (key, value), many in written.items() if many > 1 or value == initial.get(key, 0)})


def without(form, variables):
    """The form of a memory without these variables."""
    return ["memory", [[operation for operation in session if operation[1] not in variables] for session in form[1]], *form[2:]]


def on_unknown(criterion, variables, lines):
    """What stands beside an unknown, given the lines of `judge` on the memory without the variables whose values are not distinct."""
    words = next(line.split() for line in lines.splitlines() if line.startswith(f"{criterion} "))
    return [[variables, words[2]]] if words[1] == "no" else []
