"""Faults: operations that show a kind of pattern in whatever memory history they are added to.

A fault adds operations of new keys to some sessions, at the beginning of a session, before all else, or at its end. What is read at a
beginning is written at one, but for CyclicCO. So these operations make no other cycle of causal order, and nothing else in the history
comes before an operation at a beginning. A wide fault goes through that many sessions, or takes that many steps to derive.

An operation is a word, a key and a value. A function below gives two lists: what some sessions have at their beginnings, and what they
have at their ends.
"""

CRITERIA = ("cc", "cm", "ccv")


def w(key, value=1):
    return "w", key, value


def r(key, value=1):
    return "r", key, value


def cyclic_co(width):
    """Each session reads at its beginning what the one before writes at its end."""
    return [[r(i)] for i in range(width)], [[w((i + 1) % width)] for i in range(width)]


def thin_air_read(_):
    return [], [[r(0)]]


def passed_on(width):
    """The first session writes key 0, and then key 1. Each of the next ones reads what the one before wrote last, and writes the next key."""
    return [[w(0), w(1)]], [[]] + [[r(i), w(i + 1)] for i in range(1, width + 1)]


def write_co_init_read(width):
    """The last session reads the initial value of key 0."""
    beginnings, ends = passed_on(width)
    return beginnings, [*ends, [r(width + 1), r(0, 0)]]


def write_co_read(width):
    """A session in the middle writes key 0 again, and the last one reads the first value."""
    beginnings, ends = passed_on(width)
    ends[(width + 1) // 2].insert(1, w(0, 2))
    return beginnings, [*ends, [r(width + 1), r(0)]]


def ladder(width, early, late):
    """One session writes 1 to the keys 1, 2 and so on, and another one 2. A third reads the 2 of each key but the last, and before each of
    these reads a mark that the second session wrote after the 2 of the next key. At its end the third sees all that the first wrote, and
    reads the 2 of the last key. So the 1 of the last key comes before its 2, hence that of the key before it, and so on down to key 1.
    `early` is read once the 2 of key 1 has been seen, and `late` at the end."""
    first = [w(0), *(w(i) for i in range(1, width + 1)), w(width + 1)]
    second = [w(1, 2)] + [step for i in range(2, width + 1) for step in (w(i, 2), w(width + i))]
    steps = [step for i in range(1, width) for step in (r(width + i + 1), r(i, 2))] or [r(1, 2)]
    return [first, second, [*steps[:2], early, *steps[2:]]], [[], [], [r(width + 1), r(width, 2), *late]]


def write_hb_init_read(width):
    """The first session writes key 0 before all else."""
    return ladder(width, r(0, 0), [])


def cyclic_hb(width):
    """A fourth session writes key 0 too, and the third reads that first."""
    beginnings, ends = ladder(width, r(0, 2), [r(0)])
    return [*beginnings, [w(0, 2)]], ends


def ring(width):
    """Each session writes 2 to a key, then 1 to the next key, and then a mark."""
    return [[w(i, 2), w((i + 1) % width), w(width + i)] for i in range(width)]


def cyclic_both(width):
    """One session sees all marks, and then reads the 2 of each key."""
    if width == 1:
        return [[w(0)], [w(0, 2)]], [[], [], [r(0), r(0, 2), r(0)]]
    return ring(width), [[]] * width + [[r(width + i) for i in range(width)] + [r(i, 2) for i in range(width)]]


def cyclic_cf(width):
    """For each key a session reads the 2, after a mark that shows the 1."""
    if width == 1:
        return [[w(0), w(1)], [w(0, 2), w(2)]], [[], [], [r(1), r(0, 2)], [r(2), r(0)]]
    return ring(width), [[]] * width + [[r(width + i), r((i + 1) % width, 2)] for i in range(width)]


FAULTS = {
    "CyclicCO": cyclic_co,
    "ThinAirRead": thin_air_read,
    "WriteCOInitRead": write_co_init_read,
    "WriteCORead": write_co_read,
    "WriteHBInitRead": write_hb_init_read,
    "CyclicHB": cyclic_hb,
    "CyclicCF": cyclic_cf,
    "CyclicHB,CyclicCF": cyclic_both,
}
AGAINST_ALL = ("CyclicCO", "ThinAirRead", "WriteCOInitRead", "WriteCORead")
AGAINST_ONE = {"WriteHBInitRead": "cm", "CyclicHB": "cm", "CyclicCF": "ccv"}


def plant(sessions, fault, width, key, rng):
    """Adds a fault to some sessions, with keys from one on, and returns how many keys it has; none where the sessions are too few."""
    beginnings, ends = FAULTS[fault](width)
    many = max(len(beginnings), len(ends))
    if many > len(sessions):
        return 0
    chosen = rng.sample(range(len(sessions)), many)
    moved = lambda some: [(word, key + more, value) for word, more, value in some]
    for s, some in zip(chosen, beginnings):
        sessions[s][:0] = moved(some)
    for s, some in zip(chosen, ends):
        sessions[s] += moved(some)
    return 1 + max(more for some in (*beginnings, *ends) for _, more, _ in some)


def lines_with(lines, fault):
    """What is sure of the lines of a history with a fault, where this is sure without: of a criterion `yes` or `no KIND`."""
    if fault in AGAINST_ALL:
        return dict.fromkeys(CRITERIA, f"no {fault}")
    named = {AGAINST_ONE[kind]: f"no {kind}" for kind in fault.split(",")}
    return {**lines, **{criterion: line for criterion, line in named.items() if criterion == "ccv" or criterion in lines}}
