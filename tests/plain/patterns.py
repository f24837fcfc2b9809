"""Patterns against memory histories, written down plainly: their forms, and whether one shows that a criterion is not met."""

from objects import DONE, UNKNOWN, is_number

CRITERIA = ("cc", "cm", "ccv")
AGAINST = {
    "CyclicCO": CRITERIA,
    "ThinAirRead": CRITERIA,
    "WriteCOInitRead": CRITERIA,
    "WriteCORead": CRITERIA,
    "WriteHBInitRead": ("cm",),
    "CyclicHB": ("cm",),
    "CyclicCF": ("ccv",),
}
MOST_LINES = 100_000


def is_list_of(has_form, value):
    return type(value) is list and all(map(has_form, value))


def is_op(value):
    return is_list_of(is_number, value) and len(value) == 2


def is_path(value):
    return is_list_of(is_op, value)


def is_worded(words, value):
    """A list of one of these words and of parts that have the forms that the word has behind it."""
    if type(value) is not list or not value or type(value[0]) is not str or value[0] not in words:
        return False
    forms = words[value[0]]
    return len(value) == 1 + len(forms) and all(has_form(part) for has_form, part in zip(forms, value[1:]))


def is_link(value):
    return is_worded({"co": (is_op, is_op), "cf": (is_path, is_op)}, value)


def is_line(value):
    return is_worded({"co": (is_path, is_path), "tr": (is_number, is_number), "rf": (is_number, is_op)}, value)


def is_links(value):
    return is_list_of(is_link, value)


def is_lines(value):
    return is_list_of(is_line, value)


FORMS = {
    "CyclicCO": (is_path,),
    "ThinAirRead": (is_op,),
    "WriteCOInitRead": (is_path,),
    "WriteCORead": (is_path, is_path),
    "CyclicCF": (is_links,),
    "CyclicHB": (is_op, is_lines),
    "WriteHBInitRead": (is_op, is_lines),
}


def is_pattern(value):
    """Whether the value is the form of a pattern."""
    return is_worded(FORMS, value)


class MemoryHistory:
    """The operations of a history of a memory, each a pair of its session and its place there, and what relates them."""

    def __init__(self, sessions, start):
        self.operations = {(s, i): entry for s, session in enumerate(sessions) for i, entry in enumerate(session)}
        self.start = dict(map(tuple, start))
        self.writers = {}
        for op, (call, _) in self.operations.items():
            if call[0] == "w":
                self.writers.setdefault((call[1], call[2]), []).append(op)

    def initial(self, key):
        return self.start.get(key, 0)

    def is_differentiated(self):
        """No variable is written twice with one value, and no write writes the initial value."""
        return all(len(ops) == 1 and value != self.initial(key) for (key, value), ops in self.writers.items())

    def write(self, op):
        """The variable of a write."""
        call, _ = self.operations.get(op, (None, None))
        return call[1] if call and call[0] == "w" else None

    def read(self, op):
        """The variable and the value of a known read."""
        call, ret = self.operations.get(op, (None, None))
        return (call[1], ret) if call and call[0] == "r" and ret not in (UNKNOWN, DONE) else None

    def source(self, op):
        """The write that a read reads from."""
        found = self.read(op)
        if found is None or found[1] == self.initial(found[0]):
            return None
        return self.writers.get(found, [None])[0]

    def reads_nothing_written(self, op):
        """The variable of a known read of the initial value."""
        found = self.read(op)
        return found[0] if found and found[1] == self.initial(found[0]) else None

    def are_two_writes(self, one, other):
        """Different writes of one variable."""
        return one != other and self.write(one) is not None and self.write(one) == self.write(other)

    def is_edge(self, a, b):
        """From an operation to a later one of its session, or from a write to a read that reads from it."""
        both = a in self.operations and b in self.operations
        return both and ((a[0] == b[0] and a[1] < b[1]) or self.source(b) == a)

    def ends(self, path):
        """The first and the last operation of a path, where the list is one."""
        ops = [tuple(op) for op in path]
        if not ops or not all(op in self.operations for op in ops):
            return None
        return (ops[0], ops[-1]) if all(map(self.is_edge, ops, ops[1:])) else None


def not_after(op, o):
    """An operation is another one, or before it in its session."""
    return op[0] == o[0] and op[1] <= o[1]


def is_cycle(history, path):
    ends = history.ends(path)
    return ends is not None and len(path) > 1 and ends[0] == ends[1]


def is_thin_air_read(history, op):
    found = history.read(tuple(op))
    return found is not None and found[1] != history.initial(found[0]) and found not in history.writers


def is_read_of_nothing_after(history, ends):
    """A pair of a write and of a read of the initial value of its variable."""
    if ends is None or history.write(ends[0]) is None:
        return False
    return history.write(ends[0]) == history.reads_nothing_written(ends[1])


def is_overwritten_read(history, first, second):
    above, below = history.ends(first), history.ends(second)
    if above is None or below is None or above[1] != below[0]:
        return False
    return history.are_two_writes(*above) and history.source(below[1]) == above[0]


def link_ends(history, link):
    """What a link goes from and to, where it holds."""
    if link[0] == "co":
        ends = tuple(link[1]), tuple(link[2])
        return ends if history.is_edge(*ends) else None
    ends, to = history.ends(link[1]), tuple(link[2])
    if ends is None or history.source(ends[1]) != to or not history.are_two_writes(ends[0], to):
        return None
    return ends[0], to


def is_cycle_of_links(history, links):
    ends = [link_ends(history, link) for link in links]
    if not ends or None in ends:
        return False
    return all(before[1] == after[0] for before, after in zip(ends, ends[1:] + ends[:1]))


def line_pair(history, o, pairs, line):
    """The pair that a line gives, where it holds, behind the lines that gave these pairs."""
    if line[0] == "co":
        ends, rest = history.ends(line[1]), history.ends(line[2])
        holds = ends is not None and len(line[1]) > 1 and rest == (ends[1], o)
        return ends if holds else None
    if line[0] == "tr":
        if max(line[1], line[2]) >= len(pairs):
            return None
        one, other = pairs[line[1]], pairs[line[2]]
        return (one[0], other[1]) if one[1] == other[0] else None
    read = tuple(line[2])
    source = history.source(read)
    if line[1] >= len(pairs) or pairs[line[1]][1] != read or source is None or not not_after(read, o):
        return None
    write = pairs[line[1]][0]
    return (write, source) if history.are_two_writes(write, source) else None


def derived(history, o, lines):
    """The pair that the last line of a derivation gives, where each of its lines holds."""
    pairs = []
    for line in lines[: MOST_LINES + 1]:
        pair = line_pair(history, o, pairs, line)
        if pair is None:
            return None
        pairs.append(pair)
    return pairs[-1] if pairs and len(lines) <= MOST_LINES else None


def shows(history, criterion, pattern):
    """Whether the pattern is against the criterion and shows its kind in a history of distinct values."""
    kind, *parts = pattern
    if not history.is_differentiated() or criterion not in AGAINST[kind]:
        return False
    if kind == "CyclicCO":
        return is_cycle(history, *parts)
    if kind == "ThinAirRead":
        return is_thin_air_read(history, *parts)
    if kind == "WriteCOInitRead":
        return is_read_of_nothing_after(history, history.ends(*parts))
    if kind == "WriteCORead":
        return is_overwritten_read(history, *parts)
    if kind == "CyclicCF":
        return is_cycle_of_links(history, *parts)
    o = tuple(parts[0])
    pair = derived(history, o, parts[1])
    if pair is None:
        return False
    if kind == "CyclicHB":
        return pair[0] == pair[1]
    return is_read_of_nothing_after(history, pair) and not_after(pair[1], o)
