"""Finds patterns in small memory histories, in a plain way, so that scripts have patterns that are accepted."""

from patterns import not_after


class Paths:
    """The shortest paths of at least one edge between the operations of a history."""

    def __init__(self, history):
        self.history = history
        self.operations = sorted(history.operations)
        self.next = {a: [b for b in self.operations if history.is_edge(a, b)] for a in self.operations}
        self.paths = {(a, b): path for a in self.operations for b, path in self.from_one(a).items()}

    def from_one(self, a):
        reached = {}
        waiting = [[a, b] for b in self.next[a]]
        for path in waiting:
            if path[-1] not in reached:
                reached[path[-1]] = path
                waiting += [path + [b] for b in self.next[path[-1]]]
        return reached

    def between(self, a, b):
        path = self.paths.get((a, b))
        return path and [list(op) for op in path]

    def to(self, a, o):
        """A path to an operation, which may have no edge."""
        return [list(o)] if a == o else self.between(a, o)


def cycles(paths):
    for op in paths.operations:
        if paths.between(op, op):
            yield ["CyclicCO", paths.between(op, op)]


def reads(paths):
    """The patterns that end at a read: of nothing that was written, of the initial value, or of what was overwritten."""
    history = paths.history
    for read in paths.operations:
        found = history.read(read)
        if found and history.source(read) is None and found[1] != history.initial(found[0]):
            yield ["ThinAirRead", list(read)]
        for write in paths.operations:
            path = paths.between(write, read)
            if path and history.write(write) is not None and history.write(write) == history.reads_nothing_written(read):
                yield ["WriteCOInitRead", path]
            above = paths.between(history.source(read), write)
            if path and above and history.are_two_writes(history.source(read), write):
                yield ["WriteCORead", above, path]


def conflicts(paths):
    """Links from one operation to another: edges, and paths to a read of another write."""
    history = paths.history
    for a in paths.operations:
        for b in paths.operations:
            if history.is_edge(a, b):
                yield a, b, ["co", list(a), list(b)]
            source = history.source(b)
            if history.are_two_writes(a, source) and paths.between(a, b):
                yield a, source, ["cf", paths.between(a, b), list(source)]


def cycles_of_conflicts(paths):
    links = list(conflicts(paths))
    for first in links:
        waiting, seen = [[first]], set()
        for chain in waiting:
            if chain[-1][1] == first[0]:
                yield ["CyclicCF", [link for _, _, link in chain]]
                break
            if chain[-1][1] not in seen:
                seen.add(chain[-1][1])
                waiting += [chain + [link] for link in links if link[0] == chain[-1][1]]


def saturated(paths, o):
    """The lines of a derivation for an operation with all pairs, and the pair of each."""
    lines, pairs = [], {}
    for a, b in paths.paths:
        if paths.to(b, o):
            pairs[a, b] = len(lines)
            lines.append(["co", paths.between(a, b), paths.to(b, o)])
    waiting = list(pairs)
    for a, b in waiting:
        source = paths.history.source(b)
        more = [((a, source), ["rf", pairs[a, b], list(b)])] if not_after(b, o) and paths.history.are_two_writes(a, source) else []
        for c, d in list(pairs):
            more += [((a, d), ["tr", pairs[a, b], pairs[c, d]])] if b == c else []
            more += [((c, b), ["tr", pairs[c, d], pairs[a, b]])] if d == a else []
        for pair, line in more:
            if pair not in pairs:
                pairs[pair] = len(lines)
                lines.append(line)
                waiting.append(pair)
    return lines, pairs


def needed(lines, last):
    """The lines that a line rests on, and itself, numbered anew."""
    kept = {last}
    for number in range(last, -1, -1):
        if number in kept:
            kept |= {part for part in lines[number][1:] if type(part) is int}
    numbers = {number: place for place, number in enumerate(sorted(kept))}
    renumbered = lambda line: [numbers[part] if type(part) is int else part for part in line]
    return [renumbered(lines[number]) for number in sorted(kept)]


def derivations(paths):
    history = paths.history
    for o in paths.operations:
        lines, pairs = saturated(paths, o)
        for (a, b), last in pairs.items():
            if a == b:
                yield ["CyclicHB", list(o), needed(lines, last)]
            elif history.write(a) is not None and history.write(a) == history.reads_nothing_written(b) and not_after(b, o):
                yield ["WriteHBInitRead", list(o), needed(lines, last)]


def found(history):
    """Patterns that a history of distinct values shows, for each kind some."""
    paths = Paths(history)
    searches = [cycles, reads, cycles_of_conflicts]
    if len(history.operations) <= 10:
        searches.append(derivations)
    return [pattern for search in searches for pattern in search(paths)]
