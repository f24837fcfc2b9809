"""Says what the reads of a log that found nothing must have seen, in a plain and slow way.

A null read is a read that found nothing of a key that some delete names which did not fail. Its candidates are the start, where the key has
none, and each such delete: the order of the lines of a log says nothing of time. Where it does, a delete that begins after the read had
ended is none. A choice says of null reads which candidate each saw.

The forced choice. A call comes before another, as far as is known,

- in a session, where the first one neither failed nor was lost;
- where the other one got the value that the first one wrote, and no other write of the key wrote it;
- where the other one is a null read with one candidate left, and the first one is that delete;
- and through a third call.

A candidate is out where the read comes before it, or where another write or delete of the key comes after it and before the read; the
start is out where a write or a delete of the key comes before the read. This goes on until nothing more is found. A read with one
candidate left saw that one. One with none left saw the first delete of its key, in the order of time the first one that began before the
read had ended, or the start where there is none: as far as a choice has to say, and no order explains that. Others are left out.

It knows nothing of the program, and follows docs/events.md. Calls are those of plain_events.py.
"""

from plain_long_judge import before, members

START = None


def kept_deletes(calls):
    """The deletes that did not fail."""
    return [call for call in calls if call.word == "d" and call.ending != "failed"]


def null_reads(calls):
    """The reads that found nothing of a key that some delete names."""
    deleted = {call.key for call in kept_deletes(calls)}
    return [call for call in calls if call.ending == "nothing" and call.key in deleted]


def candidates(calls, started, is_timed=False):
    """Of each null read, by the place of its begin, what it may have seen: the start, or a delete by the place of its begin."""
    found = {}
    for read in null_reads(calls):
        deletes = [call.place for call in kept_deletes(calls) if call.key == read.key and (call.place < read.end or not is_timed)]
        found[read.place] = deletes if read.key in started else [START, *deletes]
    return found


class Past(dict):
    """Of each call that is asked for what comes before it by some edges."""

    def __init__(self, edges):
        super().__init__()
        self.edges = edges

    def __missing__(self, i):
        self[i] = before(self.edges, i)
        return self[i]


class Forced:
    """What is forced of the null reads of some calls: what is known to come before each call, the candidates that are left of each null
    read, and the choice. Calls have the numbers of their places in the list, and a set of them is a number with a bit for each."""

    def __init__(self, calls, started, is_timed=False):
        self.calls, self.reads = calls, null_reads(calls)
        self.number = {call.place: i for i, call in enumerate(calls)}
        self.candidates, self.choice = candidates(calls, started, is_timed), {}
        self.left = dict(self.candidates)
        self.first_delete = {read: next((seen for seen in left if seen is not START), START) for read, left in self.left.items()}
        self.writers = {}
        for i, call in enumerate(calls):
            if call.word != "r":
                self.writers[call.key] = self.writers.get(call.key, 0) | 1 << i
        self.edges = []
        if self.reads:
            self.edges = self.first_edges()
            while self.goes_on():
                pass

    def first_edges(self):
        """Of each call what comes before it in its session, and the one write whose value it got."""
        edges, answered, writes = [], {}, {}
        for i, call in enumerate(self.calls):
            if call.word == "w" and call.ending != "failed":
                writes[call.key, call.value] = writes.get((call.key, call.value), 0) | 1 << i
        for i, call in enumerate(self.calls):
            sources = writes.get((call.key, call.got), 0) if call.ending == "got" else 0
            edges.append(answered.get(call.client, 0) | (sources if sources.bit_count() == 1 else 0))
            if call.ending not in ("failed", "lost"):
                answered[call.client] = 1 << i
        return edges

    def goes_on(self):
        """Takes out candidates by what is known, and says whether more is known then of what comes before what."""
        known = list(self.edges)
        past = Past(known)
        for read in self.reads:
            if read.place in self.choice:
                continue
            left = [seen for seen in self.left[read.place] if not self.is_out(past, read, seen)]
            self.left[read.place] = left
            if len(left) < 2:
                self.choose(read, left[0] if left else self.first_delete[read.place])
        return self.edges != known

    def choose(self, read, seen):
        """The null read saw this."""
        self.choice[read.place] = seen
        if seen is not START:
            self.edges[self.number[read.place]] |= 1 << self.number[seen]

    def is_out(self, past, read, seen):
        """Whether a null read can't have seen a candidate; `past` has of each call what comes before it."""
        at = self.number[read.place]
        writers = past[at] & self.writers[read.key]
        if seen is START:
            return writers != 0
        delete = self.number[seen]
        return bool(past[delete] >> at & 1) or any(past[other] >> delete & 1 for other in members(writers & ~(1 << delete)))

    def left_at_end(self, read):
        """The candidates of a null read that are not out by all that is known at the end. What was found of a read before stays all the same."""
        past = Past(self.edges)
        return [seen for seen in self.candidates[read.place] if not self.is_out(past, read, seen)]

    def excludes(self, read, seen, other=None):
        """Whether it is forced that a null read did not see the start or a delete, given by the place of its begin: since a write or a delete of
        the key, given alike, had replaced it before; or without that, since the delete comes after the read or began after it had ended."""
        past, at = Past(self.edges), self.number[read.place]
        if other is None:
            return seen is not START and (past[self.number[seen]] >> at & 1 or read.end < seen)
        later = self.number[other]
        is_before = past[at] & self.writers[read.key] & 1 << later
        return bool(is_before) and (seen is START or bool(past[later] >> self.number[seen] & 1))
