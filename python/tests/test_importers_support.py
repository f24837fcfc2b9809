"""What the tests of importers share: imports of a text, what is refused of it, and the lines about it."""

import io
import json
from collections import Counter

from causal_judge.events import ORDER
from causal_judge.importers import FORMATS, FormatError
from support import FolderCase, verdicts_of, write_log


class Endless(io.TextIOBase):
    """A text without an end: a head, and then lines of numbers from 0. It counts what was read of it."""

    def __init__(self, head, line_of):
        self.rest, self.line_of, self.number, self.count = head, line_of, 0, 0

    def grow(self):
        self.rest += self.line_of(self.number)
        self.number += 1

    def read(self, size=-1):
        while len(self.rest) < size:
            self.grow()
        return self.taken(size)

    def readline(self, size=-1):
        while "\n" not in self.rest:
            self.grow()
        return self.taken(self.rest.index("\n") + 1)

    def taken(self, size):
        found, self.rest = self.rest[:size], self.rest[size:]
        self.count += size
        return found


def imported(name, text):
    """The events of a text in a format, and what was left out."""
    left_out = Counter()
    return list(FORMATS[name](io.StringIO(text), left_out)), left_out


def read(client, key, *answer):
    """The events of a read that was answered, or was lost."""
    return [["begin", client, ["r", key]], ["end", client, *answer] if answer else ["lost", client]]


def write(client, key, value, is_lost=False):
    """The events of a write, or of a delete where there is no value, that was answered or lost."""
    call = ["d", key] if value is None else ["w", key, value]
    return [["begin", client, call], ["lost", client] if is_lost else ["end", client, "ok"]]


class ImporterCase(FolderCase):
    """A test of the importer of one format, whose texts are in the order of time or in none."""

    format, is_timed = "", False

    def assert_events(self, text, *calls, left_out=()):
        """The text stands for these calls, one after the other, and this is left out. Where it is in the order of time, the log says so."""
        events, found = imported(self.format, text)
        due = [ORDER] * self.is_timed + [event for call in calls for event in call]
        self.assertEqual(list(map(json.dumps, events)), list(map(json.dumps, due)))
        self.assertEqual(found, Counter(left_out))

    def assert_refused(self, text, line, what):
        """The text is refused at this line, with words in which this is found."""
        with self.assertRaisesRegex(FormatError, what) as raised:
            imported(self.format, text)
        self.assertEqual((raised.exception.line, str(raised.exception)), (line, f"line {line}: {raised.exception.what}"))

    def assert_lines(self, text, lines):
        """The program says this of the log of the text."""
        log = write_log(self.log, imported(self.format, text)[0])
        self.assertEqual("; ".join(map(str, verdicts_of([log])[0].lines)), lines)
