"""Records what the clients of a store call and are answered, as a history for `judge`, by the rules of docs/recording.md.

It has the calls of a log's recorder, so that one simulated run can be recorded in both ways. A write without an answer whose value was
read gets a session of its own: a write of 1 to a variable that is used for nothing else takes its place, and the session reads that 1 and
then makes the write.
"""

import itertools
import json

UNKNOWN = "?"


class History:
    """What all clients called in one run of a memory."""

    def __init__(self):
        self.sessions, self.values = [], itertools.count(1)

    def session(self):
        """A session for one more client."""
        self.sessions.append(Session(self))
        return self.sessions[-1]

    def new_value(self):
        """A value that nobody was given before."""
        return next(self.values)

    def text(self):
        """The history, as compact JSON."""
        calls = [call for session in self.sessions for call in session.calls]
        read = {(call.key, call.returned) for call in calls if call.word == "r" and call.is_answered}
        marks = itertools.count(1 + max((call.key for call in calls), default=0))
        forks = []
        sessions = [session.form(read, marks, forks) for session in self.sessions]
        return json.dumps(["memory", sessions + forks], separators=(",", ":"))


class Session:
    """What one client called, in order."""

    def __init__(self, history):
        self.history, self.calls = history, []

    def begin(self, word, key, value=None):
        """The client is about to call."""
        self.calls.append(Call(self, word, key, value))
        return self.calls[-1]

    def form(self, read, marks, forks):
        """The session, without the writes that were given up and not read; those that were read fork off."""
        operations = []
        for call in self.calls:
            if call.is_answered or not call.is_over:
                operations.append(call.form())
            elif (call.key, call.value) in read:
                mark = next(marks)
                operations.append(["w", mark, 1])
                forks.append([["r", mark, 1], call.form()])
        return operations


class Call:
    """One call of a session. It is over when it ended, was dropped or was given up."""

    def __init__(self, session, word, key, value):
        self.session, self.word, self.key, self.value = session, word, key, value
        self.returned, self.is_answered, self.is_over = None, False, False

    def end(self, returned=None):
        """The answer came, with what a read returned."""
        self.returned, self.is_answered, self.is_over = returned, True, True

    def drop(self):
        """The call is not written: it had no effect for certain, or asks nothing."""
        self.session.calls.remove(self)
        self.is_over = True

    def give_up(self):
        """No answer came, and the client goes on: whether and when a write takes effect stays open, and a read is dropped."""
        if self.word == "r":
            self.drop()
        self.is_over = True

    def form(self):
        """The call, with what it returned at the end; `"?"` where nobody knows that."""
        if self.word == "w":
            return ["w", self.key, self.value, *([] if self.is_answered else [UNKNOWN])]
        return ["r", self.key, self.returned if self.is_answered else UNKNOWN]
