"""Records what clients call and are answered, as a log of events: a line before each call, and one when it ended.

    with Recorder("run.jsonl") as recorder, recorder.client("alice") as alice:
        alice.write("user:5", alice.new_value(), lambda: store.put("user:5", ..))

Threads and coroutines may share a recorder, with as many clients as they like. Each process has a recorder and a file of its own, which
`python3 -m causal_judge merge` joins afterwards.
"""

from __future__ import annotations

import os
import pathlib
import re
import threading
from collections.abc import Mapping
from types import TracebackType

from causal_judge.calls import Answers, Call, Fails, Rules
from causal_judge.clients import AsyncClient, Client
from causal_judge.events import ORDER, Event, LogError, Name, Progress, Value, check_event, is_same, line_of, next_name
from causal_judge.log_file import LogFile

NUMBERED = re.compile(r"(.*)\.([1-9][0-9]{0,17})", re.DOTALL)
LIKE_A_NUMBER = re.compile(r"'*[0-9]+")


class Recorder:
    """Appends events to a log as they happen, each by one write, so that a crash of the process loses at most the line being written.

    A log that is there already goes on: a torn last line is cut, and each call that is pending is recorded as lost. The first line of one
    that has no event yet will be `["order","time"]`: its lines stand in the order of time, since a begin is written before the call is
    made, and an end after it was answered. Where calls were made before they are recorded, that is not so: take the line out.

    `start` has the values that keys hold before the first call, as the method `start` says. `fails` says which exceptions of a call mean
    that it had no effect for certain: a class, several, or a function of the exception. Every other one means that the call is lost, so
    that it may take effect later, or never.

    `answers` is for a store that answers in another type than was written, as "1" for 1: a function that gives the written value for what a
    read returned. It is not asked about None, which is nothing.

    Raises BlockingIOError where another recorder writes the log, LogError where the log has a bad line, ValueError where the path is no
    ordinary file, and OSError as `open` does, or where the first line can't be written.
    """

    def __init__(
        self,
        path: str | os.PathLike[str],
        *,
        start: Mapping[Name, Value] | None = None,
        fails: Fails = (),
        answers: Answers | None = None,
    ) -> None:
        self._rules = Rules(fails).but(None, answers)
        self.path = pathlib.Path(path)
        self._lock = threading.Lock()
        self._process = os.getpid()
        self._progress = Progress()
        self._calls: dict[Name, Call] = {}
        self._counts: dict[str, int] = {}
        self._names: set[Name] = set()
        self._file = LogFile(self.path)
        self._is_open = True
        try:
            self._go_on()
            for key, value in (start or {}).items():
                self.start(key, value)
        except BaseException:
            self.close()
            raise

    def start(self, key: Name, value: Value) -> None:
        """The key holds this value before the first call. A start that the log has already is not written again.

        Raises RuntimeError after the first call has begun, ValueError where the key has another start, and what `check_name` and
        `check_value` raise.
        """
        event: Event = ["start", key, value]
        check_event(event)
        line = line_of(event)
        with self._lock:
            self._check_usable()
            if key not in self._progress.started:
                self._append(event, line)
            elif not is_same(self._progress.started[key], value):
                raise ValueError(f"the key {key!r} starts with {self._progress.started[key]!r} already")

    def client(self, name: Name, *, fails: Fails | None = None, answers: Answers | None = None) -> Client:
        """A client whose calls are functions. Two of one name are one client, with one call at a time.

        `fails` and `answers` are as for the recorder, whose rules the client has unless others are given.
        """
        client = Client(self, name, self._rules.but(fails, answers))
        self._note_name(name)
        return client

    def async_client(self, name: Name, *, fails: Fails | None = None, answers: Answers | None = None) -> AsyncClient:
        """A client whose calls are awaited. Two of one name are one client, with one call at a time. Rules are as for `client`."""
        client = AsyncClient(self, name, self._rules.but(fails, answers))
        self._note_name(name)
        return client

    def close(self) -> None:
        """Closes the log, which another recorder may then go on with. A call that is pending stays so: whether it took effect is open.

        In another process than opened the recorder, as after a fork, it does nothing.
        """
        if os.getpid() != self._process:
            return
        with self._lock:
            if self._is_open:
                self._is_open = False
                self._file.close()

    def __enter__(self) -> Recorder:
        return self

    def __exit__(self, kind: type[BaseException] | None, error: BaseException | None, trace: TracebackType | None) -> None:
        self.close()

    def new_value(self, name: Name) -> str:
        """For clients: a value that none was given before, with the name of this one: "alice.17"."""
        prefix = _prefix_of(name)
        with self._lock:
            self._counts[prefix] = self._counts.get(prefix, 0) + 1
            return f"{prefix}.{self._counts[prefix]}"

    def new_name(self, name: Name) -> str:
        """For clients: a name that no client of the log has, with this one in it: "alice#2" for "alice"."""
        with self._lock:
            self._check_usable()
            found = next_name(name, self._names)
            self._names.add(found)
            return found

    def begin(self, call: Call, event: Event) -> None:
        """For Call: records that it begins. RuntimeError says that its client has another one pending; then nothing is recorded."""
        check_event(event)
        line = line_of(event)
        with self._lock:
            self._check_usable()
            if call.name in self._calls:
                raise RuntimeError(f"the client {call.name!r} has a call pending: it makes one at a time")
            if call.name in self._progress.pending:
                self._append_lost(call.name)
            self._append(event, line)
            self._calls[call.name] = call

    def finish(self, call: Call, event: Event, line: bytes) -> None:
        """For Call: records how it ended. RuntimeError says that it had ended. Where the line can't be written, it is lost afterwards."""
        with self._lock:
            self._check_usable()
            if self._calls.get(call.name) is not call:
                raise RuntimeError(f"the call of {call.name!r} has ended: a call ends once")
            del self._calls[call.name]
            self._append(event, line)

    def pending_call(self, name: Name) -> Call | None:
        """For clients: the call that one has pending, if any."""
        with self._lock:
            return self._calls.get(name)

    def _go_on(self) -> None:
        """Takes in the events of the log, and records each call that is pending after them as lost. One without events begins here."""
        for number, event in self._file.events():
            fault = self._progress.fault_of(event)
            if fault:
                raise LogError(number, fault, self.path)
            self._progress.take(event)
            self._note_value(event)
            if event[0] == "begin":
                self._names.add(event[1])
        for name in list(self._progress.pending):
            self._append_lost(name)
        if self._progress.is_empty:
            self._append(ORDER, line_of(ORDER))

    def _note_value(self, event: Event) -> None:
        """Takes note of a value that new_value may have given, so that it is not given again."""
        value = event[2] if event[0] == "start" else event[2][-1] if event[0] == "begin" and event[2][0] == "w" else None
        found = NUMBERED.fullmatch(value) if isinstance(value, str) else None
        if found:
            self._counts[found[1]] = max(int(found[2]), self._counts.get(found[1], 0))

    def _note_name(self, name: Name) -> None:
        """Takes note of the name of a client, so that new_name does not give it."""
        with self._lock:
            self._names.add(name)

    def _append_lost(self, name: Name) -> None:
        event: Event = ["lost", name]
        self._append(event, line_of(event))

    def _append(self, event: Event, line: bytes) -> None:
        """Appends an event, if it may come next. The caller holds the lock."""
        fault = self._progress.fault_of(event)
        if fault:
            raise RuntimeError(fault)
        self._file.append(line)
        self._progress.take(event)

    def _check_usable(self) -> None:
        if not self._is_open:
            raise RuntimeError(f"the recorder of {self.path} is closed")
        if os.getpid() != self._process:
            raise RuntimeError("this is another process than opened the recorder: give each process a recorder and a file of its own")


def _prefix_of(name: Name) -> str:
    """What the new values of a client begin with. No two clients have the same, so the text "1" is not written like the number 1."""
    if isinstance(name, str):
        return f"'{name}" if LIKE_A_NUMBER.fullmatch(name) else name
    return str(int(name))
