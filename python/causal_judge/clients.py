"""Clients, which make calls of a store and have them recorded: functions for threads, coroutines for an event loop."""

from __future__ import annotations

import asyncio
import contextlib
import functools
import time
from collections.abc import Awaitable, Callable, Coroutine, Iterator
from types import TracebackType
from typing import TYPE_CHECKING, Any, Concatenate, ParamSpec, TypeAlias, TypeVar, Union

from causal_judge.calls import Call, Done, Rules, always, is_done
from causal_judge.events import Event, Name, Value, check_name
from causal_judge.notes import Note

if TYPE_CHECKING:
    from causal_judge.recorder import Recorder

T = TypeVar("T")
Key = TypeVar("Key", bound=Name)
Held = TypeVar("Held", bound=Value)
Found = TypeVar("Found", bound=Union[Value, None])
Self = TypeVar("Self", bound="_AnyClient")
P = ParamSpec("P")
Pause: TypeAlias = Union[float, Callable[[int], float]]


class _AnyClient:
    """What both kinds of clients have: a name, new values, and calls that begin and end apart.

    As a context manager it records a call that is still pending at the end as lost. Afterwards it records nothing.

    A `note` of a call is any JSON, which the judge passes over: the server that is asked, or a request's id. A value stands in the line of
    the begin. A function is asked when the call ended, and what it gives stands in the line of the end. None is no note.
    """

    def __init__(self, recorder: Recorder, name: Name, rules: Rules) -> None:
        check_name(name)
        self.name = name
        self._recorder = recorder
        self._rules = rules
        self._over = ""

    def new_value(self) -> str:
        """A value that no client of the run was given before, "alice.17" for alice: also after the log was opened again."""
        return self._recorder.new_value(self.name)

    def begin_write(self, key: Name, value: Value, *, note: Note = None) -> Call:
        """Records that a write begins, before the store is called. Its Call is ended when the answer came.

        A compare-and-set begins so too, and ends by `settle(answer, done)`, or by `end`, `fail` or `lost`.

        Raises TypeError or ValueError where the key, the value or the note has no form, RuntimeError where a call of this client is pending
        or where the client or its recorder is closed, and OSError where the log can't be written. Then nothing was recorded.
        """
        return self._begin(["w", key, value], note)

    def begin_read(self, key: Name, *, note: Note = None) -> Call:
        """Records that a read begins, as begin_write does of a write."""
        return self._begin(["r", key], note)

    def begin_delete(self, key: Name, *, note: Note = None) -> Call:
        """Records that a delete begins, as begin_write does of a write."""
        return self._begin(["d", key], note)

    def reconnected(self: Self) -> Self:
        """The client that goes on over a new connection, with a name that no client of the log has: "alice#2" for alice.

        It is for a store that promises its sessions per connection: there a new connection that takes nothing along of the old session, as
        a token, is a new client. A call of this client that is pending is recorded as lost, and afterwards it records nothing. RuntimeError
        where the recorder is closed.
        """
        successor = type(self)(self._recorder, self._recorder.new_name(self.name), self._rules)
        self._leave(f"it goes on as {successor.name!r}")
        return successor

    def _begin(self, event: Event, note: Note) -> Call:
        if self._over:
            raise RuntimeError(f"the client {self.name!r} is over: {self._over}")
        return Call(self._recorder, self.name, event, self._rules, note)

    @contextlib.contextmanager
    def _try(self, key: Name, value: Value, answers: list[T], note: Note) -> Iterator[None]:
        """One try of a write: its block makes the call, and adds the answer to the list.

        An exception by which the try is lost ends here, so that another try may follow. Every other one is raised on.
        """
        with self.begin_write(key, value, note=note) as pending:
            try:
                yield
            except Exception as error:
                pending.end_by(error)
                if pending.outcome != "lost":
                    raise
            else:
                pending.settle(answers[0])

    def _leave(self, why: str = "its block was left") -> None:
        self._over = self._over or why
        pending = self._recorder.pending_call(self.name)
        if pending is not None:
            with contextlib.suppress(RuntimeError):
                pending.lost()

    def __enter__(self: Self) -> Self:
        return self

    def __exit__(self, kind: type[BaseException] | None, error: BaseException | None, trace: TracebackType | None) -> None:
        self._leave()


class Client(_AnyClient):
    """A client whose calls are functions. It makes one call at a time.

    Each method records the begin, makes the call, records how it ended, and returns what the call returned. An exception of the call is
    recorded as `fail` or `lost` by the client's rule, and raised on. The methods raise what begin_write raises, before the store is called,
    and OSError where the end can't be written, after it was called.
    """

    def write(self, key: Name, value: Value, call: Callable[[], T], *, note: Note = None) -> T:
        """Writes a value, which should be new in the run, by this call of the store."""
        return self._made(self.begin_write(key, value, note=note), call)

    def compare_and_set(self, key: Name, value: Value, call: Callable[[], T], *, done: Done[T] = is_done, note: Note = None) -> T:
        """Writes a value, which should be new in the run, by a call that writes only if the key holds what it expects.

        It is recorded as a write that begins before the call: answered where the call returns something true, and failed where it returns
        something false, by which the store says that nothing was written on any replica. `done` says this of other answers, and None where
        it is not known: then the write is lost. What was compared is not recorded. Where the call returns None, and there is no `done`, the
        write is lost and TypeError is raised.
        """
        return self._made(self.begin_write(key, value, note=note), call, done)

    def read(self, key: Name, call: Callable[[], Found], *, note: Note = None) -> Found:
        """Reads by this call, which returns the value, or None where the key holds nothing.

        The log has what the recorder's or the client's rule `answers` makes of the value. Where that is none, as bytes or a list, the read
        is recorded as lost, and TypeError or ValueError says what to do.
        """
        with self.begin_read(key, note=note) as pending:
            found = call()
            pending.end(found)
        return found

    def delete(self, key: Name, call: Callable[[], T], *, found: Done[T] = always, note: Note = None) -> T:
        """Deletes by this call.

        Where `found` is false of its answer, the delete failed: the key held nothing, and nothing was changed on any replica. That is so of
        a store that leaves nothing behind for such a delete. One that leaves a tombstone, or tells other replicas of it, did delete: then
        leave `found` out. Where nobody knows which it was, have `found` give None: the delete is lost.
        """
        return self._made(self.begin_delete(key, note=note), call, found)

    def retry(
        self,
        key: Name,
        call: Callable[[Any], T],
        *,
        make_value: Callable[[], Value] | None = None,
        tries: int = 3,
        pause: Pause = 0.0,
        note: Note = None,
    ) -> T:
        """Writes by calls that are tried up to so many times, each with a new value that `make_value` gives (new_value unless given).

        A try that raised is lost, and the next one is a write of its own. Three exceptions are raised at once: one that means that nothing
        took effect, one that is no Exception, as KeyboardInterrupt, and that of the last try. `pause` is how many seconds come before the
        next try, or a function of the number of tries so far. Switch the driver's own retries off.
        """
        make = make_value or self.new_value
        answers: list[T] = []
        for wait in _waits_of(tries, pause):
            value = make()
            with self._try(key, value, answers, note):
                answers.append(call(value))
            if answers:
                return answers[0]
            time.sleep(wait)
        value = make()
        return self.write(key, value, lambda: call(value), note=note)

    def _made(self, pending: Call, call: Callable[[], T], done: Done[T] = always) -> T:
        """Makes the call of a write or a delete that has begun, and gives its answer."""
        with pending:
            answer = call()
            pending.settle(answer, done)
        return answer

    def writes(self, function: Callable[Concatenate[Key, Held, P], T]) -> Callable[Concatenate[Key, Held, P], T]:
        """A decorator: calls of `function(key, value, ..)` are writes of this client."""

        @functools.wraps(function)
        def written(key: Key, value: Held, /, *more: P.args, **named: P.kwargs) -> T:
            return self.write(key, value, lambda: function(key, value, *more, **named))

        return written

    def compares_and_sets(
        self, function: Callable[Concatenate[Key, Held, P], T], *, done: Done[T] = is_done
    ) -> Callable[Concatenate[Key, Held, P], T]:
        """A decorator: calls of `function(key, value, ..)` are compare-and-sets of this client, which write this value or nothing.

        What they compare with is among the further arguments, and is not recorded. `done` is as for compare_and_set.
        """

        @functools.wraps(function)
        def compared(key: Key, value: Held, /, *more: P.args, **named: P.kwargs) -> T:
            return self.compare_and_set(key, value, lambda: function(key, value, *more, **named), done=done)

        return compared

    def reads(self, function: Callable[Concatenate[Key, P], Found]) -> Callable[Concatenate[Key, P], Found]:
        """A decorator: calls of `function(key, ..)` are reads of this client, of what it returns."""

        @functools.wraps(function)
        def read(key: Key, /, *more: P.args, **named: P.kwargs) -> Found:
            return self.read(key, lambda: function(key, *more, **named))

        return read

    def deletes(
        self, function: Callable[Concatenate[Key, P], T], *, found: Done[T] = always
    ) -> Callable[Concatenate[Key, P], T]:
        """A decorator: calls of `function(key, ..)` are deletes of this client. `found` is as for delete."""

        @functools.wraps(function)
        def deleted(key: Key, /, *more: P.args, **named: P.kwargs) -> T:
            return self.delete(key, lambda: function(key, *more, **named), found=found)

        return deleted


class AsyncClient(_AnyClient):
    """A client whose calls are awaited. It makes one call at a time, and does what Client does; a call that is cancelled is lost."""

    async def write(self, key: Name, value: Value, call: Callable[[], Awaitable[T]], *, note: Note = None) -> T:
        """Writes a value, which should be new in the run, by this call of the store."""
        return await self._made(self.begin_write(key, value, note=note), call)

    async def compare_and_set(
        self, key: Name, value: Value, call: Callable[[], Awaitable[T]], *, done: Done[T] = is_done, note: Note = None
    ) -> T:
        """Writes a value, by a call that writes only if the key holds what it expects, as Client.compare_and_set does."""
        return await self._made(self.begin_write(key, value, note=note), call, done)

    async def read(self, key: Name, call: Callable[[], Awaitable[Found]], *, note: Note = None) -> Found:
        """Reads by this call, as Client.read does."""
        with self.begin_read(key, note=note) as pending:
            found = await call()
            pending.end(found)
        return found

    async def delete(self, key: Name, call: Callable[[], Awaitable[T]], *, found: Done[T] = always, note: Note = None) -> T:
        """Deletes by this call, as Client.delete does."""
        return await self._made(self.begin_delete(key, note=note), call, found)

    async def retry(
        self,
        key: Name,
        call: Callable[[Any], Awaitable[T]],
        *,
        make_value: Callable[[], Value] | None = None,
        tries: int = 3,
        pause: Pause = 0.0,
        note: Note = None,
    ) -> T:
        """Writes by calls that are tried up to so many times, as Client.retry does. A cancelled try is not followed by another."""
        make = make_value or self.new_value
        answers: list[T] = []
        for wait in _waits_of(tries, pause):
            value = make()
            with self._try(key, value, answers, note):
                answers.append(await call(value))
            if answers:
                return answers[0]
            await _sleep(wait)
        value = make()
        return await self.write(key, value, lambda: call(value), note=note)

    async def _made(self, pending: Call, call: Callable[[], Awaitable[T]], done: Done[T] = always) -> T:
        """Makes the call of a write or a delete that has begun, and gives its answer."""
        with pending:
            answer = await call()
            pending.settle(answer, done)
        return answer

    def writes(
        self, function: Callable[Concatenate[Key, Held, P], Awaitable[T]]
    ) -> Callable[Concatenate[Key, Held, P], Coroutine[Any, Any, T]]:
        """A decorator: calls of `function(key, value, ..)` are writes of this client."""

        @functools.wraps(function)
        async def written(key: Key, value: Held, /, *more: P.args, **named: P.kwargs) -> T:
            return await self.write(key, value, lambda: function(key, value, *more, **named))

        return written

    def compares_and_sets(
        self, function: Callable[Concatenate[Key, Held, P], Awaitable[T]], *, done: Done[T] = is_done
    ) -> Callable[Concatenate[Key, Held, P], Coroutine[Any, Any, T]]:
        """A decorator: calls of `function(key, value, ..)` are compare-and-sets of this client, as of Client.compares_and_sets."""

        @functools.wraps(function)
        async def compared(key: Key, value: Held, /, *more: P.args, **named: P.kwargs) -> T:
            return await self.compare_and_set(key, value, lambda: function(key, value, *more, **named), done=done)

        return compared

    def reads(self, function: Callable[Concatenate[Key, P], Awaitable[Found]]) -> Callable[Concatenate[Key, P], Coroutine[Any, Any, Found]]:
        """A decorator: calls of `function(key, ..)` are reads of this client, of what it returns."""

        @functools.wraps(function)
        async def read(key: Key, /, *more: P.args, **named: P.kwargs) -> Found:
            return await self.read(key, lambda: function(key, *more, **named))

        return read

    def deletes(
        self, function: Callable[Concatenate[Key, P], Awaitable[T]], *, found: Done[T] = always
    ) -> Callable[Concatenate[Key, P], Coroutine[Any, Any, T]]:
        """A decorator: calls of `function(key, ..)` are deletes of this client. `found` is as for delete."""

        @functools.wraps(function)
        async def deleted(key: Key, /, *more: P.args, **named: P.kwargs) -> T:
            return await self.delete(key, lambda: function(key, *more, **named), found=found)

        return deleted

    async def __aenter__(self: Self) -> Self:
        return self

    async def __aexit__(self, kind: type[BaseException] | None, error: BaseException | None, trace: TracebackType | None) -> None:
        self._leave()


def _waits_of(tries: int, pause: Pause) -> list[float]:
    """How many seconds come after each try but the last. ValueError where there is no try."""
    if tries < 1:
        raise ValueError(f"a write is tried once at least, not {tries} times")
    return [pause(number) if callable(pause) else pause for number in range(1, tries)]


async def _sleep(seconds: float) -> None:
    """Waits, where there is something to wait for: so an event loop of another kind than asyncio's will do where there is not."""
    if seconds:
        await asyncio.sleep(seconds)
