"""One call of a client, from its begin to its end, and the rules by which an exception or an answer says how it ended."""

from __future__ import annotations

import contextlib
from collections.abc import Callable
from types import TracebackType
from typing import TYPE_CHECKING, Any, Literal, NamedTuple, TypeAlias, TypeVar, Union

from causal_judge.events import Event, Name, Value, check_event, line_of
from causal_judge.notes import Note, given, noted

if TYPE_CHECKING:
    from causal_judge.recorder import Recorder

T = TypeVar("T")
Fails: TypeAlias = Union[type[BaseException], tuple[type[BaseException], ...], Callable[[BaseException], bool]]
Answers: TypeAlias = Callable[[Any], Union[Value, None]]
Done: TypeAlias = Callable[[T], Union[bool, None]]
Outcome: TypeAlias = Literal["end", "fail", "lost"]


def check_fails(fails: object) -> None:
    """Raises TypeError where this is no rule for exceptions."""
    classes = fails if isinstance(fails, tuple) else (fails,)
    if all(isinstance(one, type) and issubclass(one, BaseException) for one in classes):
        return
    if isinstance(fails, (type, tuple)) or not callable(fails):
        raise TypeError(f"fails is a class of exceptions, a tuple of such, or a function of an exception, not {fails!r}")


def always(answer: object) -> bool:
    """Takes every answer for one of a call that took effect."""
    return True


def is_done(answer: object) -> bool:
    """Takes an answer to a compare-and-set by its truth. TypeError where it is None, as of a function that returns nothing."""
    if answer is None:
        raise TypeError("the call returned None: have it return whether it wrote, or say by done=.. what its answer means")
    return bool(answer)


def unchanged(answer: Any) -> Any:
    """Has the log say of a read what its call returned."""
    return answer


class Rules(NamedTuple):
    """What the log says of what a client's calls give.

    `fails` says which exceptions mean that a call had no effect for certain. `answers` gives the value that was written for what a read
    returned, where a store answers in another type. It is not asked about None, which is nothing.
    """

    fails: Fails = ()
    answers: Answers = unchanged

    def but(self, fails: Fails | None, answers: Answers | None) -> Rules:
        """These rules, but for those that are given. Raises TypeError where one is no such rule."""
        rules = Rules(self.fails if fails is None else fails, self.answers if answers is None else answers)
        check_fails(rules.fails)
        if not callable(rules.answers):
            raise TypeError(f"answers is a function of what a read returned, not {rules.answers!r}")
        return rules


class Call:
    """A call that has begun. It ends once: by `end`, `fail` or `lost`, from any thread.

    As a context manager it ends by an exception of its block, which is raised on. Without one it stays pending, for a callback to end.

    Where the end can't be written, OSError says why; the call is over all the same, and the client's next begin first records it as lost.

    `note` of an end is a note for its line, or a function that gives one; else a function that was given with the begin is asked. Where it
    raises, or gives no JSON, the end is recorded without a note, and the exception is raised on unless the call itself raised one.
    """

    def __init__(self, recorder: Recorder, name: Name, event: Event, rules: Rules, note: Note = None) -> None:
        self.name = name
        self.outcome: Outcome | None = None
        self._recorder = recorder
        self._is_read = event[0] == "r"
        self._rules = rules
        self._note = note if callable(note) else None
        recorder.begin(self, noted(["begin", name, event], None if callable(note) else note))

    def end(self, *found: Value | None, note: Note = None) -> None:
        """The answer came. A read ends with what it found, None for nothing; a write or a delete ends with nothing.

        A read that found what is no value is recorded as lost, and TypeError or ValueError says what to do. So it is where the client's
        rule `answers` raises. TypeError where there is an argument too many or too few, which records nothing. RuntimeError where the call
        has ended.
        """
        if len(found) != self._is_read:
            raise TypeError("a read ends with one value, or None" if self._is_read else "a write or a delete ends without a value")
        try:
            event: Event = ["end", self.name, self._value_of(found[0]) if self._is_read else "ok"]
            check_event(event)
            line = line_of(event)
        except BaseException:
            self._end_unanswered("lost", note, has_raised=True)
            raise
        self._finish("end", event, line, note)

    def fail(self, note: Note = None) -> None:
        """The call had no effect, for certain. RuntimeError where it has ended."""
        self._end_unanswered("fail", note)

    def lost(self, note: Note = None) -> None:
        """No answer came: the call may take effect later, or never. RuntimeError where it has ended."""
        self._end_unanswered("lost", note)

    def settle(self, answer: T, done: Done[T] = always) -> None:
        """Ends a write or a delete by its answer, of which `done` says whether it took effect.

        True is an end. False means that nothing was changed on any replica, and is a fail. None means that this is not known: it is lost.
        An exception of `done` makes it lost too, and is raised on. So does an answer that has yet to be awaited, with TypeError.
        """
        try:
            _check_answered(answer)
            is_done = done(answer)
        except BaseException:
            self._end_unanswered("lost", has_raised=True)
            raise
        if is_done is None:
            self.lost()
        elif is_done:
            self.end()
        else:
            self.fail()

    def end_by(self, error: BaseException) -> None:
        """Ends the call by an exception of the store: `fail` where the client's rule says so, else `lost`. Nothing, where it has ended.

        An exception of the rule makes it lost, and is raised on.
        """
        if self._recorder.pending_call(self.name) is not self:
            return
        has_failed = False
        try:
            has_failed = self._has_failed(error)
        finally:
            with contextlib.suppress(RuntimeError):
                self._end_unanswered("fail" if has_failed else "lost", has_raised=True)

    def __enter__(self) -> Call:
        return self

    def __exit__(self, kind: type[BaseException] | None, error: BaseException | None, trace: TracebackType | None) -> None:
        if error is not None:
            self.end_by(error)

    def _end_unanswered(self, outcome: Outcome, note: Note = None, *, has_raised: bool = False) -> None:
        event: Event = [outcome, self.name]
        self._finish(outcome, event, line_of(event), note, has_raised)

    def _finish(self, outcome: Outcome, event: Event, line: bytes, note: Note, has_raised: bool = False) -> None:
        """Records how the call ended, without the note where that raises: then this is raised on, unless the call itself raised."""
        try:
            note = given(self._note if note is None else note)
            if note is not None:
                with_note = noted(event, note)
                event, line = with_note, line_of(with_note)
        except Exception:
            if not has_raised:
                raise
        finally:
            self._recorder.finish(self, event, line)
            self.outcome = outcome

    def _has_failed(self, error: BaseException) -> bool:
        """Whether an exception means, by the client's rule, that the call had no effect for certain."""
        fails = self._rules.fails
        if isinstance(fails, (type, tuple)):
            return isinstance(error, fails)
        return bool(fails(error))

    def _value_of(self, answer: Any) -> Value | None:
        """What the log says of the answer to a read."""
        _check_answered(answer)
        return None if answer is None else self._rules.answers(answer)


def _check_answered(answer: object) -> None:
    """Raises TypeError where an answer has yet to be awaited: then the call has not been made."""
    if hasattr(answer, "__await__"):
        raise TypeError("the call gave an awaitable, and no answer yet: record it with async_client")
