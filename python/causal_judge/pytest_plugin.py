"""A fixture for pytest: a recorder whose log is judged after the test, and kept where the test fails.

    @pytest.mark.causal("cc", "ccv")
    def test_store(causal_recorder):
        with causal_recorder.client("alice") as alice:
            ..

A test that passed by itself fails with the explanation where a criterion of its marker is no yes. Without a marker the criteria are those
of the ini option `causal_criteria`, or cc. It fails too where fewer reads were answered than `at_least_reads` of the marker says, or else
the ini option `causal_at_least_reads`, or else 1.

Where a test fails for any reason, as by `assert_met` in its body, its log is copied to the folder of the ini option `causal_logs`, or
causal-logs, with the page of `explain --html` beside it, and the report names both.
"""

from __future__ import annotations

import hashlib
import pathlib
import re
import shutil
from collections.abc import Callable, Generator
from typing import Any, TypeVar

import pytest

from causal_judge.recorder import Recorder
from causal_judge.verdicts import assert_met, checked_criteria, checked_reads, save_page

FIXTURE = "causal_recorder"
LONGEST_NAME = 100

Hook = TypeVar("Hook", bound=Callable[..., Any])
WRAPPER: Callable[[Hook], Hook] = pytest.hookimpl(hookwrapper=True)
OUTERMOST: Callable[[Hook], Hook] = pytest.hookimpl(hookwrapper=True, tryfirst=True)


def pytest_addoption(parser: pytest.Parser) -> None:
    """Adds the ini options."""
    parser.addini("causal_criteria", "the criteria that the log of causal_recorder has to meet", type="args", default=["cc"])
    parser.addini("causal_at_least_reads", "how many reads of causal_recorder have to be answered", default="1")
    parser.addini("causal_logs", "the folder for the logs of tests that failed, from the root of the tests", default="causal-logs")


def pytest_configure(config: pytest.Config) -> None:
    """Makes the marker known, and refuses criteria and numbers of reads that there are not."""
    about = "the criteria that the log of causal_recorder has to meet, all three if none is named; and how many reads have to be answered"
    config.addinivalue_line("markers", f"causal(*criteria, at_least_reads=1): {about}")
    for name, check in (("causal_criteria", _criteria_of), ("causal_at_least_reads", _reads_of)):
        try:
            check(config)
        except ValueError as error:
            raise pytest.UsageError(f"{name}: {error}") from None


@pytest.fixture
def causal_recorder(tmp_path: pathlib.Path) -> Generator[Recorder, None, None]:
    """A recorder of events. Its log is judged after the test's body, by the criteria of the marker `causal`."""
    with Recorder(tmp_path / "run.jsonl") as recorder:
        yield recorder


@OUTERMOST
def pytest_runtest_call(item: pytest.Item) -> Generator[None, Any, None]:
    """Judges the log of a test whose body passed: what is not met is the test's own failure, and no error of a teardown."""
    outcome = yield
    recorder = _recorder_of(item)
    if recorder is None or outcome.excinfo is not None:
        return
    try:
        _judge(item, recorder)
    except BaseException as error:
        if not hasattr(outcome, "force_exception"):
            raise
        outcome.force_exception(error)


@WRAPPER
def pytest_runtest_makereport(item: pytest.Item) -> Generator[None, Any, None]:
    """Keeps the log of a test that failed, at whatever stage, with its page, and names both in the report."""
    outcome = yield
    report = outcome.get_result()
    recorder = _recorder_of(item)
    if recorder is not None and report.failed and recorder.path.is_file():
        kept = _keep(item, recorder.path)
        report.sections.append(("causal log", f"kept as {kept}\n{save_page(kept, kept.with_suffix('.html'))}"))


def _recorder_of(item: pytest.Item) -> Recorder | None:
    """The recorder of a test, where it has asked for one."""
    found = getattr(item, "funcargs", {}).get(FIXTURE)
    return found if isinstance(found, Recorder) else None


def _criteria_of(config: pytest.Config) -> tuple[str, ...]:
    """The criteria of the ini file. ValueError names one there is not."""
    criteria: list[str] = config.getini("causal_criteria")
    return checked_criteria(tuple(criteria))


def _reads_of(config: pytest.Config) -> int:
    """How many reads have to be answered, by the ini file. ValueError where that is no whole number."""
    written: str = config.getini("causal_at_least_reads")
    if not written.isascii() or not written.isdecimal():
        raise ValueError(f"it is a whole number from 0, not {written!r}")
    return int(written)


def _asked(item: pytest.Item) -> tuple[tuple[str, ...], int]:
    """The criteria of a test, and how many reads have to be answered: those of its marker, or else of the ini file.

    `causal()` asks for all criteria. ValueError names what the marker does not take.
    """
    marker = item.get_closest_marker("causal")
    named = dict(marker.kwargs) if marker else {}
    reads = checked_reads(named.pop("at_least_reads", _reads_of(item.config)))
    if named:
        raise ValueError(f"the marker causal takes criteria and at_least_reads, not {', '.join(named)}")
    has_criteria = marker is not None and (marker.args or not marker.kwargs)
    return (checked_criteria(marker.args) if marker and has_criteria else _criteria_of(item.config)), reads


def _judge(item: pytest.Item, recorder: Recorder) -> None:
    """Fails where a criterion of the test is not met, where too few reads were answered, or where nothing is judged."""
    try:
        criteria, reads = _asked(item)
        assert_met(recorder, *criteria, at_least_reads=reads)
    except AssertionError as unmet:
        raise pytest.fail.Exception(str(unmet), pytrace=False) from None
    except (OSError, RuntimeError, ValueError) as fault:
        raise pytest.fail.Exception(f"the log of {FIXTURE} was not judged: {fault}", pytrace=False) from None


def _keep(item: pytest.Item, log: pathlib.Path) -> pathlib.Path:
    """Copies the log of a test to the folder for logs."""
    folder = pathlib.Path(item.config.rootpath, item.config.getini("causal_logs"))
    folder.mkdir(parents=True, exist_ok=True)
    name = re.sub(r"[^A-Za-z0-9_.-]+", "-", item.nodeid)[-LONGEST_NAME:].strip("-")
    kept = folder / f"{name}-{hashlib.sha256(item.nodeid.encode(errors='replace')).hexdigest()[:8]}.jsonl"
    shutil.copyfile(log, kept)
    return kept
