"""What the tests of drivers share: a call that is to end by an error, what goes on beside it, and whether its write took effect."""

import contextlib
import itertools
import pathlib
import socket
import sys
import time
from concurrent.futures import ThreadPoolExecutor
from typing import NamedTuple

ROOT = pathlib.Path(__file__).resolve().parents[2]
sys.path.append(str(ROOT / "examples" / "live"))

from processes import HOST  # noqa: E402

PATIENCE, GRACE, ASK_SECONDS = 10.0, 0.1, 0.02


class Tried(NamedTuple):
    """A call that was provoked to end by an error: how, the name that the error has to have in the page's table, the error, whether its
    write took effect, and whether it was to; None where both are right."""

    how: str
    name: str
    error: BaseException | None
    is_done: bool
    was_to_be_done: bool | None


class Bench:
    """Where calls are tried. Each has a new value, of which `is_there` says whether the store has it."""

    def __init__(self):
        self.numbers = itertools.count(1)

    def is_there(self, value):
        raise NotImplementedError

    def value(self, driver):
        """A value that no call had before."""
        return f"{driver}.{next(self.numbers)}"

    def tried(self, driver, how, name, call, was_to_be_done=False):
        """Makes a call of a new value that is to end by an error of this name."""
        value = self.value(driver)
        return self.ended(driver, how, name, value, raised(lambda: call(value)), was_to_be_done)

    def ended(self, driver, how, name, value, error, was_to_be_done=False):
        """A call of this value that ended by an error. A write that was not to take effect has a moment for it."""
        if was_to_be_done:
            comes_true(lambda: self.is_there(value))
        else:
            time.sleep(GRACE)
        return Tried(f"{driver}, {how}", name, error, self.is_there(value), was_to_be_done)


def raised(call):
    """What a call raises, if anything."""
    try:
        call()
    except Exception as error:
        return error
    return None


def comes_true(condition, seconds=PATIENCE):
    """Asks again and again, until it is so or the time is over."""
    until = time.monotonic() + seconds
    while not (found := condition()) and time.monotonic() < until:
        time.sleep(ASK_SECONDS)
    return found


@contextlib.contextmanager
def meanwhile(call):
    """Makes a call in another thread, and raises what it raises."""
    with ThreadPoolExecutor(1) as pool:
        made = pool.submit(call)
        yield
        made.result()


@contextlib.contextmanager
def silent_port():
    """A port of the loopback at which nobody listens."""
    with socket.socket() as held:
        held.bind((HOST, 0))
        yield held.getsockname()[1]


@contextlib.contextmanager
def stopped(server):
    """Stops a server meanwhile, and waits until it stands."""
    number = server.process.pid
    with server.paused():
        comes_true(lambda: pathlib.Path(f"/proc/{number}/stat").read_text().rpartition(") ")[2].startswith("T"))
        yield
