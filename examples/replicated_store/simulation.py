"""Simulated time: what coroutines do while they wait for each other, with one run for one seed, on any machine."""

import heapq
import itertools
from collections.abc import Callable, Coroutine, Generator


class Sleep:
    """What a coroutine awaits to wait for some seconds."""

    def __init__(self, seconds: float) -> None:
        self.seconds = seconds

    def __await__(self) -> Generator[float, None, None]:
        yield self.seconds


class Simulation:
    """What happens next."""

    def __init__(self) -> None:
        self.now = 0.0
        self.actions: list[tuple[float, int, Callable[[], None]]] = []
        self.numbers = itertools.count()

    def after(self, delay: float, action: Callable[[], None]) -> None:
        """Has something happen later."""
        heapq.heappush(self.actions, (self.now + delay, next(self.numbers), action))

    def start(self, coroutine: Coroutine[float, None, None]) -> None:
        """Goes on with a coroutine, which awaits Sleep each time it waits."""
        try:
            delay = coroutine.send(None)
        except StopIteration:
            return
        self.after(delay, lambda: self.start(coroutine))

    def run(self) -> None:
        """Goes on until nothing is left to happen."""
        while self.actions:
            self.now, _, action = heapq.heappop(self.actions)
            action()
