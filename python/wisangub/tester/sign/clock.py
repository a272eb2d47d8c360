"""Clocks: the machine's, and one that the tests move."""

import time
from typing import Callable, Protocol


class Clock(Protocol):
    """What conform asks of a clock: the moment, in seconds from any start, and to wait."""

    def now(self) -> float:
        ...

    def sleep_until(self, moment: float) -> None:
        ...


class RealClock:
    """The machine's clock."""

    def now(self) -> float:
        return time.monotonic()

    def sleep_until(self, moment: float) -> None:
        left = moment - time.monotonic()
        if left > 0:
            time.sleep(left)


class SimulatedClock:
    """A clock that stands until somebody waits; who listens is told each moment that it comes to."""

    def __init__(self) -> None:
        self.moment = 0.0
        self.listeners: list[Callable[[float], None]] = []

    def now(self) -> float:
        return self.moment

    def sleep_until(self, moment: float) -> None:
        if moment > self.moment:
            for listener in self.listeners:
                listener(moment)
            self.moment = moment
