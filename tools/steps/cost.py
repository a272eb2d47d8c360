"""What a part of the gate takes."""

from __future__ import annotations

import resource
import time


def _of_processors() -> float:
    """The seconds that this process and those that it waited for took of all processors."""
    both = (resource.getrusage(who) for who in (resource.RUSAGE_SELF, resource.RUSAGE_CHILDREN))
    return sum(used.ru_utime + used.ru_stime for used in both)


class Cost:
    """The time since it was made, by the clock and of the processors."""

    def __init__(self) -> None:
        self.begun, self.used = time.monotonic(), _of_processors()

    def __str__(self) -> str:
        clock, used = time.monotonic() - self.begun, _of_processors() - self.used
        return f"{clock / 60:.1f} minutes, {used / 60:.1f} of processors"
