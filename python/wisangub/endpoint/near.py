"""A front end and its co-process on one processor, while many datagrams come.

The two take turns: each waits while the other works. To wake the other one on another processor takes as long as all
that is done for a Get; on the same one the system goes over from the one to the other.
"""

import contextlib
import os

MANY = 100  # turns in a second, from which on the two are kept together
_SECOND = 1.0


def _here() -> int:
    """The processor that this thread runs on."""
    with open("/proc/thread-self/stat", "rb") as file:
        return int(file.read().rpartition(b") ")[2].split()[36])


class Near:
    """Each second both may run where they could before. From so many turns on they stay for the rest of it where the
    front end is then: the system says where that is. What it does not let them do is not done."""

    def __init__(self, process: int) -> None:
        self.process = process
        self.allowed = set[int]()  # where they may run, while they are kept together
        self.turns, self.until = 0, 0.0

    def turn(self, now: float) -> None:
        """The front end woke, at this moment."""
        if now >= self.until:
            self.part()
            self.turns, self.until = 0, now + _SECOND
        self.turns += 1
        if self.turns == MANY:
            self.join()

    def join(self) -> None:
        """Both stay where the front end is."""
        with contextlib.suppress(OSError):
            allowed = os.sched_getaffinity(0)
            if len(allowed) > 1:
                self.keep({_here()})
                self.allowed = allowed

    def part(self) -> None:
        """Both may run where they could before."""
        if self.allowed:
            with contextlib.suppress(OSError):
                self.keep(self.allowed)
            self.allowed = set()

    def keep(self, processors: set[int]) -> None:
        """Both run on these."""
        for one in (self.process, 0):
            os.sched_setaffinity(one, processors)
