"""How many datagrams of the writing community are recorded in a second, so that nobody fills a disk with them."""

import collections
from typing import Generic, TypeVar

SECOND = 1.0
MOST_RECORDED = 50  # in any second, where nothing else is said
MOST_WAITING = 64

_One = TypeVar("_One")


class Limit(Generic[_One]):
    """At most so many in any second are let through, in their order; some wait, and what comes then is dropped."""

    def __init__(self, most: int = MOST_RECORDED) -> None:
        self.times: collections.deque[float] = collections.deque(maxlen=most)  # when the last ones were let through
        self.waiting: collections.deque[_One] = collections.deque()
        self.dropped = 0

    def from_when(self) -> float:
        """When one more is let through."""
        is_full = len(self.times) == self.times.maxlen
        return self.times[0] + SECOND if is_full else 0.0

    def wait(self, now: float) -> float | None:
        """The seconds until one that waits is let through; None where none does."""
        return max(0.0, self.from_when() - now) if self.waiting else None

    def lets(self, one: _One, now: float) -> bool:
        """Whether this one is let through at once. Else it waits, or is dropped."""
        if not self.waiting and self.from_when() <= now:
            self.times.append(now)
            return True
        if len(self.waiting) < MOST_WAITING:
            self.waiting.append(one)
        else:
            self.dropped += 1
        return False

    def due(self, now: float, count: int) -> list[_One]:
        """Those that waited and are let through now, at most so many."""
        found: list[_One] = []
        while self.waiting and len(found) < count and self.from_when() <= now:
            self.times.append(now)
            found.append(self.waiting.popleft())
        return found
