"""How long the rest of some steps takes, by what each takes on a quiet machine and how fast those went that ended."""

from __future__ import annotations

import heapq
from collections.abc import Sequence

from .step import Step


class Left:
    """Steps that run side by side, and then steps of which one runs at a time."""

    def __init__(self, together: Sequence[Step], alone: Sequence[Step], processors: int) -> None:
        self.ends: dict[str, float] = {}  # when each ends on a quiet machine, from the start of all
        free = [0.0] * processors
        for step in sorted(together, key=lambda step: -step.limit):
            self.ends[step.name] = heapq.heappop(free) + step.seconds
            heapq.heappush(free, self.ends[step.name])
        last = max(self.ends.values(), default=0.0)
        for step in alone:
            self.ends[step.name] = last = last + step.seconds
        self.all = last
        self.running = dict(self.ends)
        self.pace = 1.0  # how many times as long as on a quiet machine it takes

    def end(self, name: str, seconds: float) -> None:
        """This step ended so many seconds after the start of all."""
        self.pace = seconds / max(1.0, self.running.pop(name))

    def after(self, seconds: float) -> float:
        """How many seconds are left, so many after the start of all: more, where the next step should be over."""
        late = seconds / max(1.0, min(self.running.values(), default=self.all))
        return max(1.0, max(self.pace, late) * self.all - seconds)


def in_words(seconds: float) -> str:
    return f"some {seconds:.0f} s" if seconds < 100 else f"some {seconds / 60:.0f} minutes"
