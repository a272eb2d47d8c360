"""The sign's seconds: when they pass, as learnt from validations, and how many have passed."""

import math

from .clock import Clock

LONG_AGO, SOON, LATE, MOST_MARGIN = 30.0, 0.3, 0.3, 0.12


class Ticks:
    """The moments of the sign's ticks. `next` is the next one that ours has not been handed."""

    def __init__(self, clock: Clock, margin: float = 0.03) -> None:
        self.clock, self.margin = clock, margin
        self.period = 1.0
        self.next = math.inf
        self.first: tuple[float, float] | None = None  # between which moments the first was seen
        self.seen_at = 0.0
        self.count = 0  # ticks since the first that was seen, which is number 0

    def is_learnt(self) -> bool:
        return self.first is not None

    def forget(self) -> None:
        """What was learnt is doubted: the next tick that is seen counts as the first. Ours goes on as before."""
        self.first, self.period, self.count = None, 1.0, 0

    def learn(self, low: float, high: float) -> None:
        """A tick was seen between two moments. What is known already is kept as far as they allow it."""
        self.seen_at = high
        if self.first is None:
            self.first, self.next = (low, high), (low + high) / 2
            self.margin = max(self.margin, min(0.02 + (high - low) / 2, MOST_MARGIN))
            return
        ticks_away = round(((low + high) / 2 - self.next) / self.period)
        number = self.count + ticks_away
        if number >= 5:
            least, most = (low - self.first[1]) / number, (high - self.first[0]) / number
            self.period = min(max(self.period, least), most)
        expected = self.next + ticks_away * self.period
        self.next = min(max(expected, low), high) - ticks_away * self.period

    def is_old(self) -> bool:
        """Whether it is long ago that a tick was seen."""
        return self.first is not None and self.clock.now() - self.seen_at > LONG_AGO

    def take_passed(self) -> int:
        """How many ticks have passed since it was last asked."""
        passed = 0
        while self.clock.now() >= self.next:
            self.next += self.period
            passed += 1
        self.count += passed
        return passed

    def upcoming(self) -> float:
        """The moment of the next tick from now on."""
        if math.isinf(self.next):
            return self.next
        return self.next + max(0, math.ceil((self.clock.now() - self.next) / self.period)) * self.period

    def keep_clear(self) -> None:
        """Waits where a tick is near, until it is past."""
        if math.isinf(self.next):
            return
        now, upcoming = self.clock.now(), self.upcoming()
        if upcoming - now < self.margin:
            self.clock.sleep_until(upcoming + self.margin)
        elif self.first is not None and now < upcoming - self.period + self.margin:
            self.clock.sleep_until(upcoming - self.period + self.margin)

    def is_soon(self) -> bool:
        return not math.isinf(self.next) and self.upcoming() - self.clock.now() < SOON

    def wait(self, ticks: int) -> None:
        """Until so many more ticks are past."""
        if ticks and not math.isinf(self.next):
            self.clock.sleep_until(self.upcoming() + (ticks - 1) * self.period + self.margin)

    def is_in_doubt(self, begun: float, ended: float) -> bool:
        """Whether a tick may have come between two moments, or may be late at the first of them."""
        if math.isinf(self.next) or self.first is None:
            return False
        return self.may_have_come(ended) or begun < self.next - self.period + LATE

    def may_have_come(self, moment: float) -> bool:
        """Whether the next tick that ours has not been handed may have come before this moment."""
        return moment > self.next - self.margin / 2

    def after_doubt(self) -> float:
        """The moment from which on the last tick is late no more; now, where none is known."""
        return self.clock.now() if math.isinf(self.next) else self.next - self.period + LATE

    def was_late(self) -> None:
        """A tick came later than it was waited for: from now on it is waited for longer."""
        self.margin = min(1.5 * self.margin, MOST_MARGIN)
