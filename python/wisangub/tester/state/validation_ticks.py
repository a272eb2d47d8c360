"""The end of a row's validation, watched: the sign's ticks are learnt from it."""

from dataclasses import dataclass

from wisangub.tester.requests.messages import spelled
from wisangub.tester.requests.objects import Column, Row
from wisangub.tester.requests.steps import get
from wisangub.tester.sign.pair import Pair
from wisangub.tester.sign.port import Heard

_VALIDATING = 3
POLL, SURE, MOST_SURE = 0.004, 0.04, 0.2  # seconds between two looks at a row; within which its end is seen
LONGEST = 3.5  # seconds that a row is watched
AT_ONCE, TIMES = 0.2, 3  # seconds within which a row is settled, and times in a row, where the sign waits for no tick
_MOST_MISSED = 5  # times that the end of a validation is not seen, until no more is looked for


@dataclass
class ValidationTicks:
    """A tick is learnt only between a look that was answered in time and the next one that was.

    A reply that is late says of its tick only on which side of the look it was, so it is passed over.
    """

    pair: Pair
    missed: int = 0  # how often the end of a validation was not seen, or only between looks that were far apart
    at_once: int = 0  # how often in a row a row was settled as soon as it could be looked at

    def begin_anew(self) -> None:
        """Ticks are to be learnt, whatever was seen of them."""
        self.pair.ticks.forget()
        self.missed = self.at_once = 0

    def is_at_once(self) -> bool:
        """Whether the sign settles rows at once: then no tick can be learnt from that."""
        return self.at_once >= TIMES

    def is_unlearnt(self) -> bool:
        """Whether rows settle at moments that are not known yet."""
        return not self.pair.ticks.is_learnt() and not self.is_at_once()

    def is_to_be_learnt(self) -> bool:
        return self.is_unlearnt() and self.missed < _MOST_MISSED

    def look(self, row: Row) -> tuple[Heard, bool]:
        """A look at a row, and whether it is validating by a reply that came in time."""
        port = self.pair.port
        number = port.new_number()
        heard = port.look(get(row.cell(Column.STATUS)).octets(number, self.pair.communities), number)
        message = spelled(heard.reply or b"")
        return heard, message is not None and [held for _, (_, held) in message.bindings] == [_VALIDATING]

    def watch(self, row: Row) -> bool:
        """Waits while a row is validating, and learns the tick that ends it; whether it was seen to validate."""
        clock, ticks = self.pair.clock, self.pair.ticks
        until = clock.now() + LONGEST
        before: float | None = None
        while clock.now() < until:
            heard, is_validating = self.look(row)
            if heard.reply is None:
                continue
            if not is_validating:
                if before is not None:
                    self.ended(before, heard.ended)
                break
            before = heard.begun
            due = min(ticks.upcoming() - ticks.margin, until) if ticks.is_learnt() else before
            clock.sleep_until(max(before + POLL, due))
        return before is not None

    def ended(self, low: float, high: float) -> None:
        """A row settled between these moments."""
        if high - low < min(MOST_SURE, SURE * (1 + self.missed)):
            self.pair.ticks.learn(low, high)
        else:
            self.missed += not self.pair.ticks.is_learnt()

    def watch_asked(self, row: Row, asked: float) -> None:
        """Watches a row that was asked to validate at a moment. One that is settled soon may have met a tick."""
        if self.watch(row):
            self.at_once = 0
        elif self.pair.clock.now() - asked < AT_ONCE:
            self.at_once += 1
        else:
            self.missed += not self.pair.ticks.is_learnt()
