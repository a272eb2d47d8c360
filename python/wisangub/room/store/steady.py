"""Whether a database's clock goes as this machine's own, which nobody sets, and begins where this machine's is."""

import time
from typing import Callable

SLACK = 60.0  # seconds by which the two may differ more from one look to the next
PATIENCE = 600.0  # seconds for which a clock that was set is watched


class Steady:
    """A clock that was set is doubted until it has gone on for a while as it went then, or is where it was. One that
    has gone on for as long since it was first looked at is also trusted. Who has just begun has seen nothing go on:
    where another clock is given, such as the machine's, one that is elsewhere is doubted from the first look on."""

    def __init__(self, other: Callable[[], float] | None = None) -> None:
        self.monotonic: Callable[[], float] = time.monotonic
        # the database's clock less one's own
        self._held: float | None = None if other is None else other() - self.monotonic()
        self._doubted: float | None = None  # the same, as it is since it was set
        self._since = self._set = self._at = 0.0  # by one's own clock

    @property
    def is_doubted(self) -> bool:
        return self._doubted is not None

    @property
    def is_trusted(self) -> bool:
        return self._doubted is None and self._at - self._since >= PATIENCE

    def look(self, ask: Callable[[], float]) -> float:
        """The database's time. However long it took to ask for it, that is no sign of a clock that was set."""
        before = self.monotonic()
        now = ask()
        self._at = self.monotonic()
        least, most = now - self._at, now - before

        def nearest(offset: float | None) -> float | None:
            """The same offset, as far as it went with the clocks; None where one of them was set."""
            found = least if offset is None else min(max(offset, least), most)
            return found if offset is not None and abs(found - offset) <= SLACK else None

        held, doubted = nearest(self._held), nearest(self._doubted)
        self._since = self._since or self._at
        if self._held is None:
            self._held = least
        elif held is not None:
            self._held, self._doubted = held, None
        elif doubted is None:
            self._doubted, self._set = least, self._at
        elif self._at - self._set >= PATIENCE:
            self._held, self._doubted, self._since = doubted, None, self._set
        else:
            self._doubted = doubted
        return now
