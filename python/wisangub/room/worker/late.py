"""Commands that have waited for their turn for too long."""

from __future__ import annotations

import time

from wisangub.room.store.commands import Commands


class Late:
    """Those that had waited for so many seconds when the worker began, by the database's clock, and those that it has
    seen wait for so long by its own: nothing is given up where a clock is set forward meanwhile."""

    def __init__(self, commands: Commands, seconds: float) -> None:
        self.commands, self.seconds = commands, seconds
        self.at_first = commands.waiting(seconds)
        self.seen: dict[int, float] = {}  # since when

    def give_up(self) -> None:
        now = time.monotonic()
        self.seen = {command: self.seen.get(command, now) for command in self.commands.waiting()}
        late = {command for command, since in self.seen.items() if now - since >= self.seconds}
        self.commands.give_up(late | (self.at_first & set(self.seen)), self.seconds)
