"""Leases: which worker drives which sign until when, by the database's clock. A worker is told by its name."""

from typing import Sequence

from .connection import Database
from .values import CLOCK, SLACK, places, whole

# nobody drives the sign: a lease that was taken at a time to come is over, since the clock jumped
_OVER = f"(leased_by IS NULL OR leased_until < {CLOCK} OR leased_at > {CLOCK} + {SLACK})"


class Leases:
    """Leases of all signs."""

    def __init__(self, database: Database) -> None:
        self.database = database
        self._run = database.run

    def with_work(self) -> list[int]:
        """Signs that have a command which has not ended, and that nobody drives: the longest waiting first."""
        rows = self._run(
            f"SELECT commands.sign FROM commands JOIN signs ON signs.id = commands.sign"
            f" WHERE commands.outcome IS NULL AND {_OVER}"
            " GROUP BY commands.sign ORDER BY min(commands.id)"
        )
        return [whole(row[0]) for row in rows]

    def take(self, signs: Sequence[int], worker: str, seconds: float) -> set[int]:
        """Which of these signs the worker drives for so many seconds from now on."""
        if not signs:
            return set()
        rows = self._run(
            f"WITH free AS MATERIALIZED (SELECT id FROM signs WHERE id IN ({places(signs)})"
            f" AND {_OVER} {{skip}})"
            f" UPDATE signs SET leased_by = ?, leased_at = {CLOCK}, leased_until = {CLOCK} + ?"
            " WHERE id IN (SELECT id FROM free)"
            " RETURNING id",
            *signs,
            worker,
            seconds,
        )
        return {whole(row[0]) for row in rows}

    def renew(self, signs: Sequence[int], worker: str, seconds: float) -> set[int]:
        """Which of these signs the worker still drives: for so many seconds from now on."""
        if not signs:
            return set()
        rows = self._run(
            f"WITH held AS MATERIALIZED (SELECT id FROM signs WHERE leased_by = ? AND leased_until >= {CLOCK}"
            f" AND id IN ({places(signs)}) ORDER BY id {{lock}})"
            f" UPDATE signs SET leased_at = {CLOCK}, leased_until = {CLOCK} + ? WHERE id IN (SELECT id FROM held)"
            " RETURNING id",
            worker,
            *signs,
            seconds,
        )
        return {whole(row[0]) for row in rows}

    def release(self, signs: Sequence[int], worker: str) -> None:
        """Lets those of the signs go that the worker has."""
        if signs:
            self._run(
                f"WITH held AS MATERIALIZED (SELECT id FROM signs WHERE leased_by = ? AND id IN ({places(signs)})"
                " ORDER BY id {lock}) UPDATE signs SET leased_by = NULL WHERE id IN (SELECT id FROM held)",
                worker,
                *signs,
            )
