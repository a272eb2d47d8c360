"""The tables of messages and of their hearings: the rows of each sign's message table, as they were last read."""

from dataclasses import dataclass
from typing import Sequence

from .connection import Database
from .values import CLOCK, places, text_or_none, time_of, whole

# a table that was asked for at a time to come is due: the clock jumped
_DUE = f"(table_wanted = 1 OR table_read_at + ? <= {CLOCK} OR table_read_at > {CLOCK})"
_SAME = "{0}.sign = {1}.sign AND {0}.memory = {1}.memory AND {0}.number = {1}.number"  # one row, in two tables
_IN_HEARINGS = _SAME.format("row_hearings", "messages")
# nothing newer was heard of the row
_NEWEST = f"EXISTS (SELECT 1 FROM row_hearings WHERE {_IN_HEARINGS} AND row_hearings.reading = {{reading}})"
HEARD = "COALESCE(row_hearings.heard, messages.heard)"  # when a row was heard last, of OF_ROWS
OF_ROWS = f"FROM messages LEFT JOIN row_hearings ON {_IN_HEARINGS}"


@dataclass(frozen=True)
class RowSaid:
    """What a sign said of a row of its table: the row's status, and what it holds where it is in use."""

    sign: int
    memory: int
    number: int
    reading: int
    status: int
    held: str | None


class Messages:
    """Message tables of all signs."""

    def __init__(self, database: Database) -> None:
        self.database = database
        self._run = database.run

    def to_read(self, seconds: float) -> list[int]:
        """The signs whose table was asked for longer ago than these seconds, or is wanted: those first."""
        rows = self._run(f"SELECT id FROM signs WHERE {_DUE} ORDER BY table_wanted DESC, table_read_at, id", seconds)
        return [whole(row[0]) for row in rows]

    def due(self, signs: Sequence[int], seconds: float) -> list[int]:
        """Those of the signs whose table is due: they count as asked for now."""
        if not signs:
            return []
        rows = self._run(
            f"WITH due AS MATERIALIZED (SELECT id FROM signs WHERE id IN ({places(signs)}) AND {_DUE} {{skip}})"
            f" UPDATE signs SET table_read_at = {CLOCK}, table_wanted = 0"
            " WHERE id IN (SELECT id FROM due) RETURNING id",
            *signs,
            seconds,
        )
        return [whole(row[0]) for row in rows]

    def want(self, sign: int) -> None:
        """Has the sign's table read before its time."""
        self._run("UPDATE signs SET table_wanted = 1 WHERE id = ?", sign)

    def keep(self, said: Sequence[RowSaid]) -> None:
        """What signs said of rows: the newest of each row that was ever in use, written where it says something else;
        when each was heard stands apart."""
        if not said:
            return
        newest = {(one.sign, one.memory, one.number): one for one in sorted(said, key=lambda one: -one.reading)}
        unused = [one for _, one in sorted(newest.items()) if one.held is None]
        used = [one for _, one in sorted(newest.items()) if one.held is not None]
        with self.database.transaction(is_lasting=False):
            self._hear(unused, used)
            self._write(unused, used)

    def _hear(self, unused: Sequence[RowSaid], used: Sequence[RowSaid]) -> None:
        """Each row was heard now, but for what comes late; from here on its row here is this transaction's."""
        self.database.run_rows(
            "WITH found (sign, memory, number, reading) AS (VALUES {rows}), older AS MATERIALIZED (SELECT"
            " row_hearings.sign, row_hearings.memory, row_hearings.number, found.reading FROM row_hearings JOIN found"
            f" ON {_SAME.format('row_hearings', 'found')} WHERE row_hearings.reading > found.reading"
            f" ORDER BY row_hearings.sign, row_hearings.memory, row_hearings.number {{lock}})"
            f" UPDATE row_hearings SET reading = older.reading, heard = {CLOCK} FROM older"
            f" WHERE {_SAME.format('row_hearings', 'older')}",
            "(?, ?, ?, ?)",
            [(one.sign, one.memory, one.number, one.reading) for one in unused],
        )
        self.database.run_rows(
            "INSERT INTO row_hearings (sign, memory, number, reading, heard) VALUES {rows}"
            " ON CONFLICT (sign, memory, number) DO UPDATE SET reading = excluded.reading, heard = excluded.heard"
            " WHERE row_hearings.reading > excluded.reading",
            f"(?, ?, ?, ?, {CLOCK})",
            [(one.sign, one.memory, one.number, one.reading) for one in used],
        )

    def _write(self, unused: Sequence[RowSaid], used: Sequence[RowSaid]) -> None:
        """Rows that say something else than they did; what comes late is let be."""
        self.database.run_rows(
            "WITH found (sign, memory, number, reading, status) AS (VALUES {rows})"
            f" UPDATE messages SET reading = found.reading, heard = {CLOCK}, status = found.status, held = NULL"
            f" FROM found WHERE {_SAME.format('messages', 'found')} AND messages.reading > found.reading"
            " AND (messages.status <> found.status OR messages.held IS NOT NULL)"
            f" AND {_NEWEST.format(reading='found.reading')}",
            "(?, ?, ?, ?, ?)",
            [(one.sign, one.memory, one.number, one.reading, one.status) for one in unused],
        )
        self.database.run_rows(
            "INSERT INTO messages (sign, memory, number, reading, heard, status, held)"
            " VALUES {rows} ON CONFLICT (sign, memory, number) DO UPDATE"
            " SET reading = excluded.reading, heard = excluded.heard, status = excluded.status, held = excluded.held"
            " WHERE messages.reading > excluded.reading"
            " AND (messages.status <> excluded.status OR messages.held IS NULL OR messages.held <> excluded.held)"
            f" AND {_NEWEST.format(reading='excluded.reading')}",
            f"(?, ?, ?, ?, {CLOCK}, ?, ?)",
            [(one.sign, one.memory, one.number, one.reading, one.status, one.held) for one in used],
        )

    def of(self, sign: int) -> list[tuple[int, int, int, str | None, float]]:
        """The rows of a sign's table: memory, number, status, what it holds, and when that was heard."""
        rows = self._run(
            f"SELECT messages.memory, messages.number, status, held, {HEARD} {OF_ROWS} WHERE messages.sign = ?"
            " ORDER BY messages.memory, messages.number",
            sign,
        )
        return [
            (whole(memory), whole(number), whole(status), text_or_none(held), time_of(heard))
            for memory, number, status, held, heard in rows
        ]
