"""What PostgreSQL counts, whatever else the machine does: statements, transactions, octets of its log, and syncs."""

from dataclasses import dataclass

from wisangub.room.store.connection import Database
from wisangub.room.store.values import whole

LIBRARY = "pg_stat_statements"


@dataclass(frozen=True)
class Counts:
    """So many until now, or between two times."""

    statements: int
    transactions: int
    log: int  # octets
    syncs: int  # of the log

    def __sub__(self, before: "Counts") -> "Counts":
        return Counts(
            self.statements - before.statements,
            self.transactions - before.transactions,
            self.log - before.log,
            self.syncs - before.syncs,
        )

    def told(self, of: int, what: str, seconds: float) -> str:
        """In words, in all and a thing; where there is nothing that was done, a day."""
        words = (
            f"{self.statements} statements, {self.transactions} transactions, {self.syncs} syncs and"
            f" {self.log / 1e6:.1f} MB of the server's log in {seconds:.0f} s"
        )
        if not of:
            return f"{words}: {self.log / seconds * 86400 / 1e9:.2f} GB a day, {self.statements / seconds:.1f} a second"
        return (
            f"{words}: {self.statements / of:.1f} statements, {self.transactions / of:.2f} transactions and"
            f" {self.log / of / 1000:.1f} kB a {what}"
        )


def counted(database: Database) -> Counts:
    """What the server counted for all of its databases, with this look."""
    database.run(f"CREATE EXTENSION IF NOT EXISTS {LIBRARY}")
    (row,) = database.run(
        "SELECT (SELECT CAST(sum(calls) AS BIGINT) FROM pg_stat_statements),"
        " (SELECT CAST(sum(xact_commit) AS BIGINT) FROM pg_stat_database),"
        " CAST(pg_wal_lsn_diff(pg_current_wal_lsn(), '0/0') AS BIGINT),"
        " (SELECT wal_sync FROM pg_stat_wal)"
    )
    return Counts(*map(whole, row))
