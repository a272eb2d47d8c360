"""The audit: who asked for what, a line each."""

from .database import Database


def note(database: Database, who: str, what: str) -> None:
    """A line of the audit, at the database's time; within a transaction it is a part of it."""
    database.run("INSERT INTO audit (at, who, what) VALUES ({clock}, ?, ?)", who, what)
