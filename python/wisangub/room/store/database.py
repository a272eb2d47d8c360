"""A database by its name, SQLite's or PostgreSQL's, with numbered migrations that make its tables those of today."""

import functools
import os
import pathlib

from wisangub.process.places import called
from wisangub.refusal import Refusal
from wisangub.room.output import LOG

from . import months
from .connection import Away, Database, Failed, NotYet, Row, Taken, Value
from .sqlite import Sqlite

__all__ = [
    "Away",
    "Database",
    "Failed",
    "NotYet",
    "Row",
    "Taken",
    "Value",
    "check_known",
    "connected",
    "is_url",
    "migrate",
    "migrations",
    "opened",
]
_MIGRATIONS = pathlib.Path(__file__).resolve().parent / "migrations"
RESTORING = (
    "restoring"  # a table of this name keeps all out of a database that python/wisangub/room/store/backup.py restores
)
_URLS = ("postgresql://", "postgres://")
_POSTGRESQL, _FTS5 = "{postgresql}", "{fts5}"  # at the beginning of a statement that is not for all
_CARRIED = (
    f"From now on an earlier program refuses it: that one takes a copy that {called('wisangub-control backup copy')}"
    " made before"
)


@functools.cache
def migrations(folder: pathlib.Path = _MIGRATIONS) -> list[tuple[int, str]]:
    """Each migration's number and text, in their order, as this program began with them: files of a newer one that come
    into their place meanwhile carry nothing over."""
    return sorted((int(path.name.split("_")[0]), path.read_text(encoding="utf-8")) for path in folder.glob("*.sql"))


def _statements(text: str) -> list[str]:
    """The statements of a migration: comments are lines of their own, and a statement ends with a line's end, but for
    those of a body between two `$$`."""
    found = [""]
    for line in text.splitlines():
        if line.startswith("--"):
            continue
        found[-1] += line + "\n"
        if line.endswith(";") and found[-1].count("$$") % 2 == 0:
            found.append("")
    return [one.strip(" ;\n") for one in found if one.strip(" ;\n")]


def _own(database: Database, statement: str) -> str:
    """A statement of a migration in a database's words; none where it is for another one."""
    if statement.startswith(_POSTGRESQL) and not database.has_months:
        return ""
    if statement.startswith(_FTS5) and not database.has_fts5():
        return ""
    statement = statement.removeprefix(_POSTGRESQL).removeprefix(_FTS5).strip()
    return statement.replace("{key}", database.key).replace("{unlogged}", database.unlogged)


def _numbers_of(database: Database) -> set[int]:
    """The migrations that were run."""
    return {int(row[0] or 0) for row in database.run("SELECT number FROM migrations")}


def migrate(database: Database, known: list[tuple[int, str]]) -> list[int]:
    """Runs the migrations that are missing: the numbers of those that were run. A newer database is refused."""
    done: list[int] = []
    if database.has_table("migrations") and _numbers_of(database) == {number for number, _ in known}:
        return done
    with database.transaction(is_alone=True):
        database.run("CREATE TABLE IF NOT EXISTS migrations (number BIGINT PRIMARY KEY, at DOUBLE PRECISION NOT NULL)")
        found = _numbers_of(database)
        newer = found - {number for number, _ in known}
        if newer:
            raise Refusal(f"the database is of a newer program: it has migration {max(newer)}")
        for number, text in known:
            if number in found:
                continue
            for statement in filter(None, (_own(database, one) for one in _statements(text))):
                database.run(statement)
            database.run("INSERT INTO migrations (number, at) VALUES (?, {clock})", number)
            done.append(number)
    return done


def check_known(database: Database) -> None:
    """Refuses a database that a newer program has carried over since this one opened it."""
    newest = int(database.run("SELECT max(number) FROM migrations")[0][0] or 0)
    if newest > max(number for number, _ in migrations()):
        raise Refusal(f"the database is of a newer program: it has migration {newest}")


def is_url(where: str) -> bool:
    """Whether it is a database of PostgreSQL."""
    return where.startswith(_URLS)


def connected(where: str) -> Database:
    """The database of a file's path or of postgresql://.., with the tables that it has."""
    if is_url(where):
        from .postgresql import Postgresql  # psycopg is needed for it alone

        return Postgresql(where)
    return Sqlite(where)


def opened(where: str, may_create: bool = True) -> Database:
    """The database of a file's path or of postgresql://.., with today's tables. Where there is none it is made, or
    refused; one of an earlier program is carried over."""
    if not may_create and not is_url(where) and not os.path.exists(where):
        raise Refusal(f"{where}: there is no database: --create makes one")
    database = connected(where)
    try:
        if not may_create and not any(map(database.has_table, ("migrations", RESTORING))):
            raise Refusal(f"{_named(where)} is empty, or no control room's: --create makes its tables")
        if database.has_table(RESTORING):
            raise Refusal("the database is being restored, or its restore failed: it wants an empty one")
        is_old = database.has_table("migrations")
        done = migrate(database, migrations())
        if is_old and done:
            LOG.info(
                f"{_named(where)}: its tables are carried over by migration {', '.join(map(str, done))}. {_CARRIED}"
            )
        months.make(database)
    except Away as away:
        raise NotYet(f"{_named(where)}: {away}", 1) from away
    except Failed as fault:
        raise Refusal(f"{_named(where)}: {fault}") from fault
    return database


def _named(where: str) -> str:
    """The database without a password, for messages."""
    return "the database" if is_url(where) else where
