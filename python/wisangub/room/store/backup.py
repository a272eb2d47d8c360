"""Copies of the database, and what they are good for.

    wisangub-control backup copy    --database WHERE --to FILE             while workers run
    wisangub-control backup restore --database WHERE --from FILE [--first NUMBER]
    wisangub-control backup advance --database WHERE [--first NUMBER]      after a restore by other means

A copy of SQLite is a database by itself; one of PostgreSQL is pg_dump's. `restore` makes the database WHERE, which must
not be there yet (of PostgreSQL: must be empty), and has every sign's centre begin above all numbers that may have been
used since the copy was made; `advance` does the latter alone, where a database came back by a snapshot, a point in time
or a standby. No worker of the database before may run any more.
"""

import argparse
import contextlib
import os
import pathlib
import sqlite3
import subprocess
import sys
from typing import Iterator

from wisangub.endpoint.files import MODE, synced_folder
from wisangub.refusal import Refusal, reason, status_of
from wisangub.room import options
from wisangub.room.output import print_line

from . import database
from .advance import advance
from .database import Failed
from .programs import program
from .sqlite import address_of
from .store import Store


@contextlib.contextmanager
def _faults_told() -> Iterator[None]:
    """Faults of files and of SQLite in words."""
    try:
        yield
    except OSError as fault:
        raise Refusal(reason(fault)) from fault
    except sqlite3.Error as fault:
        raise Refusal(f"SQLite: {fault}") from fault


def _copied(source: str, target: pathlib.Path) -> None:
    """A whole and consistent copy of a database of SQLite at a path where nothing is, though others write meanwhile."""
    if not pathlib.Path(source).is_file():
        raise Refusal(f"{source}: there is no database")
    with _faults_told():
        os.close(os.open(target, os.O_RDWR | os.O_CREAT | os.O_EXCL, MODE))
        try:
            with contextlib.closing(sqlite3.connect(address_of(source, "ro"), uri=True)) as old, contextlib.closing(
                sqlite3.connect(target)
            ) as new:
                old.backup(new)
                new.execute("PRAGMA journal_mode = DELETE")  # the file is all there is of it
                if new.execute("PRAGMA integrity_check").fetchall() != [("ok",)]:
                    raise Refusal(f"{source}: SQLite's check of the copy failed")
            with open(target, "rb") as file:
                os.fsync(file.fileno())
        except BaseException:
            target.unlink()
            raise


def environment(url: str) -> dict[str, str]:
    """The place of a database of PostgreSQL for its programs: a password stands in no list of processes."""
    from .postgresql import variables_of  # psycopg is needed for it alone

    held = variables_of(url)
    if "PGDATABASE" not in held:
        raise Refusal("the database has no name: postgresql://USER@HOST/NAME")
    return {**os.environ, **held}


def _called(url: str, name: str, *words: str) -> None:
    """Runs one of PostgreSQL's programs to its end."""
    try:
        done = subprocess.run(
            [program(name), *words],
            env=environment(url),
            stdin=subprocess.DEVNULL,
            stdout=subprocess.PIPE,
            stderr=subprocess.STDOUT,
        )
    except OSError as fault:
        raise Refusal(f"{name}: {reason(fault)}") from fault
    if done.returncode:
        raise Refusal(f"{name}: {done.stdout.decode(errors='replace').strip()[-500:]}")


def copy(where: str, target: pathlib.Path) -> None:
    """A copy while workers run: whole under its name, or not there."""
    part = target.with_name(target.name + ".part")
    if target.exists() or part.exists():
        raise Refusal(f"{target if target.exists() else part} is there already")
    if not database.is_url(where):
        _copied(where, part)
    else:
        with _faults_told():
            os.close(os.open(part, os.O_RDWR | os.O_CREAT | os.O_EXCL, MODE))
        _called(where, "pg_dump", "--format=custom", f"--file={part}")
    _named(part, target)


def _named(part: pathlib.Path, target: pathlib.Path) -> None:
    """Gives a whole file its name, on the disk."""
    with _faults_told():
        part.rename(target)
        synced_folder(str(target))


def restore(where: str, source: pathlib.Path, who: str, first: int | None) -> str:
    """A database from a copy, with numbers above all that may have been used since: in words, what was done."""
    return (
        _restored_server(where, source, who, first)
        if database.is_url(where)
        else _restored_file(pathlib.Path(where), source, who, first)
    )


def _restored_file(target: pathlib.Path, source: pathlib.Path, who: str, first: int | None) -> str:
    part = target.with_name(target.name + ".part")
    for path in (target, part, *(target.with_name(target.name + end) for end in ("-wal", "-shm"))):
        if path.exists():
            raise Refusal(f"{path} is there already: a database is restored where there is none")
    _copied(str(source), part)
    try:
        told = _advanced(str(part), who, first)
    except BaseException:
        part.unlink()
        raise
    _named(part, target)
    return told


def _restored_server(url: str, source: pathlib.Path, who: str, first: int | None) -> str:
    """Between the restore and the new numbers a table keeps workers out; it stays where something fails."""
    held = database.connected(url)
    try:
        if any(map(held.has_table, ("signs", database.RESTORING))):
            raise Refusal("the database is not empty: a database is restored where there is none")
        held.run(f"CREATE TABLE {database.RESTORING} (at DOUBLE PRECISION)")
        _called(
            url,
            "pg_restore",
            "--exit-on-error",
            "--single-transaction",
            "--no-owner",
            "--no-acl",
            f"--dbname={environment(url)['PGDATABASE']}",
            str(source),
        )
        database.migrate(held, database.migrations())
        told = advance(Store(held), who, first).told()
        held.run(f"DROP TABLE {database.RESTORING}")
        return told
    finally:
        held.close()


def _advanced(where: str, who: str, first: int | None) -> str:
    """Numbers above all that may have been used: in words, what was done."""
    held = database.opened(where, may_create=False)
    try:
        return advance(Store(held), who, first).told()
    finally:
        held.close()


def _arguments() -> argparse.ArgumentParser:
    parser = options.command_options(__doc__, "wisangub-control backup")
    parser.add_argument(
        "what",
        choices=("copy", "restore", "advance"),
        help="make a copy, restore one, or advance the numbers of a database that came back otherwise",
    )
    options.add_database(parser)
    parser.add_argument("--to", type=pathlib.Path, metavar="FILE", help="where the copy goes")
    parser.add_argument("--from", type=pathlib.Path, metavar="FILE", dest="source", help="the copy")
    parser.add_argument("--first", type=int, metavar="NUMBER", help="the number of each centre's next request")
    parser.add_argument("--who", default=options.user(), metavar="NAME", help="for the audit; else the user")
    return parser


def main() -> int:
    parser = _arguments()
    asked = parser.parse_args()
    if (asked.what == "copy") != bool(asked.to) or (asked.what == "restore") != bool(asked.source):
        parser.error("copy wants --to FILE, restore wants --from FILE")
    options.need("wisangub.room.store.backup", asked.database)
    try:
        if asked.what == "copy":
            copy(asked.database, asked.to)
        elif asked.what == "restore":
            print_line(restore(asked.database, asked.source, asked.who, asked.first))
        else:
            print_line(_advanced(asked.database, asked.who, asked.first))
    except Failed as fault:
        raise Refusal(f"the database: {fault}") from fault
    return 0


if __name__ == "__main__":
    sys.exit(status_of(main))
