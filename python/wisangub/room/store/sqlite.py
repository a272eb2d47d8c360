"""SQLite in a file behind the interface of python/wisangub/room/store/connection.py.

A process loses its locks on a file when it closes any descriptor of that file, and not only the one that took them. So
nothing here or elsewhere opens the database's file beside SQLite: with the locks gone, the next program that ends takes
itself for the last one and removes the log from under all others.
"""

import contextlib
import os
import pathlib
import sqlite3
import threading
from typing import Iterator, Sequence

from wisangub.endpoint.files import MODE
from wisangub.refusal import Refusal, reason

from .connection import PATIENCE, Away, Database, Failed, NotYet, Row, Taken
from .ends import audit_words, command_words

_MAKING = threading.Lock()
_Mark = tuple[int, int] | None


def _make(path: str) -> None:
    """The file, where there is none; datagrams hold the writing community. One that is there is let be. Who connects
    waits until the descriptor is closed."""
    with _MAKING, contextlib.suppress(FileExistsError):
        os.close(os.open(path, os.O_RDWR | os.O_CREAT | os.O_EXCL | os.O_CLOEXEC, MODE))


def address_of(path: str, mode: str) -> str:
    """The file as SQLite's own opening takes it: never made where there is none."""
    return f"{pathlib.Path(path).absolute().as_uri()}?mode={mode}"


def _mark_of(path: str) -> _Mark:
    """Which file a name stands for."""
    try:
        found = os.stat(path)
    except OSError:
        return None
    return found.st_dev, found.st_ino


class Sqlite(Database):
    """SQLite in a file: a write-ahead log, and each transaction on the disk when it has ended."""

    clock = "((julianday('now') - 2440587.5) * 86400.0)"
    key = "INTEGER PRIMARY KEY"
    with_words = "SELECT rowid FROM command_words WHERE command_words MATCH ? AND rowid < ? ORDER BY rowid DESC LIMIT ?"
    with_audit_words = with_words.replace("command_words", "audit_words")
    a_word, one_word, and_words, or_words = '"{}" *', '"{}"', " AND ", " OR "

    def __init__(self, path: str) -> None:
        super().__init__()
        self.path = os.path.abspath(path)
        self.marks: list[_Mark] = []
        self.is_loose = False  # whether a transaction is under way that need not be on the disk
        try:
            _make(path)
            self.connection = sqlite3.connect(
                address_of(path, "rw"), uri=True, timeout=PATIENCE, isolation_level=None, check_same_thread=False
            )
            for function in (command_words, audit_words):
                self.connection.create_function(function.__name__, 1, function, deterministic=True)
            for pragma in ("journal_mode = WAL", "synchronous = FULL", "foreign_keys = ON"):
                self.run(f"PRAGMA {pragma}")
            self.run("SELECT count(*) FROM sqlite_master")  # from here on it has the log
            for name, wanted in (("journal_mode", "wal"), ("synchronous", 2), ("foreign_keys", 1)):
                if (found := self.run(f"PRAGMA {name}")) != [(wanted,)]:
                    raise Refusal(f"{path}: SQLite has {name} {found[0][0]} here, and not {wanted}")
            self.marks = self.found()
        except OSError as fault:
            raise Refusal(reason(fault)) from fault
        except Away as away:
            raise NotYet(f"{path}: {away}", 1) from away
        except (sqlite3.Error, Failed) as fault:
            raise Refusal(f"{path}: {fault}") from fault

    def found(self) -> list[_Mark]:
        """Which files the names of the database and of its log stand for."""
        return [_mark_of(self.path), _mark_of(f"{self.path}-wal")]

    def look(self) -> None:
        """Raises where somebody took a file away, or put another one in its place: what is written then is lost."""
        if self.marks and self.found() != self.marks:
            raise Failed(f"{self.path} or its log was taken away or replaced: nothing more is written into it")

    @contextlib.contextmanager
    def told(self) -> Iterator[None]:
        """The faults of SQLite as ours."""
        self.look()
        try:
            yield
        except sqlite3.IntegrityError as fault:
            raise Taken(str(fault)) from fault
        except UnicodeDecodeError as fault:
            raise Failed("it is damaged: a text in it is none") from fault
        except sqlite3.Error as fault:
            code = getattr(fault, "sqlite_errorcode", sqlite3.SQLITE_ERROR) & 0xFF
            raise (Away if code in (sqlite3.SQLITE_BUSY, sqlite3.SQLITE_LOCKED) else Failed)(str(fault)) from fault

    def rows(self, sql: str, values: Row) -> list[Row]:
        with self.told():
            return self.connection.execute(sql, values).fetchall()

    def put(self, sql: str, values: Sequence[Row]) -> None:
        self.changed(sql, values)

    def changed(self, sql: str, values: Sequence[Row]) -> int:
        with self.told():
            return self.connection.executemany(sql, values).rowcount

    def begin(self, is_alone: bool, is_lasting: bool) -> None:
        self._loosen(not is_lasting)
        self.rows("BEGIN IMMEDIATE", ())  # one writes at a time

    def _loosen(self, is_loose: bool) -> None:
        """Whether what is committed from now on may be undone by a loss of power."""
        if self.is_loose != is_loose:
            self.rows(f"PRAGMA synchronous = {'NORMAL' if is_loose else 'FULL'}", ())
            self.is_loose = is_loose

    def commit(self) -> None:
        self.rows("COMMIT", ())
        self._loosen(False)
        self.look()

    def roll_back(self) -> None:
        with contextlib.suppress(sqlite3.Error, Failed):
            self.connection.rollback()
            self._loosen(False)

    def mark(self) -> str:
        with self.turn:
            return f"{self.rows('PRAGMA data_version', ())[0][0]} {self.connection.total_changes}"

    def has_table(self, name: str) -> bool:
        return bool(self.run("SELECT 1 FROM sqlite_master WHERE type = 'table' AND name = ?", name))

    def has_fts5(self) -> bool:
        """Whether this SQLite can search texts."""
        return bool(self.run("SELECT 1 FROM pragma_module_list WHERE name = 'fts5'"))

    def has_words(self, name: str = "command_words") -> bool:
        return self.has_table(name)

    def close(self) -> None:
        self.connection.close()
