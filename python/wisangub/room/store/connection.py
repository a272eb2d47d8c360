"""A connection to a database behind a small interface: values in, rows out, transactions, the database's clock.

How SQL is written, so that SQLite and PostgreSQL both take it:

- `?` stands for a value and for nothing else; a text in quotes holds no `?` and no `{clock}`. `{clock}` is the
  database's time, in seconds since 1970. No other clock is written into a table.
- Types are TEXT, BIGINT, DOUBLE PRECISION, and `{key}` for a column `id` that numbers its rows (in migrations, where
  `CREATE {unlogged}TABLE` makes a table that may be empty after a crash). Truth is 0 or 1, octets are pairs of
  hexadecimal digits. A text holds no character of number 0.
- `INSERT .. ON CONFLICT .. DO UPDATE`, `RETURNING` and partial indexes are there in both. `LIKE` differs (case), and a
  sum of BIGINT is written `CAST(sum(a) AS BIGINT)`.
- A migration is `migrations/NNN_name.sql`: comments are lines of their own, a statement ends with `;` at a line's end,
  but within a pair of `$$`. One that begins with `{postgresql}` is run by PostgreSQL alone, one with `{fts5}` by SQLite
  where it has FTS5.
- PostgreSQL runs a transaction as "read committed", so others may write between two of its statements: what was looked
  at is looked at again by the statement that writes (`UPDATE .. WHERE .. RETURNING`), or a key decides, or
  `transaction(is_alone=True)` keeps out all others that are alone.

A connection that was lost is made anew by the statement after the one that failed; nothing is run a second time by
itself.
"""

import contextlib
import threading
from typing import Iterator, Sequence

from wisangub.refusal import Refusal

PATIENCE = 10.0  # seconds that a transaction waits for another one's end
_MOST_ROWS = 1000  # of one statement
Value = str | int | float | None
Row = tuple[Value, ...]


class Taken(Exception):
    """A key or a check refused it."""


class Failed(Exception):
    """The database did not do it, or it is not known whether it did."""


class Away(Failed):
    """The database cannot be had now, and may be later; it is not known whether it did what was under way."""


class NotYet(Refusal):
    """A database that cannot be had as a program begins, and may be later: who does not wait ends with these words."""


class Database:
    """What both have. It may be used by many threads: they take turns, a transaction is a turn."""

    clock = ""  # seconds since 1970 as an expression of SQL
    key = ""  # the type of a column that numbers its table's rows
    unlogged = ""  # before the word TABLE: it may be empty after a crash
    lock = ""  # at the end of a SELECT: its rows are this transaction's, in their order, until it ends
    skip = ""  # the same, without those that are another one's now
    has_months = False  # whether some tables stand in a partition a month (months.py)
    # the newest numbers of commands, or of lines of the audit, that have words, below one, so many at most; how a word
    # is spelled in it, one that stands alone, many, and others in their place
    with_words, with_audit_words = "", ""
    a_word, one_word, and_words, or_words = "", "", "", ""

    def __init__(self) -> None:
        self.turn = threading.RLock()
        self.is_within = self.is_spoilt = False

    def run(self, sql: str, *values: Value) -> list[Row]:
        """The rows of a statement, in which each `?` stands for a value, {clock} for the database's time; {lock}
        and {skip} as above. Outside a transaction it is one by itself: what it wrote is on the disk when it returns."""
        with self.turn, self.watched():
            return self.rows(self.own(sql), values)

    def run_all(self, sql: str, values: Sequence[Row]) -> None:
        """Runs a statement once for each row of values, within a transaction. What the database refuses of it may be
        raised by a later statement of the transaction, or by its end."""
        assert self.is_within
        if values:
            with self.turn, self.watched():
                self.put(self.own(sql), values)

    def run_rows(self, sql: str, place: str, rows: Sequence[Row], is_often: bool = False) -> None:
        """Runs a statement once for many rows: {rows} in it stands for `place`, such as `(?, {clock})`, as often as
        there are rows. One that is run many times a second is run for a power of two of them at a time: such statements
        are few, so that a server has prepared them."""
        at = 0
        while at < len(rows):
            left = min(_MOST_ROWS, len(rows) - at)
            size = 1 << left.bit_length() - 1 if is_often else left
            held = tuple(value for row in rows[at : at + size] for value in row)
            self.run_all(sql.replace("{rows}", ", ".join([place] * size)), [held])
            at += size

    def count_all(self, sql: str, values: Sequence[Row]) -> int:
        """The same: how many rows it changed in all."""
        assert self.is_within
        with self.turn, self.watched():
            return self.changed(self.own(sql), values) if values else 0

    def own(self, sql: str) -> str:
        """The statement in this database's words."""
        return sql.replace("{clock}", self.clock).replace("{lock}", self.lock).replace("{skip}", self.skip)

    @contextlib.contextmanager
    def watched(self) -> Iterator[None]:
        """A transaction in which a statement failed comes to nothing. A word of a command line may be no UTF-8: none is
        in a database."""
        try:
            yield
        except (Taken, Failed):
            self.is_spoilt = True
            raise
        except UnicodeEncodeError as fault:
            self.is_spoilt = True
            raise Refusal(f"{ascii(fault.object)} is no UTF-8") from None

    def rows(self, sql: str, values: Row) -> list[Row]:
        """The rows of a statement of this database."""
        raise NotImplementedError

    def put(self, sql: str, values: Sequence[Row]) -> None:
        """Runs a statement of this database for each of these."""
        raise NotImplementedError

    def changed(self, sql: str, values: Sequence[Row]) -> int:
        """How many rows a statement of this database changed, run for each of these."""
        raise NotImplementedError

    @contextlib.contextmanager
    def transaction(self, is_alone: bool = False, is_lasting: bool = True) -> Iterator[None]:
        """All of what is run within it happens, or none of it, where something is raised; it is on the disk when the
        block has ended, unless it need not be lasting: then a crash may undo it, whole. Of those that are alone, one
        is under way at a time."""
        with self.turn:
            assert not self.is_within, "a transaction stands within no other one"
            self.begin(is_alone, is_lasting)
            self.is_within, self.is_spoilt = True, False
            try:
                yield
                if self.is_spoilt:
                    raise Failed("a statement of this transaction failed before")
                self.commit()
            except BaseException:
                self.roll_back()
                raise
            finally:
                self.is_within = False

    def begin(self, is_alone: bool, is_lasting: bool) -> None:
        raise NotImplementedError

    def commit(self) -> None:
        raise NotImplementedError

    def roll_back(self) -> None:
        """Nothing of the transaction happens. It raises nothing: a connection that is lost has no transaction."""
        raise NotImplementedError

    def mark(self) -> str:
        """Differs from an earlier mark where something was written since, by whomever; now and then where not."""
        raise NotImplementedError

    def has_table(self, name: str) -> bool:
        """Whether there is a table of this name."""
        raise NotImplementedError

    def has_fts5(self) -> bool:
        """Whether it is SQLite with its search of texts."""
        return False

    def has_words(self, name: str = "command_words") -> bool:
        """Whether there is an index of the words of commands, or `audit_words` (words.py)."""
        raise NotImplementedError

    def close(self) -> None:
        raise NotImplementedError
