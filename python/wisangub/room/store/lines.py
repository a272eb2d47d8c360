"""The tables of lines and of the ledger: the journal of each sign, and the activations that came of it.

docs/CONTROL.md, "How a sign's lines are kept", says why the order of what is done here is as it is.
"""

from dataclasses import dataclass, field
from typing import NamedTuple, Sequence

from wisangub.endpoint.records import Head

from .connection import Database, Row, Taken, Value
from .values import CLOCK, places, whole

# The number of a line that is in an archive is taken, though the line stands here no more: the same once more is
# refused by the key. It comes after the line's own statement, and so sees what was taken out as that one waited.
_NOT_ARCHIVED = (
    "WITH put (number, sign) AS (VALUES {rows}) INSERT INTO lines (sign, number, line, worker, at)"
    " SELECT id, put.number, '', '', 0 FROM put JOIN signs ON signs.id = put.sign WHERE signs.archived >= put.number"
)

# of signs in their order, in which all take these rows, so that none waits for one that waits for it
_WANTED = (
    "WITH come (sign) AS (VALUES {rows}), held AS MATERIALIZED"
    " (SELECT id FROM signs WHERE id IN (SELECT sign FROM come) ORDER BY id {lock})"
    " UPDATE signs SET table_wanted = 1 WHERE id IN (SELECT id FROM held)"
)
_READ_SOON = (
    "WITH come (sign) AS (VALUES {rows}), held AS MATERIALIZED"
    " (SELECT sign FROM hearings WHERE sign IN (SELECT sign FROM come) ORDER BY sign {lock})"
    " UPDATE hearings SET read_at = 0 WHERE sign IN (SELECT sign FROM held)"
)


@dataclass(frozen=True)
class Line:
    """A line of a sign under its number; `command` is the one that begins with it, `is_first` says that a centre
    does."""

    sign: int
    number: int
    text: bytes
    command: int | None = None
    is_first: bool = False


class Journal(NamedTuple):
    """The lines of a sign's last centre, first the one that says which centre it is; that one's number (`begun_at`);
    and the least number that a centre of this sign may begin with."""

    begun_at: int
    least: int
    lines: list[bytes]


@dataclass
class News:
    """What came of a line: the ledger's lines that are new, of the command `of`, and how the sign's command ended, in
    words."""

    sign: int
    ledger: list[str] = field(default_factory=list)
    of: int | None = None
    command: int | None = None
    how: str | None = None

    @property
    def is_some(self) -> bool:
        return bool(self.ledger) or self.how is not None


def above(head: Head, count: int) -> int:
    """A number above all that a centre used: each of its lines sent at most one request of a new number."""
    assert head.first is not None
    return head.first + count


class Lines:
    """Journals and ledgers of all signs."""

    def __init__(self, database: Database) -> None:
        self.database = database
        self._run = database.run

    def of(self, sign: int) -> Journal:
        """The lines of the sign's last centre."""
        return self.of_all([sign])[sign]

    def of_all(self, signs: Sequence[int]) -> dict[int, Journal]:
        """Those of many signs."""
        if not signs:
            return {}
        rows = self._run(
            f"SELECT lines.sign, lines.number, lines.line FROM signs JOIN lines ON lines.sign = signs.id"
            f" AND lines.number >= signs.centre WHERE signs.id IN ({places(signs)}) ORDER BY lines.sign, lines.number",
            *signs,
        )
        held: dict[int, list[tuple[int, bytes]]] = {}
        for sign, number, line in rows:
            held.setdefault(whole(sign), []).append((whole(number), str(line).encode()))
        least = self._run(f"SELECT id, first_number FROM signs WHERE id IN ({places(signs)})", *signs)
        return {
            whole(sign): Journal(of[0][0] if (of := held.get(whole(sign), [])) else 1, whole(first), [x for _, x in of])
            for sign, first in least
        }

    def used(self, sign: int) -> int:
        """A number above all that the sign's centres are known to have used."""
        _, least, lines = self.of(sign)
        head = Head.of(lines[0]) if lines else None
        return least if head is None else max(least, above(head, len(lines) - 1))

    def insert(self, lines: Sequence[Line], worker: str, steps: Sequence[tuple[int, int]] = ()) -> set[int]:
        """Lines of several signs, and with each the beginning of its command or of a centre: the signs of those that
        are in the database. One whose number is taken is another worker's. Steps of commands go with them."""
        try:
            self._put(lines, worker, steps)
            return {line.sign for line in lines}
        except Taken:
            if len(lines) == 1:
                return set()
            return set().union(*(self.insert([line], worker) for line in lines))

    def _put(self, lines: Sequence[Line], worker: str, steps: Sequence[tuple[int, int]] = ()) -> None:
        """All of them or none; raises Taken where a number is there, or where a command no longer waits."""
        lines = sorted(lines, key=lambda line: line.sign)
        begun: list[tuple[Value, ...]] = [(line.number, line.command) for line in lines if line.command is not None]
        put_rows = self._put_rows
        with self.database.transaction():
            put_rows(
                "WITH come (step, id) AS (VALUES {rows}) UPDATE commands SET step = come.step FROM come"
                " WHERE commands.id = come.id AND commands.outcome IS NULL",
                "(?, ?)",
                list(steps),
            )
            changed = self.database.count_all(
                "UPDATE commands SET line_number = ? WHERE id = ? AND line_number IS NULL AND outcome IS NULL", begun
            )
            if changed != len(begun):
                raise Taken("a command waits no longer")
            put_rows(
                "INSERT INTO lines (sign, number, line, worker, at) VALUES {rows}",
                f"(?, ?, ?, ?, {CLOCK})",
                [(line.sign, line.number, line.text.decode(), worker) for line in lines],
            )
            put_rows(_NOT_ARCHIVED, "(?, ?)", [(line.number, line.sign) for line in lines])
            self.database.run_all(
                "UPDATE signs SET centre = ? WHERE id = ?",
                [(line.number, line.sign) for line in lines if line.is_first],
            )

    def _put_rows(self, sql: str, place: str, rows: Sequence[Row]) -> None:
        """Many rows by a statement, as every worker does it many times a second."""
        self.database.run_rows(sql, place, rows, is_often=True)

    def replace(self, line: Line, worker: str, how: str) -> bool:
        """A centre begins in the place of one that is no more: what was under way with that one is over, so, and what
        waited in its ledger is unknown. False where the line's number is taken."""
        try:
            with self.database.transaction():
                self._run(
                    f"INSERT INTO lines (sign, number, line, worker, at) VALUES (?, ?, ?, ?, {CLOCK})",
                    line.sign,
                    line.number,
                    line.text.decode(),
                    worker,
                )
                self._put_rows(_NOT_ARCHIVED, "(?, ?)", [(line.number, line.sign)])
                self._run("UPDATE signs SET centre = ? WHERE id = ?", line.number, line.sign)
                self._run(
                    f"UPDATE commands SET outcome = ?, ended = {CLOCK}"
                    " WHERE sign = ? AND line_number IS NOT NULL AND outcome IS NULL",
                    how,
                    line.sign,
                )
                self._run(
                    f"UPDATE ledger SET outcome = 'unknown', at = {CLOCK} WHERE sign = ? AND outcome = 'waiting'",
                    line.sign,
                )
            return True
        except Taken:
            return False

    def keep(self, news: Sequence[News]) -> None:
        """What came of lines, in one transaction: before anything of it goes out. A sign whose command ended is read
        soon."""
        news = sorted(news, key=lambda one: one.sign)
        ended = [one for one in news if one.how is not None]
        entries = {
            (one.sign, entry[0]): (one.sign, *entry, one.of) for one in news for entry in map(_entry, one.ledger)
        }
        put_rows, signs = self._put_rows, [(one.sign,) for one in ended]
        with self.database.transaction():
            put_rows(
                "INSERT INTO ledger (sign, number, code, outcome, command, at) VALUES {rows} ON CONFLICT (sign, number)"
                " DO UPDATE SET outcome = excluded.outcome, at = excluded.at"
                " WHERE ledger.outcome = 'waiting' AND excluded.outcome <> 'waiting'",
                f"(?, ?, ?, ?, ?, {CLOCK})",
                list(entries.values()),
            )
            put_rows(
                "WITH come (how, id) AS (VALUES {rows})"
                f" UPDATE commands SET outcome = come.how, ended = {CLOCK} FROM come"
                " WHERE commands.id = come.id AND commands.outcome IS NULL",
                "(?, ?)",
                [(one.how, one.command) for one in ended],
            )
            put_rows(_WANTED, "(?)", signs)
            put_rows(_READ_SOON, "(?)", signs)

    def ledger(self, sign: int) -> list[str]:
        """The rows, as lines of a status."""
        rows = self._run("SELECT number, code, outcome FROM ledger WHERE sign = ? ORDER BY number", sign)
        return [f"ledger {number} {code} {outcome}" for number, code, outcome in rows]


def _entry(line: str) -> tuple[int, str, str]:
    """The number, code and outcome of a ledger's line."""
    _, number, code, outcome = line.split(" ", 3)
    return int(number), code, outcome
