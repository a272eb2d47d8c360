"""What is old goes from the database into an archive: lines before a sign's present centre, readings, ended commands
and the audit. Nothing goes that a centre, an alarm or a plan needs to go on, and nothing that is not in the file.

A line that went keeps its number: `signs.archived` is the greatest one, and a line of a number up to it is refused as
if the one before stood there (lines.py), so that a worker which was stopped meanwhile loses as it did.
"""

import hashlib
import itertools
import pathlib
from typing import Any, Callable, Iterator

from wisangub.refusal import Refusal

from . import archives, months
from .archives import AUDIT, COMMAND, LINE, READING, Entry, Head, Sum
from .audit import note
from .connection import Database, Row, Value
from .keys import key_of
from .values import CLOCK, time_of, whole

_SLICE = 5000  # rows that are read at once
_TAKEN = 2000  # that go in one transaction
_COMMAND = (
    "SELECT id, sign, who, asked_at, line, line_number, ended, outcome, step, why,"
    " (SELECT min(batch) FROM batch_commands WHERE command = commands.id) FROM commands"
    " WHERE id > ? AND outcome IS NOT NULL AND ended < ? ORDER BY id LIMIT ?"
)
TABLES = {AUDIT: "audit", COMMAND: "commands", READING: "readings", LINE: "lines"}
NAMES: dict[str, tuple[str, ...]] = {
    AUDIT: ("id", "at", "who", "what"),
    COMMAND: (
        *("id", "sign", "who", "asked_at", "line", "line_number"),
        *("ended", "outcome", "step", "why", "batch"),
    ),
    READING: ("sign", "number", "at", "heard", "minutes", "shown", "fault"),
    LINE: ("sign", "number", "line", "worker", "at"),
}
_Ask = Callable[[int], list[Row]]  # the rows of a slice after a key


def identity(database: Database) -> str:
    """Which database it is: a digest of its key, so that an archive of another one takes nothing out of it."""
    return hashlib.sha256(b"archive " + key_of(database)).hexdigest()[:16]


def _sliced(ask: _Ask, at: int, first: int) -> Iterator[Row]:
    """All rows, slice after slice; `at` is the column of the key that they are ordered by."""
    while rows := ask(first):
        yield from rows
        first = whole(rows[-1][at])


def _audit(database: Database, until: float) -> Iterator[Row]:
    sql = "SELECT id, at, who, what FROM audit WHERE id > ? AND at < ? ORDER BY id LIMIT ?"
    return _sliced(lambda after: database.run(sql, after, until, _SLICE), 0, 0)


def _kept_from(database: Database) -> dict[int, int]:
    """By signs the commands from which on all stay: the last one that ended, since an alarm may be of it, and those of
    plans that are on, since their end looks at what was asked for since."""
    kept = {
        whole(sign): whole(number)
        for sign, number in database.run(
            "SELECT sign, max(id) FROM commands WHERE outcome IS NOT NULL AND outcome NOT LIKE 'withdrawn by %'"
            " GROUP BY sign"
        )
    }
    for sign, number in database.run(
        "SELECT commands.sign, min(commands.id) FROM plan_runs JOIN batch_commands"
        " ON batch_commands.batch = plan_runs.batch JOIN commands ON commands.id = batch_commands.command"
        " WHERE plan_runs.ended IS NULL GROUP BY commands.sign"
    ):
        kept[whole(sign)] = min(whole(number), kept.get(whole(sign), whole(number)))
    return kept


def _commands(database: Database, until: float) -> Iterator[Row]:
    kept = _kept_from(database)
    rows = _sliced(lambda after: database.run(_COMMAND, after, until, _SLICE), 0, 0)
    return (row for row in rows if whole(row[1]) not in kept or whole(row[0]) < kept[whole(row[1])])


def _readings(database: Database, sign: int, until: float) -> Iterator[Row]:
    """Numbers of readings go down: those stay that say what the sign shows, and what was said since."""
    newest = database.run("SELECT COALESCE(shown_number, number) FROM latest_readings WHERE sign = ?", sign)
    if not newest:
        return iter(())
    sql = (
        "SELECT sign, number, at, heard, minutes, shown, fault FROM readings WHERE sign = ? AND number > ?"
        " AND heard < ? AND number <> COALESCE((SELECT newest FROM hearings WHERE hearings.sign = readings.sign), 0)"
        " ORDER BY number LIMIT ?"
    )
    return _sliced(lambda after: database.run(sql, sign, after, until, _SLICE), 1, whole(newest[0][0]))


def _lines(database: Database, sign: int, until: float) -> Iterator[Row]:
    """Whole centres alone: up to the beginning of the one that has the first line which is not old."""
    centre = whole(database.run("SELECT centre FROM signs WHERE id = ?", sign)[0][0])
    young = database.run(
        "SELECT min(number) FROM lines WHERE sign = ? AND number < ? AND NOT at < ?", sign, centre, until
    )
    bound = centre if young[0][0] is None else whole(young[0][0]) + 1
    head = database.run(
        "SELECT max(number) FROM lines WHERE sign = ? AND number < ? AND substr(line, 1, 8) = 'journal '", sign, bound
    )
    end = centre if young[0][0] is None else whole(head[0][0] or 0)
    sql = (
        "SELECT sign, number, line, worker, at FROM lines WHERE sign = ? AND number > ? AND number < ?"
        " ORDER BY number LIMIT ?"
    )
    return _sliced(lambda after: database.run(sql, sign, after, end, _SLICE), 1, 0)


def write(database: Database, path: pathlib.Path, seconds: float) -> Sum:
    """Writes what is older than so many seconds into a file: on the disk, and read back. Nothing goes yet."""
    now = time_of(database.run(f"SELECT {CLOCK}")[0][0])
    until, signs = now - seconds, {whole(row): str(name) for row, name in database.run("SELECT id, name FROM signs")}
    with archives.written(path, Head(identity(database), now, until, signs)) as writer:
        kinds: list[tuple[str, Iterator[Row]]] = [
            (AUDIT, _audit(database, until)),
            (COMMAND, _commands(database, until)),
        ]
        kinds += [(READING, _readings(database, sign, until)) for sign in sorted(signs)]
        kinds += [(LINE, _lines(database, sign, until)) for sign in sorted(signs)]
        for kind, rows in kinds:
            for row in rows:
                writer.put(kind, dict(zip(NAMES[kind], row)))
    return writer.sum


def take_out(database: Database, path: pathlib.Path, who: str) -> Sum:
    """Takes what an archive has, and nothing else, out of the database that it is of; what is gone already stays gone.
    The audit says so first."""
    found, head = archives.list_checked(path), archives.head_of(path)
    if head.database != identity(database):
        raise Refusal(f"{path} is an archive of another database")
    note(database, who, f"what {path.name} has is taken out: {found.told()}; SHA-256 {found.digest.hexdigest()}")
    gone = months.drop(database, path, head.older_than)
    left = (row for row in archives.rows(path) if not gone or (row["kind"], _month(row)) not in gone)
    for kind, rows in itertools.groupby(left, key=lambda row: str(row["kind"])):
        while some := list(itertools.islice(rows, _TAKEN)):
            with database.transaction():
                TAKERS[kind](database, some)
    return found


def _month(row: Entry) -> str:
    """The month of a row that stands in one."""
    return months.month_of(row["at"]) if row["kind"] in months.TABLES else ""


def _values(rows: list[Entry], *names: str) -> list[tuple[Any, ...]]:
    return [tuple(row[name] for name in names) for row in rows]


def _take_audit(database: Database, rows: list[Entry]) -> None:
    database.run_all("DELETE FROM audit WHERE id = ? AND at = ?", _values(rows, "id", "at"))


def _take_commands(database: Database, rows: list[Entry]) -> None:
    same = "id = ? AND asked_at = ? AND outcome IS NOT NULL"
    database.run_all(
        f"DELETE FROM batch_commands WHERE command IN (SELECT id FROM commands WHERE {same})",
        _values(rows, "id", "asked_at"),
    )
    database.run_all(f"DELETE FROM commands WHERE {same}", _values(rows, "id", "asked_at"))


def _take_readings(database: Database, rows: list[Entry]) -> None:
    sql = "DELETE FROM readings WHERE sign = ? AND number = ? AND at = ?"
    database.run_all(sql, _values(rows, "sign", "number", "at"))


def _take_lines(database: Database, rows: list[Entry]) -> None:
    """Their numbers are refused from the same moment on."""
    greatest: dict[int, int] = {}
    for row in rows:
        greatest[row["sign"]] = max(row["number"], greatest.get(row["sign"], 0))
    numbers: list[tuple[Value, ...]] = [(number, sign, number, number) for sign, number in sorted(greatest.items())]
    database.run_all("UPDATE signs SET archived = ? WHERE id = ? AND archived < ? AND centre > ?", numbers)
    database.run_all(
        "DELETE FROM lines WHERE sign = ? AND number = ? AND at = ? AND line = ?"
        " AND number <= (SELECT archived FROM signs WHERE id = lines.sign)",
        _values(rows, "sign", "number", "at", "line"),
    )


TAKERS: dict[str, Callable[[Database, list[Entry]], None]] = {
    AUDIT: _take_audit,
    COMMAND: _take_commands,
    READING: _take_readings,
    LINE: _take_lines,
}
