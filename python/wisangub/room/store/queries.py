"""What the pages ask the database for: signs and commands. history.py has what was before."""

import functools
import json
from dataclasses import dataclass, replace
from typing import Sequence

from .database import Database, Row, Value
from .messages import HEARD, OF_ROWS
from .values import SLACK, places, text_or_none, time_of, time_or_none, whole, whole_or_none

_NEAR = 1000  # rows
_FEW = 20  # signs
_MOST_PRIORITY, _MOST_CHECKSUM = 255, 65535
_SIGNS = """
SELECT signs.id, signs.name, signs.place, signs.address, signs.poll,
       last.at, last.fault, last.shown,
       CASE WHEN hearings.newest = last.shown_number THEN hearings.minutes ELSE last.minutes END, last.shown_at,
       CASE WHEN hearings.newest = last.shown_number THEN COALESCE(hearings.heard, last.heard) ELSE last.heard END,
       signs.still
FROM signs
LEFT JOIN hearings ON hearings.sign = signs.id
LEFT JOIN latest_readings AS last ON last.sign = signs.id
"""
COMMANDS = (
    "SELECT commands.id, commands.sign, signs.name, commands.who, commands.asked_at, commands.line,"
    " commands.line_number, commands.ended, commands.outcome, commands.step, commands.why, signs.address"
    " FROM commands JOIN signs ON signs.id = commands.sign"
)


def _number_of(held: dict[str, object], word: str) -> int | None:
    """A number that a sign said; None for whatever else it said."""
    found = held.get(word)
    return found if isinstance(found, int) else None


def _asked_with(held: dict[str, object], word: str, most: int) -> int | None:
    """A number that a sign said, with which it may be asked for something; None for one that no request takes."""
    found = _number_of(held, word)
    return found if found is not None and 0 <= found <= most else None


def _octets_of(held: dict[str, object], word: str) -> bytes:
    """Octets that a sign said, which are kept as digits; none for whatever else it said."""
    found = held.get(word)
    try:
        return bytes.fromhex(found) if isinstance(found, str) else b""
    except ValueError:
        return b""


@dataclass(frozen=True)
class Shown:
    """What a sign said that it shows."""

    mode: int | None
    source: bytes
    requester: bytes
    text: bytes
    owner: bytes
    beacon: int | None
    pixel: int | None
    priority: int | None

    @staticmethod
    @functools.lru_cache(8192)
    def of(words: str) -> "Shown":
        held = json.loads(words)
        return Shown(
            _number_of(held, "mode"),
            _octets_of(held, "source"),
            _octets_of(held, "requester"),
            _octets_of(held, "text"),
            _octets_of(held, "owner"),
            _number_of(held, "beacon"),
            _number_of(held, "pixel"),
            _asked_with(held, "priority", _MOST_PRIORITY),
        )


@dataclass(frozen=True)
class SignView:
    """A sign, what it said last and when: `fault` is why it says nothing now, since `fault_at`; `still` why it is
    neither driven nor read."""

    id: int
    name: str
    place: str
    address: str
    poll: float
    fault: str | None = None
    fault_at: float | None = None
    shown: Shown | None = None
    minutes: int | None = None
    since: float | None = None
    heard: float | None = None
    still: str | None = None

    def is_stale(self, now: float) -> bool:
        """Whether what it said last is older than three readings would be, or was heard at a time to come: then the
        clock jumped, and how old it is is not known."""
        return self.heard is None or now - self.heard > max(15.0, 3 * self.poll + 5) or self.heard > now + SLACK


def _sign_view(row: Row) -> SignView:
    fault = text_or_none(row[6])
    return SignView(
        whole(row[0]),
        str(row[1]),
        str(row[2]),
        str(row[3]),
        time_of(row[4]),
        fault,
        time_or_none(row[5]) if fault is not None else None,
        None if row[7] is None else Shown.of(str(row[7])),
        whole_or_none(row[8]),
        time_or_none(row[9]),
        time_or_none(row[10]),
        text_or_none(row[11]),
    )


def signs(database: Database) -> list[SignView]:
    """All signs in the order of their numbers."""
    return [_sign_view(row) for row in database.run(f"{_SIGNS} ORDER BY signs.id")]


def signs_of(database: Database, numbers: Sequence[int]) -> list[SignView]:
    """Those of the signs that are there."""
    if not numbers:
        return []
    return [_sign_view(row) for row in database.run(f"{_SIGNS} WHERE signs.id IN ({places(numbers)})", *numbers)]


def sign(database: Database, number: int) -> SignView | None:
    return next(iter(signs_of(database, [number])), None)


def newest_readings(database: Database) -> dict[int, int]:
    """The signs that were ever read, each with the number of the newest row of its readings."""
    rows = database.run("SELECT sign, number FROM latest_readings")
    return {whole(sign): whole(number) for sign, number in rows}


@dataclass(frozen=True)
class CommandView:
    """A command: `number` is that of its line once it was begun, `step` where it is, `how` how it ended, and `why` what
    the sign said of that."""

    id: int
    sign: int
    sign_name: str
    who: str
    at: float
    line: str
    number: int | None
    ended: float | None
    how: str | None
    step: int | None = None
    why: str | None = None
    address: str = ""


def command_view(row: Row) -> CommandView:
    return CommandView(
        whole(row[0]),
        whole(row[1]),
        str(row[2]),
        str(row[3]),
        time_of(row[4]),
        str(row[5]),
        whole_or_none(row[6]),
        time_or_none(row[7]),
        text_or_none(row[8]),
        whole_or_none(row[9]),
        text_or_none(row[10]),
        str(row[11]),
    )


def where_of(*parts: tuple[str, Value]) -> tuple[str, list[Value]]:
    """The conditions whose values are given, and these."""
    given = [(part, value) for part, value in parts if value is not None]
    return (" WHERE " + " AND ".join(part for part, _ in given) if given else ""), [value for _, value in given]


@dataclass(frozen=True)
class Wanted:
    """Which commands are looked for, the newest first; `before` is a number that they are below, `signs` are those that
    they are of, where not of all; `since` and `until` are when they were asked for; `numbers` are those looked at."""

    sign: int | None = None
    who: str = ""
    outcome: str = ""
    before: int | None = None
    most: int = 50
    signs: frozenset[int] | None = None
    since: float | None = None
    until: float | None = None
    first: int | None = None
    numbers: Sequence[int] | None = None

    def where(self) -> tuple[str, list[Value]]:
        where, values = where_of(
            ("commands.sign = ?", self.sign),
            ("commands.who = ?", self.who or None),
            ("commands.id < ?", self.before),
            ("commands.asked_at + 0 >= ?", self.since),  # numbers bound it: see `within`
            ("commands.asked_at + 0 < ?", self.until),
            ("commands.id >= ?", self.first),
        )
        parts = [where.removeprefix(" WHERE ")] if where else []
        if self.signs is not None:
            # `+ 0`, so that it is by number or by what is open, of which there are few: see `_of_few`
            parts.append(f"commands.sign + 0 IN ({places(self.signs)})" if self.signs else "1 = 0")
            values.extend(sorted(self.signs))
        if self.numbers is not None:
            parts.append(f"commands.id IN ({places(self.numbers)})" if self.numbers else "1 = 0")
            values.extend(self.numbers)
        outcome = {
            "accepted": "commands.outcome = 'accepted'",
            "open": "commands.outcome IS NULL",
            "failed": "commands.outcome <> 'accepted'",
        }.get(self.outcome)
        parts += [outcome] if outcome else []
        return (" WHERE " + " AND ".join(parts) if parts else ""), values


def within(
    database: Database, table: str, column: str, since: float | None, until: float | None
) -> tuple[int | None, int | None]:
    """The least number, and one above the greatest, of rows whose times lie between two, since numbers grow with times;
    some rows more are looked at at both ends, where a clock jumped back."""
    first = last = None
    if since is not None:
        sql = f"SELECT min(id) FROM (SELECT id FROM {table} WHERE {column} >= ? ORDER BY {column} LIMIT ?) AS near"
        first = whole_or_none(database.run(sql, since, _NEAR)[0][0])
        first = 2**62 if first is None else first
    if until is not None:
        sql = f"SELECT max(id) FROM (SELECT id FROM {table} WHERE {column} < ? ORDER BY {column} DESC LIMIT ?) AS near"
        last = (whole_or_none(database.run(sql, until, _NEAR)[0][0]) or 0) + 1
    return first, last


def least(*numbers: int | None) -> int | None:
    """The least of those that are there."""
    return min((number for number in numbers if number is not None), default=None)


def commands(database: Database, wanted: Wanted) -> list[CommandView]:
    first, last = within(database, "commands", "asked_at", wanted.since, wanted.until)
    wanted = replace(wanted, first=first, before=least(wanted.before, last))
    sql, values = asked_for(wanted)
    return list(map(command_view, database.run(sql, *values)))


def asked_for(wanted: Wanted) -> tuple[str, list[Value]]:
    """The statement that has these commands, and its values."""
    if wanted.signs is not None and wanted.sign is not None:  # it is seen, or nothing is
        wanted = replace(wanted, signs=None if wanted.sign in wanted.signs else frozenset())
    if wanted.signs and len(wanted.signs) <= _FEW and wanted.outcome != "open" and wanted.numbers is None:
        return _of_few(wanted, sorted(wanted.signs))
    where, values = wanted.where()
    return f"{COMMANDS}{where} ORDER BY commands.id DESC LIMIT ?", [*values, wanted.most]


def _of_few(wanted: Wanted, signs: Sequence[int]) -> tuple[str, list[Value]]:
    """Those of a few signs: of each the newest by the sign's own index, and of these the newest. By number it were a
    look at all that was asked for of others."""
    parts, values = [], list[Value]()
    for sign_id in signs:
        where, held = replace(wanted, sign=sign_id, signs=None).where()
        parts.append(f"SELECT id FROM (SELECT id FROM commands{where} ORDER BY commands.id DESC LIMIT ?) AS of_one")
        values += [*held, wanted.most]
    of_all = f"SELECT id FROM ({' UNION ALL '.join(parts)}) AS of_all ORDER BY id DESC LIMIT ?"
    return f"{COMMANDS} WHERE commands.id IN ({of_all}) ORDER BY commands.id DESC", [*values, wanted.most]


def command(database: Database, number: int) -> CommandView | None:
    rows = database.run(f"{COMMANDS} WHERE commands.id = ?", number)
    return command_view(rows[0]) if rows else None


def under_way(database: Database) -> list[CommandView]:
    """Commands that have not ended."""
    return list(map(command_view, database.run(f"{COMMANDS} WHERE commands.outcome IS NULL ORDER BY commands.id")))


def now(database: Database) -> float:
    """The database's time."""
    return time_of(database.run("SELECT {clock}")[0][0])


def row_text(held: str) -> bytes:
    """The text of a row, of what is kept of it."""
    return _octets_of(json.loads(held), "text")


@dataclass(frozen=True)
class RowView:
    """A row of a sign's message table, as it was last read."""

    memory: int
    number: int
    status: int
    heard: float
    text: bytes
    owner: bytes
    checksum: int
    priority: int


@dataclass(frozen=True)
class TableView:
    """The rows that are in use; when the table was last asked for, and whether it is about to be read."""

    rows: list[RowView]
    asked: float
    is_wanted: bool


def table(database: Database, number: int) -> TableView:
    rows = []
    for memory, at, status, kept, heard in database.run(
        f"SELECT messages.memory, messages.number, status, held, {HEARD} {OF_ROWS} WHERE messages.sign = ?"
        " AND status <> 1 AND held IS NOT NULL ORDER BY messages.memory, messages.number",
        number,
    ):
        cells = json.loads(str(kept))
        rows.append(
            RowView(
                whole(memory),
                whole(at),
                whole(status),
                time_of(heard),
                _octets_of(cells, "text"),
                _octets_of(cells, "owner"),
                _asked_with(cells, "checksum", _MOST_CHECKSUM) or 0,
                _asked_with(cells, "priority", _MOST_PRIORITY) or 0,
            )
        )
    asked, wanted = database.run("SELECT table_read_at, table_wanted FROM signs WHERE id = ?", number)[0]
    return TableView(rows, time_of(asked), bool(wanted))
