"""Months: on PostgreSQL the audit and the readings stand in a table a month, each a partition (037_months.sql).

Coming months are made by who opens the database and by workers; a row whose month is not there stands in a table of
its own, and in its month once that is made. An archive drops the months of which it has all rows but those that stay,
which are put where rows without a month stand. That it has them is seen by the SHA-256 of the rows in their order, once
as others write and once as nobody does.
"""

import datetime
import hashlib
import pathlib
import re
import struct
from collections import defaultdict
from typing import Any, Callable

from wisangub.room.output import LOG

from . import archives
from .archives import AUDIT, READING, Entry
from .connection import Away, Database, Failed, Taken
from .values import texts, whole

EVERY = 3600.0  # seconds from one look for coming months to the next
_AHEAD = 4  # months that there are, with the present one
_MOST = 20_000_000  # rows whose digests one text of PostgreSQL holds
_NOW = "CAST(now() AT TIME ZONE 'UTC' AS TIMESTAMP)"
_LACKING = (
    "SELECT count(*) FROM generate_series(0, CAST(? AS BIGINT) - 1) AS ahead,"
    " unnest(ARRAY['audit', 'readings']) AS name"
    f" WHERE to_regclass(name || to_char(date_trunc('month', {_NOW}) + ahead * INTERVAL '1 month', '_YYYY_MM')) IS NULL"
)
_NAME = re.compile(r"(?:audit|readings)_(\d{4})_(\d{2})")
# the rows of a month with what says which of them stay, in one look at each: all of a sign of which none is known
_ROWS = {
    AUDIT: "{0} AS one",
    READING: (
        "{0} AS one LEFT JOIN hearings ON hearings.sign = one.sign"
        " LEFT JOIN latest_readings AS latest ON latest.sign = one.sign"
    ),
}
_STAYS = {
    AUDIT: "one.at >= ?",
    READING: (
        "(one.heard >= ? OR one.number = COALESCE(hearings.newest, 0)"
        " OR one.number <= COALESCE(latest.shown_number, latest.number, 0))"
    ),
}
TABLES = {AUDIT: "audit", READING: "readings"}
_ORDER = {AUDIT: "one.id", READING: "one.sign, one.number"}
# the columns in their order, as whole numbers (i), times (d) and texts (t), which may be missing where it says so (?)
_COLUMNS = {
    AUDIT: (("id", "i"), ("at", "d"), ("who", "t"), ("what", "t")),
    READING: (
        *(("sign", "i"), ("number", "i"), ("at", "d"), ("heard", "d")),
        *(("minutes", "i?"), ("shown", "t?"), ("fault", "t?")),
    ),
}
_SPELLED = {"i": "int8send({0})", "d": "float8send({0})", "t": "convert_to({0}, 'UTF8') || '\\x00'::bytea"}
_OCTETS: dict[str, Callable[[Any], bytes]] = {
    "i": lambda value: struct.pack(">q", value),
    "d": lambda value: struct.pack(">d", value),
    "t": lambda value: str(value).encode() + b"\0",
}


def make(database: Database) -> None:
    """The coming months, where they are not there. Nothing hangs on it: where it fails it is said, and tried again."""
    if not database.has_months:
        return
    try:
        if whole(database.run(_LACKING, _AHEAD)[0][0]):
            with database.transaction(is_alone=True):
                database.run(f"SELECT make_months({_NOW}, ?)", _AHEAD)
    except Away:
        raise
    except (Failed, Taken) as fault:
        LOG.warning(f"the coming months of the audit and of the readings are not made: {fault}")


def month_of(at: float) -> str:
    """The end of the name of the table that a time's rows stand in, where there is one."""
    try:
        return datetime.datetime.fromtimestamp(at, datetime.timezone.utc).strftime("_%Y_%m")
    except (ValueError, OverflowError, OSError):
        return ""  # far from any month


def _end_of(name: str) -> float:
    """When a month's table ends."""
    found = _NAME.fullmatch(name)
    assert found is not None
    months = 12 * int(found[1]) + int(found[2])  # the number of the next one, from 0 on
    return datetime.datetime(months // 12, months % 12 + 1, 1, tzinfo=datetime.timezone.utc).timestamp()


def _months(database: Database, table: str, until: float) -> list[str]:
    """The tables of months that ended before a time."""
    rows = database.run(
        "SELECT relname FROM pg_inherits JOIN pg_class ON pg_class.oid = inhrelid"
        " WHERE inhparent = CAST(? AS regclass) ORDER BY relname",
        table,
    )
    return [name for name in texts(rows) if _NAME.fullmatch(name) and _end_of(name) <= until]


def _row_octets(kind: str, row: Entry) -> bytes:
    """A row as PostgreSQL spells it for its digest."""
    found = b""
    for name, form in _COLUMNS[kind]:
        value = row[name]
        if form.endswith("?"):
            found += b"\0" if value is None else b"\1"
        if value is not None:
            found += _OCTETS[form[0]](value)
    return found


def _row_spelled(kind: str) -> str:
    """The same of PostgreSQL."""
    parts = []
    for name, form in _COLUMNS[kind]:
        spelled = _SPELLED[form[0]].format(f"one.{name}")
        parts.append(f"COALESCE('\\x01'::bytea || {spelled}, '\\x00'::bytea)" if form.endswith("?") else spelled)
    return " || ".join(parts)


def _digests(path: pathlib.Path, wanted: dict[str, set[str]]) -> dict[tuple[str, str], str]:
    """By kind and month, of the months that are wanted, the digest of an archive's rows."""
    found: defaultdict[tuple[str, str], Any] = defaultdict(hashlib.sha256)
    for row in archives.rows(path, (AUDIT, READING)):
        kind, month = row["kind"], month_of(row["at"])
        if month in wanted[kind]:
            found[kind, month].update(hashlib.sha256(_row_octets(kind, row)).digest())
    return {key: digest.hexdigest() for key, digest in found.items()}


def _is_had(database: Database, kind: str, name: str, until: float, digest: str) -> bool:
    """Whether the rows of a month's table but for those that stay are those of which this is the digest."""
    goes = f"{_ROWS[kind].format(name)} WHERE NOT {_STAYS[kind]}"
    count = whole(database.run(f"SELECT count(*) FROM {goes}", until)[0][0])
    if count > _MOST:
        return False
    rows = database.run(
        f"SELECT encode(sha256(COALESCE(string_agg(sha256({_row_spelled(kind)}), ''::bytea"
        f" ORDER BY {_ORDER[kind]}), ''::bytea)), 'hex')"
        f" FROM {goes}",
        until,
    )
    return rows == [(digest,)]


class _Changed(Exception):
    """Somebody wrote into a month as it was about to be dropped."""


def _drop(database: Database, kind: str, name: str, until: float, digest: str) -> None:
    """Takes a month's table away, with all of its rows but those that stay."""
    table, values = TABLES[kind], (until,)
    with database.transaction(is_alone=True):
        database.run(f"ALTER TABLE {table} DETACH PARTITION {name}")  # nobody else writes or reads until it ends
        if not _is_had(database, kind, name, until, digest):
            raise _Changed
        columns, of_one = (", ".join(f"{of}{column}" for column, _ in _COLUMNS[kind]) for of in ("", "one."))
        stay = f"SELECT {of_one} FROM {_ROWS[kind].format(name)} WHERE {_STAYS[kind]}"
        database.run(f"INSERT INTO {table} ({columns}) {stay}", *values)
        database.run(f"DROP TABLE {name}")


def drop(database: Database, path: pathlib.Path, until: float) -> set[tuple[str, str]]:
    """Drops the months that ended before a time and whose rows an archive has: their kinds and the ends of their
    names."""
    if not database.has_months:
        return set()
    names = {kind: _months(database, table, until) for kind, table in TABLES.items()}
    digests = _digests(path, {kind: {name.removeprefix(TABLES[kind]) for name in of} for kind, of in names.items()})
    gone: set[tuple[str, str]] = set()
    for kind, of in names.items():
        for name in of:
            key = kind, name.removeprefix(TABLES[kind])
            digest = digests.get(key, hashlib.sha256().hexdigest())
            try:
                if _is_had(database, kind, name, until, digest):
                    _drop(database, kind, name, until, digest)
                    gone.add(key)
            except (_Changed, Failed) as why:
                LOG.info(f"{name} stays, and its archived rows go one by one: {str(why) or 'it was written into'}")
    return gone
