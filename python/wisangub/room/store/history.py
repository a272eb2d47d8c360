"""What the pages ask the database for: what was asked together, the ledger, earlier readings, the audit."""

import re
from dataclasses import dataclass, field, replace
from typing import Callable, Sequence

from .database import Database, Value
from .queries import COMMANDS, CommandView, Shown, command_view, least, where_of, within
from .values import places, text_or_none, texts, time_of, whole

Line = tuple[int, str, float]  # of a centre: its number, what it says, and when it was handed over
Entry = tuple[int, float, str, str]  # of the audit: number, time, who, what
_OF_PLAN = re.compile("plan (.*) (begins|ends)")


@dataclass(frozen=True)
class Batch:
    """What was asked with one confirmation."""

    id: int
    who: str
    at: float
    what: str
    commands: list[CommandView] = field(default_factory=list)


def batch(database: Database, number: int) -> Batch | None:
    rows = database.run("SELECT id, who, at, what FROM batches WHERE id = ?", number)
    if not rows:
        return None
    of = database.run(
        f"{COMMANDS} JOIN batch_commands ON batch_commands.command = commands.id"
        " WHERE batch_commands.batch = ? ORDER BY commands.id",
        number,
    )
    return Batch(whole(rows[0][0]), str(rows[0][1]), time_of(rows[0][2]), str(rows[0][3]), list(map(command_view, of)))


def batch_seen(database: Database, number: int, may_see: Callable[[int], bool]) -> Batch | None:
    """What was asked of the signs that may be seen; None where none of them may be. A plan is named to nobody who may
    not see all its signs."""
    found = batch(database, number)
    seen = [one for one in found.commands if may_see(one.sign)] if found else []
    if found is None or not seen:
        return None
    plan = _OF_PLAN.fullmatch(found.what)
    if plan is None:
        return replace(found, commands=seen)
    rows = database.run("SELECT sign FROM plan_texts JOIN plans ON plans.id = plan WHERE name = ?", plan[1])
    is_whole = len(seen) == len(found.commands) and all(may_see(whole(sign)) for (sign,) in rows)
    return replace(found, commands=seen, what=found.what if is_whole else f"a plan {plan[2]}")


def people(database: Database) -> list[str]:
    """Those who ever asked for something."""
    return each_one(database, "commands")


def each_one(database: Database, table: str) -> list[str]:
    """Who stands in a table: one after the other by the index, since each may stand there often."""
    rows = database.run(
        f"WITH RECURSIVE each_one (who) AS (SELECT min(who) FROM {table} UNION ALL"
        f" SELECT (SELECT min(who) FROM {table} WHERE {table}.who > each_one.who) FROM each_one"
        " WHERE each_one.who IS NOT NULL) SELECT who FROM each_one WHERE who IS NOT NULL"
    )
    return texts(rows)


@dataclass(frozen=True)
class Activation:
    """An entry of the ledger: the request's number, the code, the outcome, and when it was noted; who asked for it and
    with which line, as far as that is known."""

    number: int
    code: str
    outcome: str
    at: float
    who: str | None = None
    line: str | None = None


def ledger(database: Database, number: int, most: int = 200, before: int | None = None) -> list[Activation]:
    """The newest entries, of those before one of this number."""
    rows = database.run(
        "SELECT ledger.number, ledger.code, ledger.outcome, ledger.at, commands.who, commands.line FROM ledger"
        " LEFT JOIN commands ON commands.id = ledger.command WHERE ledger.sign = ? AND ledger.number < ?"
        " ORDER BY ledger.number DESC LIMIT ?",
        number,
        2**62 if before is None else before,
        most,
    )
    return [
        Activation(whole(row[0]), str(row[1]), str(row[2]), time_of(row[3]), text_or_none(row[4]), text_or_none(row[5]))
        for row in rows
    ]


@dataclass(frozen=True)
class ReadingView:
    """What a sign said it showed, or why it said nothing, from when until when; of later ones the number is less."""

    number: int
    at: float
    heard: float
    shown: Shown | None
    fault: str | None


def readings(database: Database, number: int, most: int = 100, after: int | None = None) -> list[ReadingView]:
    """The newest, of those before one of this number."""
    rows = database.run(
        "SELECT readings.number, readings.at, CASE WHEN hearings.newest = readings.number"
        " THEN COALESCE(hearings.heard, readings.heard) ELSE readings.heard END, shown, fault"
        " FROM readings LEFT JOIN hearings ON hearings.sign = readings.sign"
        " WHERE readings.sign = ? AND readings.number > ? ORDER BY readings.number LIMIT ?",
        number,
        -(2**62) if after is None else after,
        most,
    )
    return [
        ReadingView(
            whole(row[0]),
            time_of(row[1]),
            time_of(row[2]),
            None if row[3] is None else Shown.of(str(row[3])),
            text_or_none(row[4]),
        )
        for row in rows
    ]


@dataclass(frozen=True)
class AuditWanted:
    """Which lines of the audit are looked for, the newest first: of whom, from when until when, below which number;
    `numbers` are those looked at."""

    who: str = ""
    since: float | None = None
    until: float | None = None
    before: int | None = None
    most: int = 100
    first: int | None = None
    numbers: Sequence[int] | None = None

    def where(self) -> tuple[str, list[Value]]:
        where, values = where_of(
            ("who = ?", self.who or None),
            ("at + 0 >= ?", self.since),
            ("at + 0 < ?", self.until),
            ("id < ?", self.before),
            ("id >= ?", self.first),
        )
        if self.numbers is None:
            return where, values
        among = f"id IN ({places(self.numbers)})" if self.numbers else "1 = 0"
        return f"{where} AND {among}" if where else f" WHERE {among}", [*values, *self.numbers]


def audited(database: Database, wanted: AuditWanted) -> list[Entry]:
    """Lines of the audit."""
    first, last = within(database, "audit", "at", wanted.since, wanted.until)
    wanted = replace(wanted, first=first, before=least(wanted.before, last))
    where, values = wanted.where()
    rows = database.run(f"SELECT id, at, who, what FROM audit{where} ORDER BY id DESC LIMIT ?", *values, wanted.most)
    return [(whole(row[0]), time_of(row[1]), str(row[2]), str(row[3])) for row in rows]


def audit(database: Database, before: int | None, most: int = 100) -> list[Entry]:
    """The newest lines."""
    return audited(database, AuditWanted(before=before, most=most))


def audit_people(database: Database) -> list[str]:
    """Those of whom the audit has a line."""
    return each_one(database, "audit")


def centre_lines(database: Database, number: int, before: int | None) -> list[Line]:
    """The lines of the centre that had the line before a number, up to it; of the sign's last centre for none."""
    below = before if before is not None else 2**62
    begun = database.run(
        "SELECT MAX(number) FROM lines WHERE sign = ? AND number < ? AND substr(line, 1, 8) = 'journal '", number, below
    )
    rows = database.run(
        "SELECT number, line, at FROM lines WHERE sign = ? AND number >= ? AND number < ? ORDER BY number",
        number,
        begun[0][0] if begun and begun[0][0] is not None else 1,
        below,
    )
    return [(whole(row[0]), str(row[1]), time_of(row[2])) for row in rows]
