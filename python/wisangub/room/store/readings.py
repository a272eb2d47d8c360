"""The tables of readings and hearings: what each sign says it shows, when it was heard, and the numbers of the requests
that ask.

Numbers are taken from the table of signs some at a time, and each is on the disk before it goes out. Which of them was
used last is in hearings, which a crash may empty: then new ones are taken, below all that were.
"""

import time
from dataclasses import dataclass
from typing import Sequence

from .connection import Database
from .values import CLOCK, LEAST_NUMBER, places, text_or_none, time_of, whole, whole_or_none

BLOCK = 64  # numbers that are taken for a sign at once
_WRITTEN = 3600.0  # seconds after which a row says when it was heard, though nothing in it is new
# one that was asked at a time to come is due: the clock jumped
_DUE = (
    f"(hearings.read_at + (SELECT poll FROM signs WHERE id = hearings.sign) <= {CLOCK} OR hearings.read_at > {CLOCK})"
)


# a sign's newest row, which is written next
_LATEST = (
    "WITH found (sign, number, at, minutes, shown, fault) AS (SELECT CAST(? AS BIGINT), CAST(? AS BIGINT),"
    f" {CLOCK}, CAST(? AS BIGINT), CAST(? AS TEXT), CAST(? AS TEXT))"
    " INSERT INTO latest_readings (sign, number, at, fault, shown_number, shown_at, shown, minutes, heard)"
    " SELECT sign, number, at, fault, CASE WHEN shown IS NOT NULL THEN number END,"
    " CASE WHEN shown IS NOT NULL THEN at END, shown, minutes, CASE WHEN shown IS NOT NULL THEN at END"
    " FROM found WHERE 1 = 1 ON CONFLICT (sign) DO UPDATE SET number = excluded.number, at = excluded.at,"
    " fault = excluded.fault, shown_number = COALESCE(excluded.shown_number, latest_readings.shown_number),"
    " shown_at = COALESCE(excluded.shown_at, latest_readings.shown_at),"
    " shown = COALESCE(excluded.shown, latest_readings.shown),"
    " minutes = CASE WHEN excluded.shown IS NULL THEN latest_readings.minutes ELSE excluded.minutes END,"
    " heard = COALESCE(excluded.heard, latest_readings.heard)"
)


@dataclass(frozen=True)
class Said:
    """What a sign said under a reading's number, or why it said nothing."""

    sign: int
    number: int
    minutes: int | None = None
    shown: str | None = None
    fault: str | None = None


@dataclass(frozen=True)
class _Known:
    """A sign's newest row, as this process knows it, and when it was written, in seconds since some time; `at` is its
    own time, where it was read."""

    number: int
    shown: str | None
    fault: str | None
    written: float
    at: float = 0.0


class Readings:
    """Readings of all signs."""

    def __init__(self, database: Database) -> None:
        self.database = database
        self._run = database.run
        self._known: dict[int, _Known] = {}

    # ---- whose turn it is

    def to_read(self) -> list[int]:
        """The signs whose next reading is due: the one that was read longest ago first."""
        rows = self._run(
            "SELECT signs.id FROM signs LEFT JOIN hearings ON hearings.sign = signs.id"
            f" WHERE hearings.sign IS NULL OR {_DUE} ORDER BY COALESCE(hearings.read_at, 0), signs.id"
        )
        return [whole(row[0]) for row in rows]

    def due(self, signs: Sequence[int]) -> list[tuple[int, int]]:
        """Those of the signs whose next reading is due, each with a request's number below all that its readings
        had."""
        if not signs:
            return []
        with self.database.transaction(is_lasting=False):
            rows = self._run(
                f"WITH due AS MATERIALIZED (SELECT sign FROM hearings WHERE sign IN ({places(signs)})"
                f" AND {_DUE} AND number > floor {{skip}})"
                f" UPDATE hearings SET read_at = {CLOCK}, number = number - 1"
                " WHERE sign IN (SELECT sign FROM due) RETURNING sign, number",
                *signs,
            )
        found = [(whole(row[0]), whole(row[1])) for row in rows]
        return found + self._due_anew(sorted({*signs} - {sign for sign, _ in found}))

    def _due_anew(self, signs: Sequence[int]) -> list[tuple[int, int]]:
        """The same for signs that want new numbers first, which are on the disk when it returns."""
        if not signs:
            return []
        rows = self._run(
            "SELECT signs.id FROM signs LEFT JOIN hearings ON hearings.sign = signs.id"
            f" WHERE signs.id IN ({places(signs)}) AND signs.reading_number > ?"
            f" AND (hearings.sign IS NULL OR hearings.number <= hearings.floor AND {_DUE})",
            *signs,
            LEAST_NUMBER,
        )
        wanting = sorted(whole(row[0]) for row in rows)
        if not wanting:
            return []
        with self.database.transaction():
            taken = self._taken(wanting)
            self.database.run_all(
                f"INSERT INTO hearings (sign, read_at, number, floor) VALUES (?, {CLOCK}, ?, ?) ON CONFLICT (sign)"
                f" DO UPDATE SET read_at = {CLOCK}, number = excluded.number, floor = excluded.floor",
                [(sign, before - 1, floor) for sign, before, floor in taken],
            )
        return [(sign, before - 1) for sign, before, _ in taken]

    def _taken(self, signs: Sequence[int]) -> list[tuple[int, int, int]]:
        """Those of the signs for which nobody else takes numbers: each with the number above those that are taken now,
        and the last of them."""
        rows = self._run(
            f"SELECT id, reading_number FROM signs WHERE id IN ({places(signs)}) AND reading_number > ?"
            " ORDER BY id {skip}",
            *signs,
            LEAST_NUMBER,
        )
        has = self._run(f"SELECT sign FROM hearings WHERE sign IN ({places(signs)}) AND number > floor", *signs)
        done = {whole(row[0]) for row in has}
        taken = [
            (whole(sign), whole(before), max(whole(before) - BLOCK, LEAST_NUMBER))
            for sign, before in rows
            if whole(sign) not in done
        ]
        self.database.run_all(
            f"UPDATE signs SET reading_number = ?, read_at = {CLOCK} WHERE id = ?",
            [(floor, sign) for sign, _, floor in taken],
        )
        return taken

    def anew(self, signs: Sequence[int]) -> None:
        """New numbers for the signs from now on: which were used last may be forgotten where the machine lost its
        power."""
        if signs:
            self._run(
                f"WITH held AS MATERIALIZED (SELECT sign FROM hearings WHERE sign IN ({places(signs)})"
                " ORDER BY sign {lock}) UPDATE hearings SET number = floor WHERE sign IN (SELECT sign FROM held)",
                *signs,
            )

    def numbers(self, signs: Sequence[int]) -> dict[int, int]:
        """A request's number for each of the signs, below all that its readings had; none where they are used up."""
        if not signs:
            return {}
        with self.database.transaction(is_lasting=False):
            found = self._next(signs)
        wanting = sorted({*signs} - {*found})
        if wanting:
            with self.database.transaction():
                self._run(f"SELECT id FROM signs WHERE id IN ({places(wanting)}) ORDER BY id {{lock}}", *wanting)
                found |= self._next(wanting)  # of what another one took meanwhile
                found |= self._next_anew(sorted({*wanting} - {*found}))
        return found

    def _next(self, signs: Sequence[int]) -> dict[int, int]:
        """The next number of each that has one which is taken."""
        rows = self._run(
            f"WITH asked AS MATERIALIZED (SELECT sign FROM hearings WHERE sign IN ({places(signs)})"
            " AND number > floor ORDER BY sign {lock})"
            " UPDATE hearings SET number = number - 1 WHERE sign IN (SELECT sign FROM asked) RETURNING sign, number",
            *signs,
        )
        return {whole(sign): whole(number) for sign, number in rows}

    def _next_anew(self, signs: Sequence[int]) -> dict[int, int]:
        """The same for signs that want new numbers first."""
        taken = self._taken(signs) if signs else []
        self.database.run_all(
            "INSERT INTO hearings (sign, number, floor) VALUES (?, ?, ?) ON CONFLICT (sign)"
            " DO UPDATE SET number = excluded.number, floor = excluded.floor",
            [(sign, before - 1, floor) for sign, before, floor in taken],
        )
        return {sign: before - 1 for sign, before, _ in taken}

    # ---- what was said

    def keep(self, said: Sequence[Said]) -> None:
        """What signs said: a row for each that differs from the sign's one before. A crash may undo it: then the next
        reading says it again."""
        left = sorted(said, key=lambda one: (one.sign, -one.number))
        if not left:
            return
        try:
            with self.database.transaction(is_lasting=False):
                self._hold(sorted({one.sign for one in left}))
                while left:
                    first = {one.sign: one for one in reversed(left)}
                    left = [one for one in left if first[one.sign] is not one]
                    self._keep(list(first.values()))
        except BaseException:
            self._known.clear()  # rows that it may have written are not there
            raise

    def _hold(self, signs: Sequence[int]) -> None:
        """The rows of hearings are this transaction's, in the order in which all take them, so that none waits for one
        that waits for it: so of two that have the same to say one comes after the other."""
        held = (
            f"SELECT count(*) FROM (SELECT sign FROM hearings WHERE sign IN ({places(signs)})"
            " ORDER BY sign {lock}) AS held"
        )
        if whole(self._run(held, *signs)[0][0]) < len(signs):
            sql = "INSERT INTO hearings (sign) VALUES (?) ON CONFLICT (sign) DO NOTHING"
            self.database.run_all(sql, [(sign,) for sign in signs])
            self._run(held, *signs)

    def _keep(self, said: Sequence[Said]) -> None:
        """One of a sign each."""
        now = time.monotonic()
        same = [(one, known.number) for one in said if (known := self._is_known(one, now)) is not None]
        heard = self._heard(same)
        self._compared(sorted((one for one in said if one.sign not in heard), key=lambda one: one.sign), now)

    def _is_known(self, said: Said, now: float) -> _Known | None:
        """The row that says the same, where it is known and was written not long ago."""
        known = self._known.get(said.sign)
        is_same = known is not None and (known.shown, known.fault) == (said.shown, said.fault)
        return known if known is not None and is_same and now - known.written < _WRITTEN else None

    def _heard(self, same: Sequence[tuple[Said, int]]) -> set[int]:
        """Signs that say what these rows say, in one statement; which of them."""
        if not same:
            return set()
        rows = self._run(
            f"WITH found (sign, number, minutes, newest) AS (VALUES {', '.join(['(?, ?, ?, ?)'] * len(same))})"
            f" UPDATE hearings SET heard = {CLOCK}, minutes = CAST(found.minutes AS BIGINT), said = found.number"
            " FROM found WHERE hearings.sign = found.sign AND hearings.newest = found.newest"
            " AND hearings.said > found.number RETURNING hearings.sign",
            *(value for one, newest in same for value in (one.sign, one.number, one.minutes, newest)),
        )
        return {whole(row[0]) for row in rows}

    def _compared(self, said: Sequence[Said], now: float) -> None:
        """What these signs say, beside their newest rows: rows for what differs. One that is older is let be."""
        if not said:
            return
        signs = [one.sign for one in said]
        last = self._last(signs, now)
        said = [one for one in said if one.sign not in last or one.number < last[one.sign].number]
        before = [(last[one.sign].number, one.sign, last[one.sign].at) for one in said if one.sign in last]
        newest = {one.sign: last[one.sign] for one in said if one.sign in last}
        changed = [
            one
            for one in said
            if one.sign not in last or (last[one.sign].shown, last[one.sign].fault) != (one.shown, one.fault)
        ]
        newest.update({one.sign: _Known(one.number, one.shown, one.fault, now) for one in changed})
        self._write(before, changed, [(one, newest[one.sign].number) for one in said])
        self._known.update(newest)

    def _last(self, signs: Sequence[int], now: float) -> dict[int, _Known]:
        """The newest row of each of the signs that has one."""
        rows = self._run(
            "SELECT sign, number, CASE WHEN number = shown_number THEN shown END, fault, at FROM latest_readings"
            f" WHERE sign IN ({places(signs)})",
            *signs,
        )
        return {
            whole(row[0]): _Known(whole(row[1]), text_or_none(row[2]), text_or_none(row[3]), now, time_of(row[4]))
            for row in rows
        }

    def _write(
        self, before: list[tuple[int, int, float]], changed: Sequence[Said], heard: Sequence[tuple[Said, int]]
    ) -> None:
        """The rows before say until when they were heard; new ones begin; and signs were heard, with their rows."""
        run_all = self.database.run_all
        run_all(
            "UPDATE readings SET heard = hearings.heard, minutes = hearings.minutes FROM hearings"
            " WHERE readings.number = ? AND readings.sign = ? AND readings.at = ? AND hearings.sign = readings.sign"
            " AND hearings.newest = readings.number AND hearings.heard IS NOT NULL",
            list(before),
        )
        run_all(
            "UPDATE latest_readings SET heard = hearings.heard, minutes = hearings.minutes FROM hearings"
            " WHERE latest_readings.sign = ? AND hearings.sign = latest_readings.sign"
            " AND hearings.newest = latest_readings.shown_number AND hearings.heard IS NOT NULL",
            [(sign,) for _, sign, _ in before],
        )
        run_all(_LATEST, [(one.sign, one.number, one.minutes, one.shown, one.fault) for one in changed])
        run_all(
            "INSERT INTO readings (sign, number, at, heard, minutes, shown, fault) SELECT sign, number, at, at,"
            " CAST(? AS BIGINT), CAST(? AS TEXT), CAST(? AS TEXT) FROM latest_readings WHERE sign = ? AND number = ?"
            " ON CONFLICT DO NOTHING",
            [(one.minutes, one.shown, one.fault, one.sign, one.number) for one in changed],
        )
        run_all(
            f"INSERT INTO hearings (sign, newest, said, heard, minutes) VALUES (?, ?, ?, {CLOCK}, ?) ON CONFLICT (sign)"
            f" DO UPDATE SET newest = excluded.newest, said = excluded.said, heard = {CLOCK},"
            " minutes = excluded.minutes",
            [(one.sign, newest, one.number, one.minutes) for one, newest in heard],
        )

    def of(self, sign: int) -> list[tuple[int | None, str | None, str | None]]:
        """The minutes that are left, what was shown, and why nothing was said: the newest first."""
        rows = self._run(
            "SELECT CASE WHEN hearings.newest = readings.number THEN hearings.minutes ELSE readings.minutes END,"
            " shown, fault FROM readings LEFT JOIN hearings ON hearings.sign = readings.sign"
            " WHERE readings.sign = ? ORDER BY readings.number",
            sign,
        )
        return [(whole_or_none(row[0]), text_or_none(row[1]), text_or_none(row[2])) for row in rows]
