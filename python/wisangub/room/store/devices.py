"""The tables of devices and of their hearings: what each sign says of itself, beside what it shows."""

import json
from dataclasses import dataclass
from typing import Sequence

from .connection import Database
from .values import CLOCK, texts, time_of, whole

EVERY, DAY = 60.0, 86_400.0  # seconds from one reading to the next, and for which it is known what a sign has not
# one that was asked at a time to come is due: the clock jumped
_DUE = f"(device_hearings.asked_at + device_hearings.enough <= {CLOCK} OR device_hearings.asked_at > {CLOCK})"
_Values = dict[str, int | str]  # a number, or octets as digits, by the names of the MIB


@dataclass(frozen=True)
class DeviceSaid:
    """What a sign said of itself under the number of the last request; which names it has not, and whether it was asked
    for all."""

    sign: int
    number: int
    lasting: _Values
    measured: _Values
    errors: int
    lacking: frozenset[str]
    is_of_all: bool


@dataclass(frozen=True)
class DeviceView:
    """What a sign said of itself, and when it was heard."""

    values: _Values
    heard: float

    def number(self, name: str) -> int | None:
        """A number that it said; None for whatever else it said."""
        found = self.values.get(name)
        return found if isinstance(found, int) else None

    def octets(self, name: str) -> bytes:
        """Octets that it said; none for whatever else it said."""
        found = self.values.get(name)
        try:
            return bytes.fromhex(found) if isinstance(found, str) else b""
        except ValueError:
            return b""


def view(database: Database, sign: int) -> DeviceView | None:
    """What a sign says of itself; None where it says nothing, or was not asked yet."""
    rows = database.run(
        "SELECT devices.said, device_hearings.measured, COALESCE(device_hearings.heard, devices.since)"
        " FROM devices LEFT JOIN device_hearings ON device_hearings.sign = devices.sign WHERE devices.sign = ?",
        sign,
    )
    for said, measured, heard in rows:
        values = {**json.loads(str(said)), **json.loads(str(measured or "{}"))}
        return DeviceView(values, time_of(heard)) if values else None
    return None


def with_errors(database: Database) -> dict[int, int]:
    """The signs that say that something is wrong with them: shortErrorStatus of each."""
    rows = database.run("SELECT sign, errors FROM devices WHERE errors <> 0")
    return {whole(sign): whole(errors) for sign, errors in rows}


class Devices:
    """What all signs say of themselves."""

    def __init__(self, database: Database) -> None:
        self.database = database
        self._run = database.run

    def to_read(self) -> list[int]:
        """The signs whose reading is due: the one that was asked longest ago first."""
        rows = self._run(
            "SELECT signs.id FROM signs LEFT JOIN device_hearings ON device_hearings.sign = signs.id"
            f" WHERE device_hearings.sign IS NULL OR {_DUE} ORDER BY COALESCE(device_hearings.asked_at, 0), signs.id"
        )
        return [whole(row[0]) for row in rows]

    def due(self, signs: Sequence[int]) -> dict[int, frozenset[str] | None]:
        """Those of the signs whose reading is due, which count as asked for now, each with the names that it has not;
        None where it is to be asked for all."""
        if not signs:
            return {}
        with self.database.transaction(is_lasting=False):
            rows = self._run(
                "INSERT INTO device_hearings (sign, asked_at, enough)"
                f" VALUES {', '.join([f'(?, {CLOCK}, {EVERY})'] * len(signs))} ON CONFLICT (sign)"
                f" DO UPDATE SET asked_at = {CLOCK} WHERE {_DUE} RETURNING sign, lacking,"
                f" CASE WHEN all_asked_at + {DAY} > {CLOCK} AND all_asked_at <= {CLOCK} THEN 1 ELSE 0 END",
                *sorted(signs),
            )
        return {whole(sign): frozenset(json.loads(str(lacking))) if known else None for sign, lacking, known in rows}

    def keep(self, said: Sequence[DeviceSaid]) -> None:
        """What signs said of themselves: when, and what they measure; and a row where something that lasts is another.
        A crash may undo it: then the next reading says it again."""
        if not said:
            return
        newest = sorted({one.sign: one for one in sorted(said, key=lambda one: -one.number)}.values(), key=_sign_of)
        with self.database.transaction(is_lasting=False):
            self._hear(newest)
            self._write(newest)

    def _hear(self, said: Sequence[DeviceSaid]) -> None:
        """Each was heard now, but for what comes late."""
        self.database.run_rows(
            "INSERT INTO device_hearings (sign, asked_at, enough, number, heard, measured, lacking, all_asked_at)"
            " VALUES {rows} ON CONFLICT (sign) DO UPDATE"
            " SET enough = excluded.enough, number = excluded.number, heard = excluded.heard,"
            " measured = excluded.measured, lacking = excluded.lacking, all_asked_at ="
            " CASE WHEN excluded.all_asked_at > 0 THEN device_hearings.asked_at ELSE device_hearings.all_asked_at END"
            " WHERE device_hearings.number > excluded.number",
            f"(?, {CLOCK}, ?, ?, {CLOCK}, ?, ?, CASE WHEN CAST(? AS BIGINT) = 1 THEN {CLOCK} ELSE 0 END)",
            [
                (
                    one.sign,
                    EVERY if one.lasting or one.measured else DAY,
                    one.number,
                    _json(one.measured),
                    json.dumps(sorted(one.lacking)),
                    int(one.is_of_all),
                )
                for one in said
            ],
        )

    def _write(self, said: Sequence[DeviceSaid]) -> None:
        """Rows of those that say something else than they did."""
        self.database.run_rows(
            "INSERT INTO devices (sign, number, since, said, errors) VALUES {rows} ON CONFLICT (sign)"
            " DO UPDATE SET number = excluded.number, since = excluded.since, said = excluded.said,"
            " errors = excluded.errors WHERE devices.number > excluded.number AND devices.said <> excluded.said"
            " AND EXISTS (SELECT 1 FROM device_hearings WHERE device_hearings.sign = devices.sign"
            " AND device_hearings.number = excluded.number)",
            f"(?, ?, {CLOCK}, ?, ?)",
            [(one.sign, one.number, _json(one.lasting), one.errors) for one in said],
        )

    def lacking(self, sign: int) -> frozenset[str]:
        """The names that a sign has not, as far as is known."""
        rows = texts(self._run("SELECT lacking FROM device_hearings WHERE sign = ?", sign))
        return frozenset(json.loads(rows[0])) if rows else frozenset()


def _sign_of(said: DeviceSaid) -> int:
    return said.sign


def _json(values: _Values) -> str:
    """The same text for the same values."""
    return json.dumps(values, sort_keys=True)
