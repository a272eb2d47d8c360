"""The table of brightness: what operators ask for, the one SET that goes out for it, and what came of that.

A SET is sent once, under a number of the sign's readings, which no other request has. What it does is not known where
no answer comes, so what the sign reads afterwards is kept beside it.
"""

import json
from dataclasses import dataclass
from typing import Mapping

from wisangub.refusal import Refusal
from wisangub.room.device import BY_HAND, CONTROL, CONTROLS, LEVEL, LEVELS, MOST_LEVEL, brightness

from . import devices, rights
from .audit import note
from .connection import Database, Row, Taken
from .devices import DeviceView
from .values import CLOCK, text_or_none, texts, time_of, time_or_none, whole, whole_or_none

EVERY = 10.0  # seconds from one setting of a sign to the next at least
PATIENCE = 60.0  # seconds in which one is sent, or not at all; and in which what came of it is known
KEPT = 20  # settings of a sign
UNSENT = "not sent: no worker could send it in time"
UNKNOWN = "unknown: it was sent, and the worker that waited for the answer ended"
_UNDER_WAY = "what was asked for before is under way"
_LONG_AGO = f"+ {PATIENCE} NOT BETWEEN {CLOCK} AND {CLOCK} + {PATIENCE}"  # or at a time to come: the clock jumped
_LATE = f"number IS NOT NULL AND sent_at {_LONG_AGO}"
_UNSENT = f"number IS NULL AND asked_at {_LONG_AGO}"
_FOUND = "SELECT id, sign, who, asked_at, control, level, outcome, said, said_at FROM brightness"


@dataclass(frozen=True)
class Wish:
    """What sets a sign's brightness from now on, and the level where it is set by hand."""

    control: int
    level: int | None

    @property
    def values(self) -> dict[str, int]:
        """The objects that it writes: of the device alone, and none of what is shown or of the table."""
        return {CONTROL: self.control} | ({} if self.level is None else {LEVEL: self.level})

    @property
    def words(self) -> str:
        return brightness(self.control, self.level)


@dataclass(frozen=True)
class Asked:
    """A wish of somebody, how it ended, and what the sign read afterwards."""

    id: int
    sign: int
    who: str
    at: float
    wish: Wish
    how: str | None
    said: Mapping[str, int | str] | None
    said_at: float | None

    @property
    def read_back(self) -> str:
        """What the sign read afterwards, in words; none where it said nothing."""
        control, level = (None if self.said is None else self.said.get(name) for name in (CONTROL, LEVEL))
        return brightness(control, level if isinstance(level, int) else None) if isinstance(control, int) else ""


def _asked(row: Row) -> Asked:
    said = text_or_none(row[7])
    return Asked(
        whole(row[0]),
        whole(row[1]),
        str(row[2]),
        time_of(row[3]),
        Wish(whole(row[4]), whole_or_none(row[5])),
        text_or_none(row[6]),
        None if said is None else json.loads(said),
        time_or_none(row[8]),
    )


def most_level(device: DeviceView | None) -> int | None:
    """The greatest level of a sign; None for a sign whose brightness cannot be set, as far as it said."""
    if device is None or device.number(CONTROL) is None or device.number(LEVEL) is None:
        return None
    levels = device.number(LEVELS)
    return MOST_LEVEL if levels is None else max(0, min(levels, MOST_LEVEL))


def fault_of(wish: Wish, device: DeviceView | None) -> str:
    """Why a sign is not asked for it; empty where it is."""
    most = most_level(device)
    if most is None:
        return "this sign does not say that its brightness can be set"
    if wish.control not in CONTROLS:
        return "this sets no brightness"
    if (wish.control in BY_HAND) != (wish.level is not None):
        return "a level is given where it is set by hand, and only there"
    if wish.level is not None and not 0 <= wish.level <= most:
        return f"a level of this sign is a number from 0 to {most}"
    return ""


def listed(database: Database, sign: int, most: int = KEPT) -> list[Asked]:
    """What was asked for of a sign, the newest first."""
    return list(map(_asked, database.run(f"{_FOUND} WHERE sign = ? ORDER BY id DESC LIMIT ?", sign, most)))


def found(database: Database, number: int) -> Asked | None:
    return next(iter(map(_asked, database.run(f"{_FOUND} WHERE id = ?", number))), None)


def ask(database: Database, sign: int, who: str, wish: Wish, confirmation: str, through: str = "") -> int:
    """Asks for it, with its line of the audit: its number. A confirmation counts once: where it is there already, what
    was asked with it then. Refused where the user may not command the sign, where the sign cannot be asked, while
    another one is under way, and too soon after the last."""
    try:
        with database.transaction():
            rights.need(database, who, sign)
            before = database.run("SELECT id FROM brightness WHERE confirmation = ? AND who = ?", confirmation, who)
            return whole(before[0][0]) if before else _put(database, sign, who, wish, confirmation, through)
    except Taken:
        rows = database.run("SELECT id FROM brightness WHERE confirmation = ? AND who = ?", confirmation, who)
        if not rows:
            raise Refusal(_UNDER_WAY) from None
        return whole(rows[0][0])


def _put(database: Database, sign: int, who: str, wish: Wish, confirmation: str, through: str) -> int:
    """A new one, within a transaction: its number."""
    if fault := fault_of(wish, devices.view(database, sign)):
        raise Refusal(fault)
    rows = database.run(
        f"SELECT outcome, CASE WHEN asked_at + {EVERY} > {CLOCK} AND asked_at <= {CLOCK} THEN 1 ELSE 0 END"
        " FROM brightness WHERE sign = ? ORDER BY id DESC LIMIT 1",
        sign,
    )
    for how, is_soon in rows:
        if how is None or is_soon:
            raise Refusal(_UNDER_WAY if how is None else f"a sign's brightness is set once in {EVERY:g} seconds")
    made = database.run(
        "INSERT INTO brightness (sign, who, confirmation, asked_at, control, level)"
        f" VALUES (?, ?, ?, {CLOCK}, ?, ?) RETURNING id",
        sign,
        who,
        confirmation,
        wish.control,
        wish.level,
    )
    _note(database, sign, who, f"{wish.words} was asked for{f' through {through}' if through else ''}")
    newest = "SELECT id FROM brightness WHERE sign = ? ORDER BY id DESC LIMIT ?"
    database.run(f"DELETE FROM brightness WHERE sign = ? AND id NOT IN ({newest})", sign, sign, KEPT)
    return whole(made[0][0])


def _note(database: Database, sign: int, who: str, what: str) -> None:
    names = texts(database.run("SELECT name FROM signs WHERE id = ?", sign))
    note(database, who, f"{names[0]}: brightness: {what}")


class Brightness:
    """What workers do with it."""

    def __init__(self, database: Database) -> None:
        self.database = database
        self._run = database.run

    def to_send(self) -> list[Asked]:
        """What waits to be sent; what waited for too long is ended here, and so is what nobody waits for any more."""
        if not self._run("SELECT 1 FROM brightness WHERE outcome IS NULL LIMIT 1"):
            return []
        for which, how in ((_LATE, UNKNOWN), (_UNSENT, UNSENT)):
            for (number,) in self._run(f"SELECT id FROM brightness WHERE outcome IS NULL AND {which}"):
                self.end(whole(number), how, which)
        return list(map(_asked, self._run(f"{_FOUND} WHERE outcome IS NULL AND number IS NULL ORDER BY id")))

    def begin(self, asked: int, number: int) -> bool:
        """The SET has this number, on the disk; False where another worker sends it, or it is over."""
        rows = self._run(
            f"UPDATE brightness SET number = ?, sent_at = {CLOCK} WHERE id = ? AND number IS NULL AND outcome IS NULL"
            f" AND NOT (asked_at {_LONG_AGO}) RETURNING id",
            number,
            asked,
        )
        return bool(rows)

    def end(self, asked: int, how: str, where: str = "number IS NOT NULL") -> None:
        """How it ended, with its line of the audit; the first word on it stands. The sign is asked of itself anew."""
        with self.database.transaction():
            rows = self._run(
                f"UPDATE brightness SET outcome = ?, ended = {CLOCK} WHERE id = ? AND outcome IS NULL AND {where}"
                " RETURNING sign, who, control, level",
                how,
                asked,
            )
            for sign, who, control, level in rows:
                _note(
                    self.database, whole(sign), str(who), f"{Wish(whole(control), whole_or_none(level)).words}: {how}"
                )
                self._run("UPDATE device_hearings SET asked_at = 0 WHERE sign = ?", sign)

    def keep(self, asked: int, said: Mapping[str, int | str]) -> None:
        """What the sign read afterwards."""
        words = json.dumps(said, sort_keys=True)
        self._run(f"UPDATE brightness SET said = ?, said_at = {CLOCK} WHERE id = ?", words, asked)


def end_all(database: Database, how: str) -> None:
    """Ends all that had not ended, within a transaction: the database is an older one."""
    database.run(f"UPDATE brightness SET outcome = ?, ended = {CLOCK} WHERE outcome IS NULL", how)
