"""The table of alarms: what is wrong with a sign, as its readings, its table, its commands and it itself say."""

import heapq
from dataclasses import dataclass
from typing import Callable, Sequence

from wisangub.room.device import errors
from wisangub.snmp.names import RowStatus

from . import devices, queries, rights
from .audit import note
from .connection import Database, Row
from .queries import Shown, SignView
from .values import places, text_or_none, texts, time_of, time_or_none, whole

SILENT, ERROR, OTHER, FAILED, DEVICE = KINDS = ("silent", "error", "other", "failed", "device")
TRIES, AGAIN = 6, 60.0  # how often it is tried to tell somebody, and seconds to the second time; then longer
_MOST_TOLD = 50  # alarms of one message
EVERY = 5.0  # seconds from one look for alarms to the next, of all workers together
_CENTRAL = 8  # the mode of what a central system activated
_MOST_READ = 1000  # signs that are asked for at once
_MOST_TEXT = 60  # characters of a text that an alarm says
_FOUND = """
SELECT alarms.id, alarms.sign, signs.name, alarms.kind, alarms.what, alarms.begun, alarms.ended, alarms.seen_by,
       alarms.seen_at
FROM alarms JOIN signs ON signs.id = alarms.sign
"""


@dataclass(frozen=True)
class Alarm:
    """An alarm that stands where `ended` is none, and that somebody has seen where `seen_by` is one."""

    id: int
    sign: int
    sign_name: str
    kind: str
    what: str
    begun: float
    ended: float | None
    seen_by: str | None
    seen_at: float | None


def _alarm(row: Row) -> Alarm:
    return Alarm(
        whole(row[0]),
        whole(row[1]),
        str(row[2]),
        str(row[3]),
        str(row[4]),
        time_of(row[5]),
        time_or_none(row[6]),
        text_or_none(row[7]),
        time_or_none(row[8]),
    )


def listed(
    database: Database, sign: int | None = None, most: int = 200, may_see: Callable[[int], bool] | None = None
) -> list[Alarm]:
    """Alarms that stand or that nobody has seen, of one sign, of those that somebody may see, or of all: those that
    nobody has seen first, the newest first. Of however many there are the newest alone are read."""
    signs: list[int | None] = [sign]
    if may_see is not None:
        every = [whole(row[0]) for row in database.run("SELECT id FROM signs")] if sign is None else [sign]
        signs = [*filter(may_see, every)]
    unseen = _newest(database, "seen_by IS NULL", "id", signs, most)
    seen = _newest(database, "ended IS NULL AND seen_by IS NOT NULL", "id + 0", signs, most)  # of the few that stand
    numbers = [*dict.fromkeys([*unseen, *seen])][:most]
    rows = database.run(f"{_FOUND} WHERE alarms.id IN ({places(numbers)})", *numbers) if numbers else []
    found = {one.id: one for one in map(_alarm, rows)}
    return [found[number] for number in numbers]


def every(database: Database, before: int | None, most: int) -> list[Alarm]:
    """All that ever were, the newest first, of those with numbers below one."""
    below = 2**62 if before is None else before
    return list(map(_alarm, database.run(f"{_FOUND} WHERE alarms.id < ? ORDER BY alarms.id DESC LIMIT ?", below, most)))


def _newest(database: Database, which: str, order: str, signs: Sequence[int | None], most: int) -> list[int]:
    """The numbers of the newest alarms that are so, of each of these signs by its index, or of all for none."""
    found: list[int] = []
    for sign in signs:
        where, values = ("", []) if sign is None else (" AND sign = ?", [sign])
        sql = f"SELECT id FROM alarms WHERE {which}{where} ORDER BY {order} DESC LIMIT ?"
        found += [whole(row[0]) for row in database.run(sql, *values, most)]
    return heapq.nlargest(most, found)


def signs_with(database: Database, kind: str) -> set[int]:
    """The signs of which an alarm of this kind stands."""
    return {whole(row[0]) for row in database.run("SELECT sign FROM alarms WHERE kind = ? AND ended IS NULL", kind)}


def sign_of(database: Database, number: int) -> int | None:
    """The sign of an alarm."""
    rows = database.run("SELECT sign FROM alarms WHERE id = ?", number)
    return whole(rows[0][0]) if rows else None


def see(database: Database, number: int, who: str) -> bool:
    """Somebody has seen an alarm, which stands in the audit; False where another one has before, or there is none.
    Refused where the user may not command its sign."""
    with database.transaction():
        for (sign,) in database.run("SELECT sign FROM alarms WHERE id = ?", number):
            rights.need(database, who, whole(sign))
        rows = database.run(
            "UPDATE alarms SET seen_by = ?, seen_at = {clock} WHERE id = ? AND seen_by IS NULL RETURNING sign, what",
            who,
            number,
        )
        for sign, what in rows:
            name = texts(database.run("SELECT name FROM signs WHERE id = ?", sign))[0]
            note(database, who, f"{name}: alarm {number} is acknowledged: {what}")
        return bool(rows)


def to_tell(database: Database, target: str, kinds: Sequence[str]) -> list[Alarm]:
    """Alarms of these kinds that stand, that nobody has seen and that this target was not told of: they count as being
    told now, so that nobody else tells it, and are tried again later, some times."""
    if not kinds:
        return []
    with database.transaction(is_alone=True):
        rows = database.run(
            f"{_FOUND} LEFT JOIN notices ON notices.alarm = alarms.id AND notices.target = ?"
            # `COALESCE`, so that it is by those that stand, of which there are few
            f" WHERE alarms.ended IS NULL AND COALESCE(alarms.seen_by, '') = '' AND alarms.kind IN ({places(kinds)})"
            " AND (notices.alarm IS NULL OR (notices.told IS NULL AND notices.tries < ?"
            " AND (notices.next_try <= {clock} OR notices.next_try > {clock} + ?))) ORDER BY alarms.id + 0 LIMIT ?",
            target,
            *kinds,
            TRIES,
            AGAIN * TRIES,  # further than a next try is: the clock jumped
            _MOST_TOLD,
        )
        found = list(map(_alarm, rows))
        database.run_all(
            "INSERT INTO notices (alarm, target, tries, next_try) VALUES (?, ?, 1, {clock} + ?)"
            " ON CONFLICT (alarm, target) DO UPDATE SET tries = notices.tries + 1,"
            " next_try = {clock} + ? * (notices.tries + 1)",
            [(one.id, target, AGAIN, AGAIN) for one in found],
        )
        return found


def told(database: Database, target: str, alarms: Sequence[Alarm]) -> None:
    """The target knows of these."""
    with database.transaction():
        database.run_all(
            "UPDATE notices SET told = {clock} WHERE alarm = ? AND target = ?", [(one.id, target) for one in alarms]
        )


class Alarms:
    """Looks for what is wrong with signs."""

    def __init__(self, database: Database) -> None:
        self.database = database
        self._run = database.run
        self._ours: set[tuple[int, bytes, bytes]] = set()  # signs with what they showed that a ledger has
        self._views: dict[int, tuple[int, SignView]] = {}  # by signs, with the number of the reading that said so

    def look(self) -> None:
        """Begins and ends alarms, where none of the workers has looked just before."""
        with self.database.transaction(is_alone=True):
            due = "at + ? <= {clock} OR at > {clock}"  # at a time to come: the clock jumped
            if not self._run(f"UPDATE alarm_looks SET at = {{clock}} WHERE {due} RETURNING at", EVERY):
                return
            found = self._found()
            rows = self._run("SELECT sign, kind, what FROM alarms WHERE ended IS NULL")
            standing = {(whole(sign), str(kind)): str(what) for sign, kind, what in rows}
            gone = [key for key, what in standing.items() if found.get(key) != what]
            self.database.run_all(
                "UPDATE alarms SET ended = {clock} WHERE sign = ? AND kind = ? AND ended IS NULL", sorted(gone)
            )
            self.database.run_all(
                "INSERT INTO alarms (sign, kind, what, begun) VALUES (?, ?, ?, {clock})",
                [(*key, what) for key, what in sorted(found.items()) if standing.get(key) != what],
            )

    def _found(self) -> dict[tuple[int, str], str]:
        """What is wrong now, in words, by signs and kinds."""
        found: dict[tuple[int, str], str] = {}
        for sign in self._read():
            if sign.fault:
                found[sign.id, SILENT] = sign.fault
            if words := self._other(sign):
                found[sign.id, OTHER] = words
        for sign_id, still in self._run("SELECT id, still FROM signs WHERE still IS NOT NULL"):
            found[whole(sign_id), SILENT] = f"it stands still: {still}"
        rows = self._run(
            "SELECT sign, memory, number FROM messages WHERE status = ? ORDER BY sign, memory DESC, number DESC",
            RowStatus.ERROR,
        )
        for sign_id, memory, number in rows:
            found[whole(sign_id), ERROR] = f"row {number} of memory {memory} is in error"
        rows = self._run(
            "SELECT commands.sign, commands.id, commands.outcome FROM signs JOIN commands ON commands.id ="
            " (SELECT max(id) FROM commands WHERE sign = signs.id AND outcome IS NOT NULL"
            " AND outcome NOT LIKE 'withdrawn by %') WHERE commands.outcome <> 'accepted'"
        )
        for sign_id, command, outcome in rows:
            found[whole(sign_id), FAILED] = f"command {command} {outcome}"
        for sign_id, status in devices.with_errors(self.database).items():
            found[sign_id, DEVICE] = f"it says that something is wrong with it: {', '.join(errors(status))}"
        return found

    def _read(self) -> list[SignView]:
        """What was read of each sign; of those alone that were read anew it is asked for."""
        newest = queries.newest_readings(self.database)
        known = {sign: held for sign, held in self._views.items() if held[0] == newest.get(sign)}
        anew = sorted(newest.keys() - known.keys())
        for at in range(0, len(anew), _MOST_READ):
            for view in queries.signs_of(self.database, anew[at : at + _MOST_READ]):
                known[view.id] = newest[view.id], view
        self._views = known
        return [view for _, view in known.values()]

    def _other(self, sign: SignView) -> str | None:
        """Whose text a sign shows that none of its centres here has activated; None where it shows none or ours."""
        shown = sign.shown
        if shown is None or not shown.text or self._is_ours(sign.id, shown):
            return None
        text = "".join(one if one.isprintable() else "?" for one in shown.text.decode("latin-1"))
        words = f"it shows “{text[:_MOST_TEXT]}{'..' * (len(text) > _MOST_TEXT)}”, "
        if shown.mode != _CENTRAL:
            return f"{words}by itself (mode {shown.mode})"
        return f"{words}which {'.'.join(map(str, shown.requester)) or 'somebody'} activated"

    def _is_ours(self, sign: int, shown: Shown) -> bool:
        """Whether the ledger has an activation of the row, the checksum and the address that the sign says."""
        key = (sign, shown.source, shown.requester)
        if shown.mode == _CENTRAL and key not in self._ours:
            digits = (shown.source + shown.requester).hex()
            if self._run("SELECT 1 FROM ledger WHERE sign = ? AND substr(code, 7, 18) = ? LIMIT 1", sign, digits):
                self._ours.add(key)
        return shown.mode == _CENTRAL and key in self._ours
