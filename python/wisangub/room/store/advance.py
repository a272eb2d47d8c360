"""What a database needs that is older than what its signs have seen: centres that begin above all numbers used since.

A copy knows nothing of the requests that went out after it was made. A worker hands the centre of a sign at most
LINES_A_SECOND lines, and a line sends at most one request of a new number, so the seconds since the newest entry bound
how many numbers were used since. Where that is too many, or no clock can be believed, an operator says the number.
"""

import datetime
from dataclasses import dataclass

from wisangub.process.places import called
from wisangub.refusal import Refusal
from wisangub.room.fleet import LAST_NUMBER
from wisangub.room.worker.session import PACE, RESTORED

from . import brightness
from .audit import note
from .store import Store
from .values import CLOCK, LEAST_NUMBER, whole

LINES_A_SECOND = round(1 / PACE)
LEAST_STEP = 1_000_000  # numbers that are left out at least
_TIMES = (
    "at FROM lines",
    "asked_at FROM commands",
    "asked_at FROM brightness",
    "ended FROM commands",
    "at FROM ledger",
    "heard FROM readings",
    "heard FROM hearings",
    "read_at FROM hearings",
    "read_at FROM signs",
    "at FROM audit",
)
NOT_DONE = (
    "unknown: the database was restored from a copy; before it was begun there, and whether it was carried out"
    " since is not known"
)


@dataclass(frozen=True)
class Step:
    """How far the numbers go on: from `least` to `most` begin the centres of the signs, after so many seconds."""

    signs: int
    newest: float
    seconds: float
    left_out: int
    least: int
    most: int
    ended: int

    def told(self) -> str:
        """In words."""
        when = datetime.datetime.fromtimestamp(self.newest, datetime.timezone.utc).strftime("%d %B %Y, %H:%M:%S UTC")
        numbers = f"number {self.least}" + (f" to number {self.most}" if self.most != self.least else "")
        return (
            f"The newest entry of this database is of {when}, {self.seconds:.0f} seconds ago.\n"
            f"What happened since is not in it: its ledger lacks the activations of that time, and {self.ended}"
            " commands that had not ended are ended as unknown. Users log in anew, with the passwords of that time."
            f" Users and tokens that were ended since count again: {called('wisangub-control users')} and"
            f" {called('wisangub-control tokens')} list them.\n"
            f"Each centre of its {self.signs} signs begins anew, from {numbers},"
            " above all that were used before"
        )


def newest(store: Store) -> float:
    """The time of the newest entry, by the clock of the database that was copied."""
    times = [
        store.database.run(f"SELECT max({column.split(' ')[0]}) FROM {column.split(' ')[2]}")[0][0] for column in _TIMES
    ]
    return max((float(time) for time in times if time is not None), default=0.0)


def left_out(store: Store, since: float) -> tuple[float, int]:
    """The seconds since then, and how many numbers a sign may have used in them."""
    seconds = float(store.database.run(f"SELECT {CLOCK}")[0][0] or 0) - since
    if seconds < 0:
        raise Refusal("the database's clock is before its newest entry: set the clock, or say --first NUMBER")
    return seconds, max(LEAST_STEP, int(seconds * LINES_A_SECOND) + LINES_A_SECOND)


def advance(store: Store, who: str, first: int | None) -> Step:
    """Has each sign's next centre begin at `first`, or else above all that may have been used; and ends what had not
    ended."""
    with store.database.transaction(is_alone=True):
        since = newest(store)
        known = {whole(row[0]): store.lines.used(whole(row[0])) for row in store.database.run("SELECT id FROM signs")}
        seconds, step = left_out(store, since) if first is None else (0.0, LEAST_STEP)
        begins = {sign: number + step if first is None else first for sign, number in known.items()}
        _check(known, begins)
        for sign, number in begins.items():
            store.database.run(
                "UPDATE signs SET first_number = ?, leased_by = NULL, read_at = 0, table_wanted = 1 WHERE id = ?",
                number,
                sign,
            )
        store.database.run("DELETE FROM hearings")
        lowered = store.database.run(
            "UPDATE signs SET reading_number = reading_number - ? WHERE reading_number - ? > ?" " RETURNING id",
            step,
            step,
            LEAST_NUMBER,
        )
        if len(lowered) < len(known):
            raise Refusal("a sign has too few numbers of readings left below 0")
        ended = _end_all(store)
        numbers = begins.values()
        found = Step(len(known), since, seconds, step, min(numbers, default=0), max(numbers, default=0), ended)
        note(store.database, who, "restored from a copy: " + found.told().replace("\n", " "))
        return found


def _check(known: dict[int, int], begins: dict[int, int]) -> None:
    """Refuses numbers that were used, and those that there are not."""
    for sign, number in begins.items():
        if number < known[sign]:
            raise Refusal(f"sign {sign} has used numbers up to {known[sign] - 1}: --first has to be above")
        if number > LAST_NUMBER:
            raise Refusal(
                f"so many numbers may have been used since that none is left for sign {sign}: look in its own"
                " log for the last request, and say --first NUMBER above it"
            )


def _end_all(store: Store) -> int:
    """Ends what had not ended when the copy was made, log-ins too; how many commands."""
    begun = store.database.run(
        f"UPDATE commands SET outcome = ?, ended = {CLOCK} WHERE line_number IS NOT NULL AND outcome IS NULL"
        " RETURNING id",
        RESTORED,
    )
    waiting = store.database.run(
        f"UPDATE commands SET outcome = ?, ended = {CLOCK} WHERE outcome IS NULL RETURNING id", NOT_DONE
    )
    brightness.end_all(store.database, NOT_DONE)
    store.database.run(f"UPDATE ledger SET outcome = 'unknown', at = {CLOCK} WHERE outcome = 'waiting'")
    store.database.run(
        f"UPDATE logins SET ended = {CLOCK} WHERE ended IS NULL"
    )  # one that was ended since would count again
    return len(begun) + len(waiting)
