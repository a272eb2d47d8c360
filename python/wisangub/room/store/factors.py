"""The table of second factors: which users give a code with their password."""

from wisangub.refusal import Refusal

from . import totp
from .audit import note
from .connection import Database
from .users import check_secret
from .values import time_of, whole


def since(database: Database, name: str) -> float | None:
    """When the user's second factor began; None where he has none."""
    rows = database.run("SELECT since FROM second_factors WHERE name = ?", name)
    return time_of(rows[0][0]) if rows else None


def is_code(database: Database, name: str, word: str) -> bool:
    """Whether the word is the code that the user has now, or he has no second factor. A code counts once."""
    with database.transaction(is_alone=True):
        rows = database.run("SELECT secret, used, {clock} FROM second_factors WHERE name = ?", name)
        if not rows:
            return True
        step = totp.step_of(str(rows[0][0]), word, time_of(rows[0][2]), whole(rows[0][1]))
        if step is not None:
            database.run("UPDATE second_factors SET used = ? WHERE name = ?", step, name)
        return step is not None


def enter(database: Database, name: str, secret: str, word: str, held: str | None = None) -> None:
    """The user has a second factor from now on, which stands in the audit. Refused where the word is not its code,
    where he has one, or no longer has what was kept of the password by which he asked."""
    with database.transaction(is_alone=True):
        check_secret(database, name, held)
        if since(database, name) is not None:
            raise Refusal("there is a second factor already")
        step = totp.step_of(secret, word, time_of(database.run("SELECT {clock}")[0][0]), 0)
        if step is None:
            raise Refusal("this is not the code of now")
        database.run(
            "INSERT INTO second_factors (name, secret, since, used) VALUES (?, ?, {clock}, ?)", name, secret, step
        )
        note(database, name, "has a second factor")


def remove(database: Database, name: str, who: str) -> None:
    """The user has no second factor any more, and is logged out; it stands in the audit. Refused where he has none."""
    with database.transaction(is_alone=True):
        if not database.run("DELETE FROM second_factors WHERE name = ? RETURNING name", name):
            raise Refusal(f"user {name} has no second factor")
        database.run("UPDATE logins SET ended = {clock} WHERE name = ? AND ended IS NULL", name)
        note(database, who, f"user {name} has no second factor any more")
