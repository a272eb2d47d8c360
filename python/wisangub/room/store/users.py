"""The table of users: who may do what."""

import enum
import re
from dataclasses import dataclass

from wisangub.refusal import Refusal

from . import passwords
from .audit import note
from .database import Database, Taken

_NAME = re.compile(r"[a-z][a-z0-9._-]{0,31}")
_NAMES = "a name has 1 to 32 small letters, digits, dots, lines and underlines, and begins with a letter"


class Role(enum.IntEnum):
    """Each may what the ones before may."""

    READER = 1
    OPERATOR = 2
    ADMINISTRATOR = 3

    @property
    def word(self) -> str:
        return self.name.lower()

    @staticmethod
    def of(word: str) -> "Role":
        try:
            return Role[word.upper()]
        except KeyError:
            raise Refusal(f"{word!r} is no role: reader, operator or administrator") from None


@dataclass(frozen=True)
class User:
    name: str
    role: Role
    is_disabled: bool = False
    has_factor: bool = False


def users(database: Database) -> list[User]:
    """All, by their names."""
    rows = database.run(
        "SELECT users.name, role, disabled, second_factors.name FROM users"
        " LEFT JOIN second_factors ON second_factors.name = users.name ORDER BY users.name"
    )
    return [User(str(row[0]), Role.of(str(row[1])), bool(row[2]), row[3] is not None) for row in rows]


def secret(database: Database, name: str) -> str | None:
    """What is kept of the user's password; None where nobody of that name may log in."""
    rows = database.run("SELECT secret FROM users WHERE name = ? AND disabled = 0", name)
    return str(rows[0][0]) if rows else None


def check_secret(database: Database, name: str, held: str | None) -> None:
    """Refuses a user who no longer has the secret by which his password was found right, where that is said, or who may
    no more log in: another password has ended all that he began by that one."""
    is_his = "SELECT 1 FROM users WHERE name = ? AND secret = ? AND disabled = 0"
    if held is not None and not database.run(is_his, name, held):
        raise Refusal(f"user {name} has another password, or may not log in")


def _checked(password: str) -> str:
    """What is kept of a password that is taken."""
    fault = passwords.fault_of(password)
    if fault is not None:
        raise Refusal(fault)
    return passwords.secret_of(password)


def add(database: Database, name: str, role: Role, password: str, who: str) -> None:
    """A user, who may on all signs what his role may until an administrator bounds it."""
    if not _NAME.fullmatch(name):
        raise Refusal(_NAMES)
    kept = _checked(password)
    try:
        with database.transaction():
            database.run("INSERT INTO users (name, role, secret) VALUES (?, ?, ?)", name, role.word, kept)
            database.run(
                "INSERT INTO rights (name, of_group, level) SELECT CAST(? AS TEXT), id, 3 FROM sign_groups"
                " WHERE kind = 'all'",
                name,
            )
            note(database, who, f"user {name} is added, {role.word}")
    except Taken:
        raise Refusal(f"there is a user {name} already") from None


def _change(
    database: Database, name: str, column: str, value: str | int, who: str, what: str, held: str | None = None
) -> None:
    """Changes a column of a user, and ends what he is logged in with and his tokens. One administrator at least is
    left."""
    with database.transaction(is_alone=True):
        check_secret(database, name, held)
        if not database.run(f"UPDATE users SET {column} = ? WHERE name = ? RETURNING name", value, name):
            raise Refusal(f"there is no user {name}")
        if column != "secret" and not database.run(
            "SELECT name FROM users WHERE role = 'administrator' AND disabled = 0"
        ):
            raise Refusal("no administrator would be left")
        database.run("UPDATE logins SET ended = {clock} WHERE name = ? AND ended IS NULL", name)
        database.run("UPDATE tokens SET ended_at = {clock} WHERE of_user = ? AND ended_at IS NULL", name)
        note(database, who, what)


def change_password(database: Database, name: str, password: str, who: str, held: str | None = None) -> None:
    """Another password; where it is said, of who has this secret still."""
    _change(database, name, "secret", _checked(password), who, f"user {name} has another password", held)


def change_role(database: Database, name: str, role: Role, who: str) -> None:
    _change(database, name, "role", role.word, who, f"user {name} is {role.word}")


def disable(database: Database, name: str, is_disabled: bool, who: str) -> None:
    _change(
        database, name, "disabled", int(is_disabled), who, f"user {name} is {'disabled' if is_disabled else 'enabled'}"
    )
