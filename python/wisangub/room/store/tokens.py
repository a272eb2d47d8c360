"""Tokens of other systems: each is good for the requests of one system, in the name of a user and with his rights.

The database has the digest of a token alone; what is sent is shown once, as it is made.
"""

import contextlib
import hashlib
import secrets
from dataclasses import dataclass

from wisangub.refusal import Refusal
from wisangub.room.plain import counted

from .audit import note
from .connection import Database, Failed, Row
from .rules import name_of
from .users import Role, check_secret
from .values import SLACK, time_of, time_or_none, whole

MOST_DAYS, DAYS = 3650, 365  # that a token is good for, at most and where nothing is said
_PREFIX = "wct_"  # so that one that got into a text is found there
_DAY = 86_400.0  # seconds
_LOOK = 60.0  # seconds within which it is not written down again that a token was used
_STANDS = "tokens.ended_at IS NULL AND tokens.until > {clock} AND tokens.made_at <= {clock} + ?"
_FOUND = (
    "SELECT tokens.id, tokens.name, tokens.of_user, tokens.reads_only, tokens.made_at, tokens.until, tokens.used_at"
    f" FROM tokens WHERE {_STANDS}"
)


@dataclass(frozen=True)
class Holder:
    """Who asks by a token: in whose name, and what he may at most."""

    token: int
    name: str
    user: str
    role: Role


@dataclass(frozen=True)
class Token:
    """A token that stands, without what is sent."""

    id: int
    name: str
    user: str
    reads_only: bool
    made: float
    until: float
    used: float | None


def _digest(word: str) -> str:
    return hashlib.sha256(word.encode()).hexdigest()


def _token(row: Row) -> Token:
    return Token(
        whole(row[0]),
        str(row[1]),
        str(row[2]),
        bool(row[3]),
        time_of(row[4]),
        time_of(row[5]),
        time_or_none(row[6]),
    )


def add(
    database: Database, name: str, user: str, reads_only: bool, days: int, who: str, secret: str | None = None
) -> str:
    """A new token in the name of a user: what is sent. Refused where he no longer has the secret by which his password
    was found right: another one has ended his tokens."""
    held = name_of(name, "a token's name")
    if not 1 <= days <= MOST_DAYS:
        raise Refusal(f"a token is good for 1 to {MOST_DAYS} days")
    made = _PREFIX + secrets.token_urlsafe(32)
    with database.transaction(is_alone=True):
        check_secret(database, user, secret)
        if not database.run("SELECT 1 FROM users WHERE name = ? AND disabled = 0", user):
            raise Refusal(f"there is no user {user} who may log in")
        if any(token.name == held for token in listed(database, user)):
            raise Refusal(f"{user} has a token “{held}” already")
        database.run(
            "INSERT INTO tokens (name, of_user, digest, reads_only, made_at, until)"
            " VALUES (?, ?, ?, ?, {clock}, {clock} + ?)",
            held,
            user,
            _digest(made),
            int(reads_only),
            days * _DAY,
        )
        what = "that reads alone" if reads_only else "that reads and asks"
        note(database, who, f"token “{held}” of user {user} is made, {what}, for {counted(days, 'day')}")
    return made


def listed(database: Database, user: str | None = None) -> list[Token]:
    """The tokens that stand, of a user or of all, by user and name."""
    where, values = ("", []) if user is None else (" AND of_user = ?", [user])
    rows = database.run(f"{_FOUND}{where} ORDER BY of_user, name", SLACK, *values)
    return list(map(_token, rows))


def end(database: Database, number: int, who: str, user: str | None = None) -> bool:
    """Ends a token, of a user alone where one is named; False where there is no such one that has not ended."""
    where, values = ("", []) if user is None else (" AND of_user = ?", [user])
    with database.transaction():
        rows = database.run(
            f"UPDATE tokens SET ended_at = {{clock}} WHERE id = ? AND ended_at IS NULL{where} RETURNING name, of_user",
            number,
            *values,
        )
        for name, of_user in rows:
            note(database, who, f"token “{name}” of user {of_user} is ended")
        return bool(rows)


def find(database: Database, word: str, address: str) -> Holder | None:
    """Who sends a token, where it stands and its user may log in. The first time that one which ended is sent stands in
    the audit."""
    rows = database.run(
        f"SELECT tokens.id, tokens.name, users.name, users.role, tokens.reads_only,"
        f" CASE WHEN {_STANDS} AND users.disabled = 0 THEN 1 ELSE 0 END, {{clock}} - COALESCE(tokens.used_at, 0)"
        " FROM tokens JOIN users ON users.name = tokens.of_user WHERE tokens.digest = ?",
        SLACK,
        _digest(word),
    )
    if not rows:
        return None
    number, name, user, role, reads_only, stands, age = rows[0]
    if not stands:
        _refuse(database, whole(number), f"token “{name}” is refused, since it has ended, from {address}", str(user))
        return None
    if abs(time_of(age)) > _LOOK:  # at a time to come: the clock jumped
        with contextlib.suppress(Failed):  # a disk that is full keeps nobody from what signs show
            database.run("UPDATE tokens SET used_at = {clock} WHERE id = ?", number)
    return Holder(whole(number), str(name), str(user), Role.READER if reads_only else Role.of(str(role)))


def _refuse(database: Database, number: int, what: str, user: str) -> None:
    with database.transaction():
        if database.run("UPDATE tokens SET refused = 1 WHERE id = ? AND refused = 0 RETURNING id", number):
            note(database, user, what)
