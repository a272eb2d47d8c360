"""Log-ins in the database: how long one waits after those that failed, which stand, and when they end."""

import contextlib
import hashlib
import ipaddress
import secrets
from dataclasses import dataclass

from wisangub.refusal import Refusal

from .audit import note
from .connection import Database, Failed
from .users import Role, check_secret
from .values import SLACK, time_of, whole

LASTS = 12 * 3600  # seconds of a log-in: a shift
IDLE = 1800.0  # seconds after which a log-in ends by which nothing is asked for
_LOOK = 60.0  # seconds within which it is not written down again that something was
KEY = 16  # digits of what names a log-in on a page
FREE = 3  # log-ins that may fail before the next one has to wait
_FIRST_WAIT, _MOST_WAIT = 2.0, 300.0  # seconds, doubled by each further one that fails
FREE_NAMES = 10  # names that may fail from one address before others wait there too
_MOST_WAIT_THERE = 60.0  # seconds of that at most: who shares an address with a stranger gets in
_KNOWN = 30 * 86_400  # seconds that who logged in from an address waits for no other name there
_LET_IN = 3600.0  # seconds that who was let in by an administrator does so
NOBODY = "-"  # in the audit, of a name that is no user's
_KEPT = 86_400  # seconds that a failed log-in is kept
MOST_FAILED = 10_000  # failed log-ins that are kept, whatever strangers do


@dataclass(frozen=True)
class Visitor:
    """Who asks: a user by a log-in."""

    name: str
    role: Role
    login: str

    @property
    def may_command(self) -> bool:
        return self.role >= Role.OPERATOR

    @property
    def may_administer(self) -> bool:
        return self.role >= Role.ADMINISTRATOR


def _hidden(word: str) -> str:
    """The digest of what is not to be read in the database."""
    return hashlib.sha256(word.encode()).hexdigest()


def wait_after(failed: int) -> float:
    """Seconds from a failed log-in to the next one that is looked at, after so many that failed: of one name from one
    address, so that nobody else waits for them."""
    return 0.0 if failed < FREE else min(_MOST_WAIT, _FIRST_WAIT * 2.0 ** min(failed - FREE, 16))


def wait_there(names: int) -> float:
    """Seconds from a failed log-in to the next one that is looked at, where so many names failed from one address."""
    return 0.0 if names < FREE_NAMES else min(_MOST_WAIT_THERE, _FIRST_WAIT * 2.0 ** min(names - FREE_NAMES, 16))


def network_of(address: str) -> str:
    """What is one machine's: its address, or of IPv6 the 64 bits that it can choose the rest of."""
    try:
        found = ipaddress.ip_address(address.partition("%")[0])
    except ValueError:
        return address
    if isinstance(found, ipaddress.IPv4Address):
        return str(found)
    return str(found.ipv4_mapped or ipaddress.IPv6Network((found, 64), strict=False))


def attempt(database: Database, name: str, address: str) -> float:
    """Seconds to wait before a password is looked at; 0 where it may be, and then the attempt counts as failed until a
    log-in begins. Each is counted before its password is looked at, so that many at once are no way around. The first
    refusal after one that failed stands in the audit."""
    with database.transaction(is_alone=True):
        database.run(
            "DELETE FROM failed_logins WHERE at < {clock} - ? OR at > {clock} + ?"  # the clock jumped
            " OR id <= (SELECT max(id) FROM failed_logins) - ?",
            _KEPT,
            SLACK,
            MOST_FAILED - 1,
        )
        if left := _left_of_name(database, name, address) or _left_of_address(database, name, address):
            return left
        database.run(
            "INSERT INTO failed_logins (at, name, address, network) VALUES ({clock}, ?, ?, ?)",
            _hidden(name),
            address,
            network_of(address),
        )
        return 0.0


def _left_of_name(database: Database, name: str, address: str) -> float:
    """Seconds that this name still waits at this address, since it failed there or, of IPv6, at another one that the
    same machine can choose."""
    failed, last, newest, now = database.run(
        "SELECT count(*), max(at), max(id), {clock} FROM failed_logins WHERE name = ? AND network = ?",
        _hidden(name),
        network_of(address),
    )[0]
    left = 0.0 if last is None else time_of(last) + wait_after(whole(failed)) - time_of(now)
    if left > 0:
        _refuse(database, name, whole(newest), f"{whole(failed)} failed, from {address}")
    return max(0.0, left)


def _left_of_address(database: Database, name: str, address: str) -> float:
    """Seconds that all still wait at this address, since many names failed there; but for those who logged in from
    it before, or whom an administrator let in."""
    names, last, newest, now = database.run(
        "SELECT count(DISTINCT name), max(at), max(id), {clock} FROM failed_logins WHERE network = ?",
        network_of(address),
    )[0]
    left = 0.0 if last is None else time_of(last) + wait_there(whole(names)) - time_of(now)
    if left <= 0 or _is_known(database, name, address):
        return 0.0
    _refuse(database, name, whole(newest), f"{whole(names)} names failed, from {address}")
    return left


def _is_known(database: Database, name: str, address: str) -> bool:
    """Whether somebody of this name logged in from this address not long ago, or was let in on the machine."""
    lately = "BETWEEN {clock} - ? AND {clock} + ?"
    return bool(
        database.run(
            f"SELECT 1 FROM logins WHERE name = ? AND address = ? AND begun {lately} LIMIT 1",
            name,
            address,
            _KNOWN,
            SLACK,
        )
        or database.run(f"SELECT 1 FROM users WHERE name = ? AND unlocked {lately}", name, _LET_IN, SLACK)
    )


def _refuse(database: Database, name: str, newest: int, words: str) -> None:
    """The audit of a refusal; a name that is nobody's may be a password, and is not kept."""
    if database.run("UPDATE failed_logins SET refused = 1 WHERE id = ? AND refused = 0 RETURNING id", newest):
        note(database, name if _is_user(database, name) else NOBODY, f"a log-in is refused for a while, since {words}")


def _is_user(database: Database, name: str) -> bool:
    return bool(database.run("SELECT name FROM users WHERE name = ?", name))


def failed(database: Database, name: str, address: str, what: str = "a log-in failed") -> None:
    """The audit of a wrong password, where the name is somebody's."""
    if _is_user(database, name):
        note(database, name, f"{what}, from {address}")


def forgive(database: Database, name: str, address: str | None = None) -> None:
    """Forgets the failed log-ins of a name, from one address or from all."""
    where, values = ("", []) if address is None else (" AND network = ?", [network_of(address)])
    database.run(f"DELETE FROM failed_logins WHERE name = ?{where}", _hidden(name), *values)


def unlock(database: Database, name: str, who: str) -> None:
    """Has nobody wait any more who logs in under this name, for a while not even where other names failed; it stands
    in the audit."""
    with database.transaction():
        if not database.run("UPDATE users SET unlocked = {clock} WHERE name = ? RETURNING name", name):
            raise Refusal(f"there is no user {name}")
        forgive(database, name)
        note(database, who, f"failed log-ins of user {name} are forgotten")


def begin(database: Database, name: str, address: str, secret: str | None = None) -> str:
    """A log-in: what its cookie says. The user's failed ones from this address are forgotten. Refused where the user no
    longer has the secret by which his password was found right: with another one all log-ins have ended."""
    made = secrets.token_urlsafe(24)
    with database.transaction(is_alone=True):
        check_secret(database, name, secret)
        forgive(database, name, address)
        database.run(
            "INSERT INTO logins (id, name, address, begun) VALUES (?, ?, ?, {clock})", _hidden(made), name, address
        )
        note(database, name, f"logged in, from {address}")
    return made


_STANDS = (
    "logins.ended IS NULL AND logins.begun > {clock} - ? AND logins.begun <= {clock} + ?"
    " AND COALESCE(logins.seen, logins.begun) > {clock} - ? AND COALESCE(logins.seen, logins.begun) <= {clock} + ?"
)  # one that begins, or was seen, at a time to come has ended: the clock jumped


def _limits(idle: float) -> tuple[float, float, float, float]:
    """The values of what says that a log-in stands."""
    return LASTS, SLACK, idle, SLACK


def find(database: Database, cookie: str, idle: float = IDLE, is_asked: bool = False) -> Visitor | None:
    """Who a cookie is of, where its log-in has not ended, and something was asked for by it within so many seconds.
    `is_asked`: somebody asks for something now, and it is no page that asks by itself."""
    rows = database.run(
        "SELECT users.name, users.role, {clock} - COALESCE(logins.seen, logins.begun)"
        f" FROM logins JOIN users ON users.name = logins.name WHERE logins.id = ? AND {_STANDS} AND users.disabled = 0",
        _hidden(cookie),
        *_limits(idle),
    )
    if not rows:
        return None
    if is_asked and time_of(rows[0][2]) > min(_LOOK, idle / 10):
        with contextlib.suppress(Failed):  # a disk that is full keeps nobody from what signs show
            database.run("UPDATE logins SET seen = {clock} WHERE id = ? AND ended IS NULL", _hidden(cookie))
    return Visitor(str(rows[0][0]), Role.of(str(rows[0][1])), cookie)


@dataclass(frozen=True)
class Login:
    """A log-in that stands: `key` names it on a page, and is good for nothing else."""

    key: str
    address: str
    begun: float
    seen: float
    is_own: bool


def standing(database: Database, visitor: Visitor, idle: float = IDLE) -> list[Login]:
    """The log-ins of who asks, the newest first."""
    own = _hidden(visitor.login)
    rows = database.run(
        "SELECT id, address, begun, COALESCE(seen, begun) FROM logins"
        f" WHERE name = ? AND {_STANDS} ORDER BY begun DESC",
        visitor.name,
        *_limits(idle),
    )
    return [
        Login(str(key)[:KEY], str(address), time_of(begun), time_of(seen), key == own)
        for key, address, begun, seen in rows
    ]


def end_one(database: Database, visitor: Visitor, key: str) -> None:
    """Ends one of the visitor's log-ins; it stands in the audit. One that has ended is let be."""
    with database.transaction():
        rows = database.run(
            f"UPDATE logins SET ended = {{clock}} WHERE name = ? AND substr(id, 1, {KEY}) = ? AND ended IS NULL"
            " RETURNING address",
            visitor.name,
            key,
        )
        for row in rows:
            note(database, visitor.name, f"ended a log-in from {row[0]}")


def end(database: Database, visitor: Visitor) -> None:
    """Logs out."""
    with database.transaction():
        database.run("UPDATE logins SET ended = {clock} WHERE id = ? AND ended IS NULL", _hidden(visitor.login))
        note(database, visitor.name, "logged out")
