"""Who may do what: wisangub-control users --database WHERE  add NAME ROLE | role NAME ROLE | ..

    add NAME ROLE       a user: reader, operator or administrator; the password is asked for, or a line of the input
    password NAME       another password
    role NAME ROLE      another role
    disable NAME        may no more log in; enable NAME undoes it
    one-factor NAME     no code is asked for any more at a log-in; with his password the user may have another one
    unlock NAME         failed log-ins are forgotten, so that who logs in as NAME waits no more, wherever others failed
    list                the users

A change ends what the user is logged in with, and stands in the audit.
"""

import argparse
import getpass
import sys

from wisangub.refusal import Refusal, status_of

from . import options
from .output import print_line
from .store import factors, logins, users
from .store.database import Database


def asked_password() -> str:
    """Twice from the terminal, or the line of standard input."""
    if not sys.stdin.isatty():
        return sys.stdin.readline().rstrip("\r\n")
    try:
        first = getpass.getpass("Password: ")
        if getpass.getpass("Again: ") != first:
            raise Refusal("these are two passwords")
    except (EOFError, UnicodeError):
        raise Refusal("no password was given") from None
    return first


def _arguments() -> argparse.ArgumentParser:
    parser = options.command_options(__doc__, "wisangub-control users")
    options.add_database(parser, may_create=True)
    calls = parser.add_subparsers(dest="call", required=True, metavar="CALL")
    for name, wanted in (
        ("add", 2),
        ("password", 1),
        ("role", 2),
        ("disable", 1),
        ("enable", 1),
        ("one-factor", 1),
        ("unlock", 1),
        ("list", 0),
    ):
        call = calls.add_parser(name)
        if wanted:
            call.add_argument("name", metavar="NAME", help="the user's name")
        if wanted == 2:
            call.add_argument("role", metavar="ROLE", help="reader, operator or administrator")
    return parser


def _done(asked: argparse.Namespace, database: Database) -> None:
    """Does what was asked for."""
    who = f"{options.user()} at the machine"
    if asked.call == "list":
        for user in users.users(database):
            print_line(
                f"{user.name} {user.role.word}{' disabled' * user.is_disabled}{' with a code' * user.has_factor}"
            )
    elif asked.call == "add":
        users.add(database, asked.name, users.Role.of(asked.role), asked_password(), who)
    elif asked.call == "one-factor":
        factors.remove(database, asked.name, who)
    elif asked.call == "unlock":
        logins.unlock(database, asked.name, who)
    elif asked.call == "password":
        users.change_password(database, asked.name, asked_password(), who)
    elif asked.call == "role":
        users.change_role(database, asked.name, users.Role.of(asked.role), who)
    else:
        users.disable(database, asked.name, asked.call == "disable", who)


def main() -> int:
    asked = _arguments().parse_args()
    with options.over("wisangub.room.users", asked.database, asked.create) as held:
        _done(asked, held)
    return 0


if __name__ == "__main__":
    sys.exit(status_of(main))
