"""Tokens of other systems: wisangub-control tokens --database WHERE  add NAME USER | list | end NUMBER

    add NAME USER       a token named NAME, in the name of USER and with his rights: it is printed, once
    list                number, user and name of each token that stands, since when, until when, and when last used
    end NUMBER          a token is good for nothing any more

A token is ended too by another password, role or state of its user. A change stands in the audit.
"""

import argparse
import datetime
import sys

from wisangub.refusal import Refusal, status_of

from . import options
from .output import print_line
from .store import tokens
from .store.tokens import Token


def _arguments() -> argparse.ArgumentParser:
    parser = options.command_options(__doc__, "wisangub-control tokens")
    options.add_database(parser)
    calls = parser.add_subparsers(dest="call", required=True, metavar="CALL")
    call = calls.add_parser("add")
    call.add_argument("name", metavar="NAME", help="what the token is for")
    call.add_argument("user", metavar="USER", help="whose token it is")
    call.add_argument("--reads-only", action="store_true", help="it asks for nothing")
    call.add_argument(
        "--days", type=int, default=tokens.DAYS, metavar="NUMBER", help=f"that it is good for; else {tokens.DAYS}"
    )
    calls.add_parser("list")
    call = calls.add_parser("end")
    call.add_argument("number", type=int, metavar="NUMBER", help="the token's number, as list has it")
    return parser


def _day(at: float) -> str:
    return datetime.datetime.fromtimestamp(at, datetime.timezone.utc).strftime("%Y-%m-%d")


def _line(token: Token) -> str:
    """A token in a line."""
    what = "reads" if token.reads_only else "reads and asks"
    used = "never used" if token.used is None else f"used {_day(token.used)}"
    return f"{token.id} {token.user} “{token.name}” {what}, {_day(token.made)} to {_day(token.until)}, {used}"


def main() -> int:
    asked = _arguments().parse_args()
    who = f"{options.user()} at the machine"
    with options.over("wisangub.room.tokens", asked.database) as held:
        if asked.call == "add":
            print_line(tokens.add(held, asked.name, asked.user, asked.reads_only, asked.days, who))
        elif asked.call == "list":
            for token in tokens.listed(held):
                print_line(_line(token))
        elif not tokens.end(held, asked.number, who):
            raise Refusal(f"there is no token {asked.number} that stands")
    return 0


if __name__ == "__main__":
    sys.exit(status_of(main))
