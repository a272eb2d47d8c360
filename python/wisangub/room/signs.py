"""The signs of the database: wisangub-control signs --database WHERE  list | rename OLD NEW

    list                each sign's name and address
    rename OLD NEW      another name, for a sign that has another one in the fleet: it keeps its numbers, its lines and
                        its ledger

A sign is told by its name. A worker that begins with another name for it finds the address taken, and does not begin.
Workers that go on meanwhile drive the sign under the name that they began with. A change stands in the audit.
"""

import argparse
import sys

from wisangub.refusal import status_of
from wisangub.room.output import print_line
from wisangub.room.store.store import Store

from . import options


def _arguments() -> argparse.ArgumentParser:
    parser = options.command_options(__doc__, "wisangub-control signs")
    options.add_database(parser)
    calls = parser.add_subparsers(dest="call", required=True, metavar="CALL")
    calls.add_parser("list")
    call = calls.add_parser("rename")
    call.add_argument("old", metavar="OLD", help="the name that the database has")
    call.add_argument("new", metavar="NEW", help="the name that the fleet has")
    return parser


def main() -> int:
    asked = _arguments().parse_args()
    with options.over("wisangub.room.signs", asked.database) as held:
        signs = Store(held).signs
        if asked.call == "rename":
            signs.rename(asked.old, asked.new, f"{options.user()} at the machine")
        else:
            for name, address in signs.all():
                print_line(f"{name} {address}")
    return 0


if __name__ == "__main__":
    sys.exit(status_of(main))
