"""What is old goes from the database into files, which can be read there.

    wisangub-control archive write --database WHERE --older-than 400d --to FILE    while workers run
    wisangub-control archive finish --database WHERE --from FILE   where that was interrupted
    wisangub-control archive read --from FILE [--kind KIND] [--sign NAME] [--find WORDS]
    wisangub-control archive check --from FILE

`write` has lines before each sign's present centre, readings, ended commands and the audit in a file of lines of JSON,
compressed, with their digest; once that is on the disk and was read back, they go from the database. `read` prints them
as they stand there, `check` counts them and has their digest, which the audit has too. KIND is audit, command, reading
or line. A time is a number of days (d), hours (h), minutes (min) or seconds (s).
"""

import argparse
import json
import pathlib
import re
import sys

from wisangub.refusal import Refusal, status_of

from . import options
from .output import print_line
from .store import archives, retention

_TIME = re.compile(r"(\d{1,9})(d|h|min|s)")
_UNITS = {"d": 86_400, "h": 3600, "min": 60, "s": 1}


def _age(word: str) -> int:
    """Seconds: the type of an option."""
    found = _TIME.fullmatch(word)
    if found is None:
        raise argparse.ArgumentTypeError(f"{word!r} is no time such as 400d or 12h")
    return int(found[1]) * _UNITS[found[2]]


def _arguments() -> argparse.ArgumentParser:
    parser = options.command_options(__doc__, "wisangub-control archive")
    parser.add_argument(
        "what",
        choices=("write", "finish", "read", "check"),
        help="write or finish an archive, read one, or check its digest",
    )
    options.add_database(parser, default="")
    parser.add_argument("--older-than", type=_age, metavar="TIME", help="what goes, such as 400d")
    parser.add_argument("--to", type=pathlib.Path, metavar="FILE", help="the new archive")
    parser.add_argument("--from", type=pathlib.Path, metavar="FILE", dest="source", help="an archive")
    parser.add_argument("--kind", choices=archives.KINDS, help="of rows; else all")
    parser.add_argument("--sign", metavar="NAME", help="rows of this sign")
    parser.add_argument("--find", default="", metavar="WORDS", help="rows in which these stand")
    return parser


def _write(asked: argparse.Namespace, who: str) -> None:
    with options.over("wisangub.room.archive", asked.database) as held:
        retention.write(held, asked.to, asked.older_than)
        found = retention.take_out(held, asked.to, who)
    print_line(f"{asked.to} has what was older, and the database no longer: {found.told()}")
    print_line(f"SHA-256 {found.digest.hexdigest()}")


def _finish(asked: argparse.Namespace, who: str) -> None:
    with options.over("wisangub.room.archive", asked.database) as held:
        found = retention.take_out(held, asked.source, who)
    print_line(f"the database no longer has what {asked.source} has: {found.told()}")


def _read(asked: argparse.Namespace) -> None:
    archives.list_checked(asked.source)
    names = archives.head_of(asked.source).signs
    if asked.sign is not None and asked.sign not in names.values():
        raise Refusal(f"{asked.source} has no sign {asked.sign}")
    for row in archives.rows(asked.source, (asked.kind,) if asked.kind else archives.KINDS):
        name = names.get(row.get("sign", 0))
        line = json.dumps({**row, "sign": name} if name else row, ensure_ascii=False)
        if asked.sign in (None, name) and asked.find.lower() in line.lower():
            print_line(line)


def main() -> int:
    parser = _arguments()
    asked = parser.parse_args()
    is_new = asked.what == "write"
    if is_new != bool(asked.to and asked.older_than is not None) or is_new == bool(asked.source):
        parser.error("write wants --older-than TIME and --to FILE, the others --from FILE")
    if (asked.what in ("write", "finish")) != bool(asked.database):
        parser.error("write and finish want --database WHERE, and no other does")
    who = f"{options.user()} at the machine"
    if is_new:
        _write(asked, who)
    elif asked.what == "finish":
        _finish(asked, who)
    elif asked.what == "read":
        _read(asked)
    else:
        found = archives.list_checked(asked.source)
        print_line(f"{found.told()}\nSHA-256 {found.digest.hexdigest()}")
    return 0


if __name__ == "__main__":
    sys.exit(status_of(main))
