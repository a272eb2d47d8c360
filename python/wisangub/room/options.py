"""What the commands of the control room have in common: their options, and a database that is closed as they end."""

import argparse
import contextlib
import getpass
import os
from typing import Iterator

from wisangub.process.places import SIGNTOOL, add_version, called
from wisangub.refusal import Refusal

from . import start
from .store import database
from .store.database import Database, Failed

_WHERE = "a file of SQLite, or postgresql://USER@HOST/NAME"
GIVE_UP = 600.0  # seconds
_CREATE = "make the database, where there is none: without it another name is no new database"


def command_options(words: str | None, command: str) -> argparse.ArgumentParser:
    """The options of a command, --version alone yet, and its help: the words of its module."""
    parser = argparse.ArgumentParser(
        prog=called(command), description=words, formatter_class=argparse.RawDescriptionHelpFormatter
    )
    add_version(parser, command)
    return parser


def add_database(parser: argparse.ArgumentParser, default: str | None = None, may_create: bool = False) -> None:
    """--database, which is asked for where it has no default; and --create."""
    parser.add_argument("--database", default=default, required=default is None, metavar="WHERE", help=_WHERE)
    if may_create:
        parser.add_argument("--create", action="store_true", help=_CREATE)


def add_fleet(parser: argparse.ArgumentParser) -> None:
    """--fleet, --signtool, and what is a worker's alone: --alarms and --give-up."""
    parser.add_argument("--fleet", required=True, metavar="FILE", help="the signs, as in signs/fleet.toml")
    parser.add_argument(
        "--signtool",
        default=str(SIGNTOOL),
        metavar="PATH",
        help="the program that the centres are and that draws pictures",
    )
    parser.add_argument("--alarms", metavar="FILE", help="who is told of alarms, by mail and webhooks")
    parser.add_argument(
        "--give-up",
        type=seconds,
        default=GIVE_UP,
        metavar="SECONDS",
        help=f"after which a command is given up whose turn does not come, as its sign stands still; else {GIVE_UP:g}",
    )


def need(program: str, where: str, *modules: str) -> None:
    """Goes on where this Python sees the modules, and psycopg where the database is PostgreSQL's."""
    start.needed(program, *modules, *(["psycopg"] if database.is_url(where) else []))


def check_without_worker(asked: argparse.Namespace) -> None:
    """Refuses what pages alone do nothing with: nobody would be told of an alarm, and nothing given up sooner."""
    for word, is_given in (("--alarms", asked.alarms is not None), ("--give-up", asked.give_up != GIVE_UP)):
        if is_given:
            raise Refusal(f"{word} is a worker's, and --no-worker begins none: give it to each wisangub-control worker")


@contextlib.contextmanager
def over(program: str, where: str, may_create: bool = False) -> Iterator[Database]:
    """A database as long as the block lasts. What fails of it is refused with status 1."""
    need(program, where)
    held = database.opened(where, may_create)
    try:
        yield held
    except Failed as fault:
        raise Refusal(f"the database: {fault}", 1) from fault
    finally:
        held.close()


def user() -> str:
    """Who this is at the machine; by a number, where that has no name for it, as in a container."""
    try:
        return getpass.getuser()
    except (KeyError, OSError, ImportError):
        return f"uid {os.getuid()}"


def seconds(word: str) -> float:
    """A time above 0: the type of an option."""
    found = float(word)
    if not 0 < found < float("inf"):
        raise ValueError
    return found
