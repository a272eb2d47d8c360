"""Asks for a command to a sign, and tells how it ended: wisangub-control command --database WHERE SIGN LINE

LINE is a command of a centre as in a script: `publish ..`, `blank ..`, `activate ..`; or `publish-text 3 1 "LANE
CLOSED[nl]1 KM" "me" 0 0 100 65535 255 192.0.2.1`, with its text and its owner as they are read. SIGN is the name of a
sign that a worker has entered. A worker carries it out after the sign's earlier ones. The exit status is 0 where it
ended accepted.
"""

import contextlib
import sys
import time

from wisangub.endpoint.endings import explained, is_in_error
from wisangub.endpoint.texts import published
from wisangub.refusal import Refusal, status_of
from wisangub.room.output import LOG, print_line
from wisangub.room.store.database import Failed
from wisangub.room.store.store import Store
from wisangub.room.worker.session import is_command

from . import options
from .store import database

LOOK = 0.1  # seconds from one look for the end to the next
_PATIENCE = 3.0  # seconds that are waited for what a sign says of its row


def _line_of(words: str) -> str:
    """The centre's line for an operator's."""
    line = published(words) if words.split(" ")[0] == "publish-text" else words
    if not is_command(line):
        raise Refusal("bad line: a command is a line publish-text .., publish .., blank .. or activate ..")
    return line


def waited(store: Store, command: int, wait: float) -> str | None:
    """How the command ended; None where it did not in time, or the database did not say so."""
    ends = time.monotonic() + wait
    while True:
        with contextlib.suppress(Failed):  # it goes on while the database's server starts again
            if (how := store.commands.how(command)) is not None:
                return how
        if time.monotonic() >= ends:
            return None
        time.sleep(LOOK)


def explain(store: Store, command: int, how: str) -> None:
    """Says of a command that failed at which step that was, and what the sign said of it or what may be the cause."""
    said, ends = "", time.monotonic() + _PATIENCE
    with contextlib.suppress(Failed):
        while is_in_error(how) and not (said := store.commands.why(command)) and time.monotonic() < ends:
            time.sleep(LOOK)
        if words := explained(how, store.commands.address(command), said):
            LOG.warning(words)


def main() -> int:
    parser = options.command_options(__doc__, "wisangub-control command")
    options.add_database(parser)
    parser.add_argument("--who", default=options.user(), metavar="NAME", help="who asks; else the user")
    parser.add_argument(
        "--wait", type=options.seconds, default=120.0, metavar="SECONDS", help="how long its end is waited for"
    )
    parser.add_argument("sign", metavar="SIGN", help="the sign's name in the fleet")
    parser.add_argument("line", metavar="LINE", help="a line of a live centre, or publish-text ..")
    asked = parser.parse_args()
    options.need("wisangub.room.command", asked.database)
    line = _line_of(asked.line)
    store = Store(database.opened(asked.database, may_create=False))
    try:
        command = store.commands.ask(store.signs.row_of(asked.sign), asked.who, line)
    except Failed as fault:
        raise Refusal(f"the database: {fault}: whether it was asked for is not known", 1) from fault
    how = waited(store, command, asked.wait)
    print_line(how if how is not None else f"command {command} has not ended after {asked.wait:g} seconds; it goes on")
    if how is not None:
        explain(store, command, how)
    return 0 if how == "accepted" else 1


if __name__ == "__main__":
    sys.exit(status_of(main))
