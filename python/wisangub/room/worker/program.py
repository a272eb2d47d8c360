"""A worker: drives the signs that have commands, and reads all: wisangub-control worker --fleet FILE --database WHERE

It leases a sign, has a centre carry on where the sign's lines left it, and lets it go when there is nothing to do. As
many workers as wanted stand over one database, with PostgreSQL on as many machines. It waits for a database that does
not answer. It ends at an interrupt or a SIGTERM; what was under way is carried on by the next one.
"""

import argparse
import sys

from wisangub.endpoint.sockets import Waiting
from wisangub.refusal import status_of
from wisangub.room import fleet, notices, options
from wisangub.room.fleet import Sign
from wisangub.room.output import print_line
from wisangub.room.store import database
from wisangub.room.store.store import Store
from wisangub.room.waits import waited

from .rounds import Pace, Worker

__all__ = ["Pace", "Worker"]


def _arguments() -> argparse.ArgumentParser:
    parser = options.command_options(__doc__, "wisangub-control worker")
    options.add_fleet(parser)
    options.add_database(parser, may_create=True)
    parser.add_argument("--tick", type=options.seconds, default=Pace.tick, metavar="SECONDS", help="from tick to tick")
    parser.add_argument(
        "--lease",
        type=options.seconds,
        default=Pace.lease,
        metavar="SECONDS",
        help="after which another worker goes on where this one fell silent",
    )
    words = f"lines of a centre after which an idle sign gets a new one; else {Pace.lines}"
    parser.add_argument("--centre-lines", type=int, default=Pace.lines, metavar="NUMBER", help=words)
    return parser


def work(
    where: str, program: str, signs: list[Sign], waiting: Waiting, told: str | None = None, pace: Pace = Pace()
) -> None:
    """A worker over a database that is there, until it is stopped. `told` is the file of who is told of alarms."""
    _work(where, False, program, signs, waiting, told, pace, "")


def _work(
    where: str,
    may_create: bool,
    program: str,
    signs: list[Sign],
    waiting: Waiting,
    told: str | None,
    pace: Pace,
    words: str,
) -> None:
    teller = None if told is None else notices.Notices(where, notices.read(told))

    def begun() -> Worker:
        store = Store(database.opened(where, may_create))
        beside = Store(database.opened(where))
        return Worker(store, store.signs.enter(signs), program, pace, waiting, beside)

    worker = waited(waiting, begun)
    if worker is not None:
        if words:
            print_line(words)
        if teller is not None:
            teller.start()
        worker.run()
        if teller is not None:
            teller.stop()
        worker.store.database.close()


def main() -> int:
    asked = _arguments().parse_args()
    options.need("wisangub.room.worker.program", asked.database)
    signs, waiting = fleet.read(asked.fleet), Waiting()
    fleet.tell_open(signs)
    pace = Pace(asked.tick, asked.lease, lines=asked.centre_lines, give_up=asked.give_up)
    words = f"a worker of {len(signs)} signs"
    _work(asked.database, asked.create, asked.signtool, signs, waiting, asked.alarms, pace, words)
    return 0


if __name__ == "__main__":
    sys.exit(status_of(main))
