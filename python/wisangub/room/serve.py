"""The control room: pages and a worker, a process each: wisangub-control --fleet FLEET.toml

    [--database room.sqlite | postgresql://USER@HOST/NAME] [--create] [--listen 127.0.0.1:8080] [--behind-tls]
    [--plain-http] [--idle MINUTES] [--zone NAME] [--access-log FILE]
    [--archives FOLDER] [--alarms FILE] [--give-up SECONDS] [--no-worker]

It ends at an interrupt or a SIGTERM. The first user is made by `wisangub-control users --database .. --create add NAME
administrator`, and the database with it. Further workers may stand beside it: wisangub-control worker. To look at it
first: wisangub-control demo, with three signs on this machine. Beside these there are wisangub-control command, tokens,
signs, backup and archive; each has --help.
"""

import argparse
import sys

from wisangub.endpoint.sockets import Waiting, host_and_port
from wisangub.process.places import called
from wisangub.refusal import Refusal, status_of
from wisangub.room.output import print_line

from . import beside, fleet, options
from .addresses import is_this_machine
from .fleet import Sign
from .store import database
from .waits import waited
from .worker.program import Pace, work

LISTEN = "127.0.0.1:8080"


def arguments() -> argparse.ArgumentParser:
    parser = options.command_options(__doc__, "wisangub-control")
    options.add_fleet(parser)
    options.add_database(parser, "room.sqlite", may_create=True)
    parser.add_argument("--listen", default=LISTEN, metavar="HOST:PORT", help=f"where the pages are; else {LISTEN}")
    parser.add_argument(
        "--behind-tls",
        action="store_true",
        help="a proxy on this machine ends TLS: cookies are Secure, and its X-Forwarded-For is believed",
    )
    parser.add_argument(
        "--plain-http", action="store_true", help="let other machines reach the pages without TLS, where a net is safe"
    )
    parser.add_argument(
        "--idle",
        type=options.seconds,
        default=30.0,
        metavar="MINUTES",
        help="after which a log-in ends by which nothing is asked for; else 30",
    )
    parser.add_argument(
        "--zone",
        metavar="NAME",
        help="the zone that times are shown in, and that schedules are made in; else the machine's",
    )
    parser.add_argument("--access-log", metavar="FILE", help="a line of JSON for each request is appended to it")
    parser.add_argument("--archives", metavar="FOLDER", help="of archives that administrators see on pages")
    parser.add_argument("--no-worker", action="store_true", help="pages alone; workers are other processes")
    parser.add_argument("--beside", type=int, help=argparse.SUPPRESS)  # a socket to the worker that began the pages
    return parser


def main() -> int:
    asked = arguments().parse_args()
    options.need("wisangub.room.serve", asked.database, "aiohttp", "jinja2")
    host, _ = host_and_port(asked.listen)
    if not (asked.behind_tls or asked.plain_http or is_this_machine(host)):
        raise Refusal(
            f"{asked.listen}: other machines reach it, and passwords would go there in the clear: --behind-tls where a"
            " proxy on this machine ends TLS, or --plain-http"
        )
    if asked.no_worker and asked.beside is None:
        options.check_without_worker(asked)
    signs, waiting = fleet.read(asked.fleet), Waiting()
    return _pages(asked, signs, waiting) if asked.no_worker else _both(asked, signs, waiting)


def _pages(asked: argparse.Namespace, signs: list[Sign], waiting: Waiting) -> int:
    """The pages, until they are stopped, or the worker beside them is no more."""
    from wisangub.room.store.users import users
    from wisangub.room.web.settings import Settings, zone_of

    from .service import Pages  # aiohttp is there from here on

    fleet.tell_open(signs)
    settings = Settings(
        asked.database,
        asked.signtool,
        asked.behind_tls,
        zone_of(asked.zone),
        idle=60 * asked.idle,
        access_log=asked.access_log,
        archives=asked.archives,
    )
    pages = Pages(settings, signs, *host_and_port(asked.listen))
    worker = None if asked.beside is None else beside.Other.of(asked.beside)

    def begun() -> bool:
        held = database.opened(asked.database, asked.create)
        has_users = bool(users(held))
        held.close()
        pages.start()
        return has_users

    has_users = waited(waiting, begun)
    if has_users is None:
        return 0
    if not has_users:
        print_line(f"there is no user yet: {called('wisangub-control users')} --database .. add NAME administrator")
    print_line(f"the control room of {len(signs)} signs is at {pages.address}")
    if asked.zone is None:
        print_line(f"times are those of {settings.zone}, this machine's zone: --zone names another")
    if worker is not None:
        worker.stands()
    try:
        while not waiting.is_stopped:
            waiting.until([], None)
    finally:
        pages.stop()
    return 0


def _both(asked: argparse.Namespace, signs: list[Sign], waiting: Waiting) -> int:
    """A worker in this process, and the pages in one of their own: nothing that they do holds the worker."""
    with beside.begun("wisangub.room.serve", [*sys.argv[1:], "--no-worker"]) as pages:
        if pages.is_standing(waiting):
            work(asked.database, asked.signtool, signs, waiting, asked.alarms, Pace(give_up=asked.give_up))
        return pages.status(waiting)


if __name__ == "__main__":
    sys.exit(status_of(main))
