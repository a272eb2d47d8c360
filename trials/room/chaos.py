"""A fleet in trouble: python3 -m trials.room.chaos [--signs N] [--commands N] [--workers N] [--database KIND] ..

Signs on loopback, where one datagram in ten is lost, late or doubled; commands to them; workers, each a process, of
which some are killed, or stopped for longer than their lease while others go on; a service whose pages are asked for,
many at a time, and which is killed now and then, with programs over the database that end beside it; plans that begin
and end by schedules and by hand; signs whose brightness is set; a server of webhooks that is told of alarms, and
refuses some; and a server of PostgreSQL of its own, which crashes and is started again. At the end every command has
ended, and all datagrams that came to a sign, what it accepted, its lines and its ledger, each time that a plan was on
and that its brightness was set, and who was told of what are looked at. The seed decides the commands, the fate of each
datagram, and after how many lines who is killed or stopped and the server crashes; not how fast the machine is.
"""

import argparse
import contextlib
import os
import pathlib
import random
import signal
import sys
import tempfile
import time
from dataclasses import dataclass
from typing import Iterator

from wisangub.process.places import SIGNTOOL, TOP
from wisangub.refusal import Refusal, status_of
from wisangub.room import fleet, start
from wisangub.room.store import database
from wisangub.room.store.database import Failed
from wisangub.room.store.store import Store
from wisangub.room.store.values import whole

from .beside import enter
from .chaos_archives import put_back
from .chaos_beside import Beside
from .chaos_brightness import Dimming, look_at_brightness, objects
from .chaos_checks import Outcome, look_at
from .chaos_place import KINDS, Place, placed
from .chaos_plans import Plans, look_at_plans
from .chaos_targets import Target, look_at_alarms
from .chaos_workers import Workers
from .loopback import Fates, Loopback

TEXTS = ("FOG", "ROAD WORK", "LANE[nl]CLOSED", "[fo2]SLOW", "[fo9]NO FONT")
DESCRIPTION = TOP / "signs/roadside.sign"
PORTIONS = 20  # in which the commands are asked for
LOOK = 0.2
SHORT = ("--centre-lines", "40")  # so that there are lines before the present centre, for archives


@dataclass
class Asked:
    """The options."""

    signs: int
    commands: int
    workers: int
    seconds: float
    seed: int
    tick: float
    lease: float
    troubles: int | None
    database: str
    signtool: str


def command(chance: random.Random) -> str:
    """What an operator asks for."""
    if chance.random() < 0.25:
        return f"blank {chance.randint(0, 4)} 65535 255 192.0.2.1"
    row, words = f"{chance.choice((3, 4))} {chance.randint(1, 3)}", chance.choice(TEXTS).encode().hex()
    return f"publish {row} {words} - 0 0 1 65535 {chance.choice((50, 255))} 192.0.2.1"


def count(store: Store, rows: str) -> int:
    """How many rows there are."""
    return whole(store.database.run(f"SELECT count(*) FROM {rows}")[0][0])


@contextlib.contextmanager
def opened(where: str) -> Iterator[Store]:
    """A connection, as long as the block."""
    store = Store(database.opened(where))
    try:
        yield store
    finally:
        store.database.close()


class Run:
    """The commands, and the trouble meanwhile."""

    def __init__(
        self,
        asked: Asked,
        rows: dict[int, fleet.Sign],
        workers: Workers,
        place: Place,
        plans: Plans,
        target: Target,
        dimming: Dimming,
    ) -> None:
        self.asked, self.workers, self.place, self.plans, self.target = asked, workers, place, plans, target
        self.chance = random.Random(asked.seed)
        self.dimming = dimming
        self.to_ask = [(self.chance.choice(sorted(rows)), command(self.chance)) for _ in range(asked.commands)]
        self.every = max(5, asked.commands // 8)  # lines from one trouble to the next at least
        self.due = self.chance.randint(self.every, 4 * self.every)
        self.crash_at = self.chance.randint(2 * asked.commands, 6 * asked.commands)  # lines
        self.lines = 0

    def carried(self) -> None:
        """Until all commands have ended, or the time is over. Each look has a connection of its own, since one that
        stood would keep SQLite's log where it is, whatever the others do."""
        ends = time.monotonic() + self.asked.seconds
        while time.monotonic() < ends:
            with contextlib.suppress(Failed, Refusal):  # the server is starting: what was asked is asked again
                with opened(self.place.where) as self.store:
                    if not self.step():
                        return
            time.sleep(LOOK)

    def step(self) -> bool:
        """A portion of the commands, and the trouble that is due; False where all has ended."""
        for _ in range(min(len(self.to_ask), max(1, self.asked.commands // PORTIONS))):
            row, line = self.to_ask[-1]
            self.store.commands.ask(row, "chaos", line)
            self.to_ask.pop()
        self.workers.wake()
        self.target.step(self.store, self.chance)
        self.dimming.step(self.store)
        self.lines = count(self.store, "lines")
        troubles = self.workers.killed + self.workers.paused
        if self.lines >= self.due and self.asked.workers and troubles < (self.asked.troubles or self.lines):
            self.workers.trouble(self.chance)
            self.due = self.lines + self.chance.randint(self.every, 4 * self.every)
        if self.lines >= self.crash_at and not self.place.restarts:
            self.place.restart()
            self.workers.refill()
        if self.to_ask:
            self.plans.step(self.store)
            return True
        return not self.plans.is_over(self.store) or bool(count(self.store, "commands WHERE outcome IS NULL"))


def run(asked: Asked, folder: pathlib.Path, place: Place) -> Outcome:
    """A run, and all that is looked at after it."""
    names = [f"sign {at}" for at in range(asked.signs)]
    loopback = Loopback(
        asked.signtool, {name: DESCRIPTION.read_bytes() for name in names}, Fates(asked.seed), asked.tick
    )
    for live in loopback.signs:
        live.process.hand(objects())
    (folder / "fleet.toml").write_text(
        "".join(
            f'[[sign]]\nname = "{live.name}"\naddress = "127.0.0.1:{live.port}"\ndescription = "{DESCRIPTION}"\n'
            f"poll = {max(2, asked.signs // 20)}\n"
            for live in loopback.signs
        )
    )
    with opened(place.where) as store:
        rows = store.signs.enter(fleet.read(folder / "fleet.toml"))
    enter(place.where)
    target, plans = Target(asked.seed), Plans(sorted(rows), random.Random(asked.seed))
    dimming = Dimming(sorted(rows), random.Random(asked.seed))
    told_by = ("--alarms", target.file(folder))
    workers = Workers(asked.workers, folder, place.where, asked.signtool, asked.tick, asked.lease, (*SHORT, *told_by))
    beside = Beside(folder / "fleet.toml", place.where, asked.signtool, names[0], told_by)
    found = Outcome()
    loopback.start()
    begun = time.monotonic()
    try:
        with opened(place.where) as store:
            plans.enter(store)
            dimming.enter(store)
        going(Run(asked, rows, workers, place, plans, target, dimming), beside)
    finally:
        seconds = time.monotonic() - begun
        beside.end()
        found.holds("every worker that was not killed ended well", {0, -signal.SIGTERM}.issuperset(workers.end()))
        loopback.end()
        target.end()
    found.holds("the server crashed once", place.server is None or place.restarts == 1)
    found.holds(f"what stood beside the workers: {beside.faults[:3]}", not beside.faults)
    lives = {live.name: live for live in loopback.signs}
    with opened(place.where) as store:
        taken = put_back(store, beside.archives)
        found.holds("every command ended", not count(store, "commands WHERE outcome IS NULL"))
        for row, sign in rows.items():
            look_at(found, store, row, sign, lives[sign.name])
        sets = sum(look_at_brightness(found, store, row, lives[sign.name]) for row, sign in rows.items())
        print(
            f"{look_at_plans(found, store, plans)}; {look_at_alarms(found, store, target)}; {sets} Sets of brightness"
        )
        told(store, loopback, workers, place, seconds)
    print(f"{beside.told()}; {taken} rows were in archives")
    return found


def going(run: Run, beside: Beside) -> None:
    """The commands of the run, and then those that a program beside it asked for."""
    run.workers.fill()
    beside.start()
    run.carried()
    beside.end()
    run.carried()


def told(store: Store, loopback: Loopback, workers: Workers, place: Place, seconds: float) -> None:
    """The numbers of a run."""
    for how, times in store.database.run("SELECT outcome, count(*) FROM commands GROUP BY outcome ORDER BY 2 DESC"):
        print(f"{times} commands: {how}")
    lines, datagrams = count(store, "lines"), sum(len(live.requests) for live in loopback.signs)
    accepted = sum(len(live.accepted) for live in loopback.signs)
    print(
        f"{datagrams} datagrams to signs, {lines} lines, {accepted} acceptances, {count(store, 'ledger')} entries of"
        f" ledgers, {count(store, 'readings')} readings and {count(store, 'messages')} rows of tables kept"
    )
    print(
        f"{workers.killed} workers killed, {workers.paused} stopped past their lease, {workers.gave_up} ended as there"
        f" was no database, {place.restarts} crashes of the server"
    )
    print(f"{seconds:.0f} seconds, load {os.getloadavg()[0]:.1f}")


def arguments() -> argparse.ArgumentParser:
    parser = argparse.ArgumentParser(
        prog="python3 -m trials.room.chaos",
        description=__doc__,
        formatter_class=argparse.RawDescriptionHelpFormatter,
    )
    parser.add_argument("--signs", type=int, default=10, metavar="N", help="how many signs")
    parser.add_argument("--commands", type=int, default=40, metavar="N", help="how many commands are asked for")
    parser.add_argument("--workers", type=int, default=1, metavar="N", help="that go at a time, beside the service")
    parser.add_argument("--seconds", type=float, default=300, metavar="N", help="that the commands have to end")
    parser.add_argument("--seed", type=int, default=1, metavar="N", help="of commands, fates of datagrams and kills")
    parser.add_argument("--tick", type=float, default=0.2, metavar="SECONDS", help="from tick to tick, of all")
    parser.add_argument("--lease", type=float, default=2.0, metavar="SECONDS", help="of a worker")
    parser.add_argument("--troubles", type=int, metavar="N", help="workers killed or stopped at most; else no end")
    parser.add_argument("--database", choices=KINDS, default=KINDS[0], help="the kind of the database")
    parser.add_argument(
        "--signtool", default=str(SIGNTOOL), metavar="PATH", help="the program that the signs and their centres are"
    )
    return parser


def main() -> int:
    parser = arguments()
    asked = Asked(**vars(parser.parse_args()))
    if min(asked.signs, asked.commands, asked.workers + 1) < 1:
        parser.error("signs and commands are 1 or more, workers 0 or more")
    start.needed("trials.room.chaos", "aiohttp", "jinja2", *(["psycopg"] if asked.database == "postgresql" else []))
    signal.signal(signal.SIGTERM, lambda *_: sys.exit(143))  # so that nothing is left of it
    with tempfile.TemporaryDirectory(prefix="chaos-") as folder, placed(asked.database, pathlib.Path(folder)) as place:
        found = run(asked, pathlib.Path(folder), place)
        if found.failed:
            for path in (pathlib.Path(folder) / name for name in ("workers", "service")):
                print(path.read_text(errors="replace")[-4000:] if path.exists() else "")
    for name in found.failed[:50]:
        print(f"does not hold: {name}")
    print(f"{found.passed} passed, {len(found.failed)} failed")
    return 1 if found.failed else 0


if __name__ == "__main__":
    sys.exit(status_of(main))
