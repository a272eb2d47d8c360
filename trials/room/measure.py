"""What the control room does in a second: python3 -m trials.room.measure [--signs N] [--commands N] [--workers N] ..

Proved signs on loopback without trouble; workers, each a process, over a database of their own; and publications, all
asked for at once or so many a second. It prints how many ended a second, how long each took from the asking to its end,
how old what is known of a sign became, how long a co-process takes to begin, and the processor's time and the memory of
the workers with their co-processes and of the database's server, without the signs. With --idle it is watched first as
long as is said while nobody asks for anything. Of PostgreSQL it says what the server counts, which does not hang on how
fast the machine is.
"""

import argparse
import os
import pathlib
import signal
import statistics
import sys
import tempfile
import time
from dataclasses import dataclass

from wisangub.process.coprocess import CoProcess
from wisangub.process.places import SIGNTOOL, TOP
from wisangub.refusal import status_of
from wisangub.room import fleet, start
from wisangub.room.store import database
from wisangub.room.store.store import Store
from wisangub.room.store.values import whole

from .chaos_place import KINDS, Place, placed
from .chaos_workers import Workers
from .loopback import Fates, Loopback
from .statements import LIBRARY, Counts, counted
from .usage import Group, children, pinned

DESCRIPTION = TOP / "signs/roadside.sign"
LOOK, LOOK_AT_MEMORY = 0.1, 0.5
START = 300.0  # seconds that the first readings of all signs may take
BEGINNINGS = 50  # co-processes that are begun one after the other


@dataclass
class Asked:
    """The options."""

    signs: int
    commands: int
    workers: int
    rate: float
    poll: float
    seconds: float
    hold: float
    idle: float
    tick: float
    is_pinned: bool
    objects: pathlib.Path | None
    database: str
    signtool: str


def publication(at: int) -> str:
    """A text of its own for each."""
    return f"publish 3 1 {f'MESSAGE {at}'.encode().hex()} - 0 0 1 65535 255 192.0.2.1"


def count(store: Store, rows: str) -> int:
    return whole(store.database.run(f"SELECT count(*) FROM {rows}")[0][0])


def begun_once(store: Store, rows: list[int]) -> None:
    """Waits until each sign was read and had a command, so that what is measured is the work that goes on."""
    with store.database.transaction():
        store.database.run_all(
            "INSERT INTO commands (sign, who, asked_at, line) VALUES (?, 'before', {clock}, ?)",
            [(row, "blank 1 65535 255 192.0.2.1") for row in rows],
        )
    ends = time.monotonic() + START
    while (
        count(store, "commands WHERE outcome IS NULL")
        or count(store, "messages") < len(rows)
        or count(store, "signs WHERE id IN (SELECT sign FROM readings)") < len(rows)
    ):
        if time.monotonic() > ends:
            break
        time.sleep(LOOK)


class Watch:
    """What is looked at now and then from the first command on."""

    def __init__(self, store: Store, groups: list[Group]) -> None:
        self.store, self.groups = store, groups
        self.begun, self.next_look, self.oldest = time.monotonic(), 0.0, 0.0
        self.gets_before = self.gets()

    def gets(self) -> int:
        """How many Gets of readings and tables went out, but for those that were sent again."""
        taken = self.store.database.run("SELECT CAST(sum(reading_number) AS BIGINT) FROM signs")[0][0]
        left = self.store.database.run("SELECT CAST(sum(number - floor) AS BIGINT) FROM hearings")[0][0]
        return -whole(taken) - whole(left or 0)

    def span(self) -> float:
        return time.monotonic() - self.begun

    def look(self) -> None:
        """Memory, and the age of what is known of the sign that was not heard for longest."""
        if time.monotonic() < self.next_look:
            return
        self.next_look, of = time.monotonic() + LOOK_AT_MEMORY, children()
        for group in self.groups:
            group.look(of)
        age = self.store.database.run("SELECT max({clock} - heard) FROM hearings")[0][0]
        self.oldest = max(self.oldest, float(age or 0))


def carried(asked: Asked, store: Store, rows: list[int], watch: Watch) -> float:
    """Asks for the commands, and waits for their ends: the seconds that it took. Then it goes on watching for as long
    as is asked for."""
    sent, took = 0, 0.0
    while watch.span() < asked.seconds:
        to_send = asked.commands if not asked.rate else min(asked.commands, 1 + int(watch.span() * asked.rate))
        if sent < to_send:
            with store.database.transaction():
                store.database.run_all(
                    "INSERT INTO commands (sign, who, asked_at, line) VALUES (?, 'measure', {clock}, ?)",
                    [(rows[at % len(rows)], publication(at)) for at in range(sent, to_send)],
                )
            sent = to_send
        watch.look()
        if not took and sent == asked.commands and not count(store, "commands WHERE outcome IS NULL"):
            took = watch.span()
        if took and watch.span() >= asked.hold:
            break
        time.sleep(LOOK)
    return took or watch.span()


def beginning(asked: Asked) -> float:
    """The milliseconds in which a co-process begins and answers, half of the times."""
    took = []
    for _ in range(BEGINNINGS):
        begun = time.perf_counter()
        process = CoProcess(asked.signtool, ["centre"], DESCRIPTION.read_bytes())
        process.begin(b"status last", "a measure")
        took.append(1000 * (time.perf_counter() - begun))
        process.end()
    return statistics.median(took)


def told(asked: Asked, store: Store, seconds: float, watch: Watch) -> None:
    """The numbers."""
    span, gets = watch.span(), watch.gets() - watch.gets_before
    took = sorted(
        float(row[0] or 0)
        for row in store.database.run(
            "SELECT ended - asked_at FROM commands WHERE who = 'measure' AND outcome = 'accepted'"
        )
    )
    print(
        f"{asked.signs} signs, {asked.workers} workers, {asked.database}, tick {asked.tick:g} s, poll {asked.poll:g} s,"
        f" {'all at once' if not asked.rate else f'{asked.rate:g} a second'}"
    )
    print(
        f"{len(took)} of {asked.commands} commands accepted in {seconds:.1f} s: {len(took) / seconds:.1f} a second,"
        f" {1000 * seconds / max(1, len(took)):.1f} ms each"
    )
    if took:
        at = [took[min(len(took) - 1, len(took) * part // 100)] for part in (50, 95)]
        print(
            f"time to accepted: median {statistics.median(took):.2f} s, 95 of 100 within {at[1]:.2f} s, all within"
            f" {took[-1]:.2f} s"
        )
    print(
        f"in {span:.1f} s {gets / span:.0f} Gets a second; what is known of a sign was {watch.oldest:.1f} s old at most"
    )
    print(f"{count(store, 'lines')} lines; a co-process begins in {beginning(asked):.1f} ms, half of the times")
    for group in watch.groups:
        print(group.told(span, len(took)))
    memory = sum(group.most_memory for group in watch.groups)
    print(f"together {memory:.0f} MB, {1000 * memory / asked.signs:.0f} kB a sign of the fleet")
    print(f"load {os.getloadavg()[0]:.1f}, {os.cpu_count()} processors")


def counts(store: Store, place: Place) -> Counts | None:
    """What the server counts; None of SQLite."""
    return None if place.server is None else counted(store.database)


def idle(asked: Asked, store: Store, workers: Workers, place: Place) -> None:
    """What is taken while signs are read and nobody asks for anything."""
    watch, before, ends = Watch(store, grouped(workers, place)), counts(store, place), time.monotonic() + asked.idle
    while time.monotonic() < ends:
        time.sleep(LOOK_AT_MEMORY)
    after, span = counts(store, place), watch.span()
    print(f"nobody asks for anything, {(watch.gets() - watch.gets_before) / span:.0f} Gets a second")
    for group in watch.groups:
        group.look(children())
        print(group.told(span))
    if before is not None and after is not None:
        print((after - before).told(0, "", span))


def grouped(workers: Workers, place: Place) -> list[Group]:
    """What is measured from now on."""
    made = [Group("workers and co-processes", [worker.pid for worker in workers.going])]
    if place.server is not None and place.server.process is not None:
        made.append(Group("the database's server", [place.server.process.pid]))
    return made


def run(asked: Asked, folder: pathlib.Path, place: Place) -> bool:
    """A measure; whether all commands were accepted."""
    names = [f"sign {at}" for at in range(asked.signs)]
    loopback = Loopback(asked.signtool, {name: DESCRIPTION.read_bytes() for name in names}, Fates(1, 0.0), 1.0)
    if asked.objects is not None:
        lines = [line for line in asked.objects.read_bytes().splitlines() if line.startswith(b"object ")]
        for live in loopback.signs:
            live.process.hand(lines)
    (folder / "fleet.toml").write_text(
        "".join(
            f'[[sign]]\nname = "{live.name}"\naddress = "127.0.0.1:{live.port}"\ndescription = "{DESCRIPTION}"\n'
            f"poll = {asked.poll}\n"
            for live in loopback.signs
        )
    )
    store = Store(database.opened(place.where))
    rows = sorted(store.signs.enter(fleet.read(folder / "fleet.toml")))
    workers = Workers(asked.workers, folder, place.where, asked.signtool, asked.tick, 10.0)
    loopback.start()
    try:
        workers.fill()
        groups = grouped(workers, place)
        if asked.is_pinned:
            pinned([process for group in groups for process in group.processes])
        begun_once(store, rows)
        if asked.idle:
            idle(asked, store, workers, place)
        watch, before = Watch(store, grouped(workers, place)), counts(store, place)
        seconds = carried(asked, store, rows, watch)
        after = counts(store, place)
        told(asked, store, seconds, watch)
        if before is not None and after is not None:
            print((after - before).told(asked.commands, "publication", watch.span()))
        return count(store, "commands WHERE who = 'measure' AND outcome = 'accepted'") == asked.commands
    finally:
        workers.end()
        loopback.end()


def arguments() -> argparse.ArgumentParser:
    parser = argparse.ArgumentParser(
        prog="python3 -m trials.room.measure", description=__doc__, formatter_class=argparse.RawDescriptionHelpFormatter
    )
    parser.add_argument("--signs", type=int, default=200, metavar="N", help="how many signs")
    parser.add_argument("--commands", type=int, default=200, metavar="N", help="how many publications are asked for")
    parser.add_argument("--workers", type=int, default=1, metavar="N", help="how many workers drive the signs")
    parser.add_argument(
        "--rate", type=float, default=0, metavar="N", help="commands asked for a second; else all at once"
    )
    parser.add_argument("--poll", type=float, default=10.0, metavar="SECONDS", help="from reading to reading of a sign")
    parser.add_argument("--seconds", type=float, default=300, metavar="N", help="that the commands have to end")
    parser.add_argument("--hold", type=float, default=0, metavar="N", help="that signs are watched for at least")
    parser.add_argument("--idle", type=float, default=0, metavar="SECONDS", help="that nobody asks for anything before")
    parser.add_argument("--tick", type=float, default=1.0, metavar="SECONDS", help="how long a tick is")
    parser.add_argument(
        "--one-processor", action="store_true", dest="is_pinned", help="workers, co-processes and server on one"
    )
    parser.add_argument(
        "--objects", type=pathlib.Path, metavar="FILE", help="objects that each sign has beside its own"
    )
    parser.add_argument("--database", choices=KINDS, default=KINDS[0], help="the kind of the database")
    parser.add_argument(
        "--signtool", default=str(SIGNTOOL), metavar="PATH", help="the program that the signs and their centres are"
    )
    return parser


def main() -> int:
    asked = Asked(**vars(arguments().parse_args()))
    if asked.database == "postgresql":
        start.needed("trials.room.measure", "psycopg")
    signal.signal(signal.SIGTERM, lambda *_: sys.exit(143))
    with tempfile.TemporaryDirectory(prefix="measure-") as folder, placed(
        asked.database, pathlib.Path(folder), shared_preload_libraries=LIBRARY
    ) as place:
        return 0 if run(asked, pathlib.Path(folder), place) else 1


if __name__ == "__main__":
    sys.exit(status_of(main))
