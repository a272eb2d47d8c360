"""A sign on loopback, a database, and a worker in the test's own process."""

import contextlib
import os
import pathlib
import time
from typing import Iterator

from trials.room.loopback import Fates, Loopback
from wisangub.endpoint.sockets import Waiting
from wisangub.process.places import SIGNTOOL, TOP
from wisangub.room import fleet
from wisangub.room.fleet import Sign
from wisangub.room.store import database
from wisangub.room.store.lines import Line
from wisangub.room.store.store import Store
from wisangub.room.worker.carry import carry
from wisangub.room.worker.program import Pace, Worker
from wisangub.room.worker.session import Lost, Session
from wisangub.snmp.mib import Mib

PROGRAM = os.environ.get("SIGNTOOL", str(SIGNTOOL))
TICK = 0.3  # so that a machine that is busy answers before a request has gone out three times
PACE = Pace(tick=TICK, lease=10.0, look=0.05)
TEXT = (TOP / "signs/roadside.sign").read_bytes()
ADDRESS = "192.0.2.1"
HELLO = f"publish 3 1 {b'HELLO'.hex()} {b'me'.hex()} 0 0 100 65535 255 {ADDRESS}"


class Bench:
    """One sign named `one`."""

    def __init__(self, folder: pathlib.Path, where: str, loopback: Loopback, text: bytes) -> None:
        self.folder, self.where, self.loopback = folder, where, loopback
        self.live = loopback.signs[0]
        (folder / "a.sign").write_bytes(text)
        self.fleet = folder / "fleet.toml"
        self.fleet.write_text(
            f'[[sign]]\nname = "one"\naddress = "127.0.0.1:{self.live.port}"\n' 'description = "a.sign"\npoll = 1\n'
        )
        self.store = Store(database.opened(where))
        self.sign_id = next(iter(self.signs(self.store)))

    def signs(self, store: Store) -> dict[int, Sign]:
        return store.signs.enter(fleet.read(self.fleet))

    def worker(self, pace: Pace = PACE, program: str = PROGRAM) -> Worker:
        """A worker with a connection of its own."""
        store = Store(database.opened(self.where))
        return Worker(store, self.signs(store), program, pace, Waiting())

    def session(self, name: str) -> Session:
        """A session of a worker with a connection of its own."""
        store = Store(database.opened(self.where))
        made = Session(store, self.sign_id, self.signs(store)[self.sign_id], name, PROGRAM, Mib.read())
        store.lines.keep([made.stand()])
        return made

    def ask(self, line: str) -> int:
        return self.store.commands.ask(self.sign_id, "me", line)

    def ended(self, worker: Worker, command: int, wait: float = 60.0) -> str | None:
        """How the command ended, carried out by the worker."""
        ends = time.monotonic() + wait
        while (how := self.store.commands.how(command)) is None and time.monotonic() < ends:
            worker.guarded_round()
        return how


def carried(session: Session, line: Line | None) -> None:
    """One line of one sign; raises Lost where its number is taken."""

    def drop(_: Session, fault: Exception | None) -> None:
        raise fault or Lost

    if line is not None:
        carry(session.store, session.worker, [(session, line)], drop)


@contextlib.contextmanager
def bench(folder: pathlib.Path, where: str, trouble: float = 0.0, text: bytes = TEXT) -> Iterator[Bench]:
    """The sign's thread stands as long as the test."""
    loopback = Loopback(PROGRAM, {"one": text}, Fates(1, trouble), TICK)
    loopback.start()
    try:
        yield Bench(folder, where, loopback, text)
    finally:
        loopback.end()
