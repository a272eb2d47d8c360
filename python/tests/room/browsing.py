"""A control room as it is run, over signs on loopback, for tests that look at pages in a browser."""

import contextlib
import pathlib
import subprocess
import sys
from dataclasses import dataclass
from typing import Callable, Iterator

from trials.room.loopback import Fates, Loopback, LoopbackSign
from trials.room.ports import PATIENCE, free_port, until_answers
from wisangub.process.places import TOP
from wisangub.room import fleet
from wisangub.room.store import database, passwords, users
from wisangub.room.store.store import Store
from wisangub.room.store.users import Role

from .browser import Browser, description
from .visits import PASSWORD, PROGRAM

FOLLOWS = "The page follows what happens."
LOST = "The page has lost the service, and tries again."
NAMES = ("B300 east", "B300 west", "A9 gantry")
PLACES = ("Beside the B300, kilometre 12", "Beside the B300, kilometre 14", "Over the A9, kilometre 71")
FACES = ("roadside", "roadside", "gantry")


@dataclass
class Place:
    """A service that is run, and its signs; `words` are a browser's that finds it."""

    folder: pathlib.Path
    url: str
    port: int
    loopback: Loopback
    rows: dict[str, int]
    call: list[str]
    words: tuple[str, ...] = ()
    service: subprocess.Popen[bytes] | None = None

    def start(self) -> None:
        self.service = subprocess.Popen(self.call, cwd=TOP, stdin=subprocess.DEVNULL, stdout=subprocess.DEVNULL)
        until_answers(self.port)

    def stop(self) -> None:
        """Ends the service, in order."""
        service, self.service = self.service, None
        if service is not None:
            service.terminate()
            try:
                status: int | None = service.wait(PATIENCE)
            except subprocess.TimeoutExpired:
                service.kill()
                status = None
            assert status == 0, "the service ends in order"

    def sign(self, name: str) -> LoopbackSign:
        return next(sign for sign in self.loopback.signs if sign.name == name)

    def commands(self) -> int:
        """How many commands were asked for."""
        held = database.opened(str(self.folder / "database"))
        counted = int(held.run("SELECT count(*) FROM commands")[0][0] or 0)
        held.close()
        return counted

    def path(self, name: str) -> str:
        """The page of a sign."""
        return f"/signs/{self.rows[name]}"

    def card(self, name: str, within: str = " img") -> str:
        """A sign's card on the wall, its picture or another part of it."""
        return f"#sign-{self.rows[name]}{within}"

    @contextlib.contextmanager
    def browser(self, name: str | None = None, width: int = 1280, height: int = 900) -> Iterator[Browser]:
        """A browser, logged in where a name is given."""
        with Browser(self.url, width, height, self.words) as made:
            if name is not None:
                made.log_in(name)
            yield made


def away_and_back(at: Place, one: Browser, meanwhile: Callable[[], None] = lambda: None) -> None:
    """The service ends and comes again: the page follows as before, without a reload."""
    one.says(FOLLOWS, "footer")
    one.script("window.here = true")
    at.stop()
    one.says(LOST, "footer")
    meanwhile()
    at.start()
    one.says(FOLLOWS, "footer")
    assert one.script("return window.here") is True


def entered(folder: pathlib.Path, loopback: Loopback) -> dict[str, int]:
    """The fleet's file, and a database with a user of each role: the rows of the signs by their names."""
    for face in set(FACES):
        (folder / f"{face}.sign").write_bytes(description(face))
    (folder / "fleet.toml").write_text(
        "\n".join(
            f'[[sign]]\nname = "{name}"\nplace = "{place}"\naddress = "127.0.0.1:{sign.port}"\n'
            f'description = "{face}.sign"\npoll = 1\n'
            for name, place, face, sign in zip(NAMES, PLACES, FACES, loopback.signs)
        )
    )
    held, before = database.opened(str(folder / "database")), passwords.COST
    passwords.COST = 2**10
    for role in Role:
        users.add(held, role.word, role, PASSWORD, "a test")
    passwords.COST = before
    rows = Store(held).signs.enter(fleet.read(folder / "fleet.toml"))
    held.close()
    return {sign.name: row for row, sign in rows.items()}


@contextlib.contextmanager
def place(folder: pathlib.Path, *words: str) -> Iterator[Place]:
    """Signs, and the service as `wisangub-control` runs it."""
    loopback = Loopback(PROGRAM, dict(zip(NAMES, map(description, FACES))), Fates(1, 0.0), 0.5)
    rows = entered(folder, loopback)
    loopback.start()
    port = free_port()
    call = [
        sys.executable,
        "-m",
        "wisangub.room",
        "--fleet",
        str(folder / "fleet.toml"),
        "--database",
        str(folder / "database"),
        "--listen",
        f"127.0.0.1:{port}",
        "--zone",
        "Europe/Berlin",
        "--signtool",
        PROGRAM,
        *words,
    ]
    made = Place(folder, f"http://127.0.0.1:{port}", port, loopback, rows, call)
    try:
        made.start()
        yield made
    finally:
        try:
            made.stop()
        finally:
            loopback.end()
