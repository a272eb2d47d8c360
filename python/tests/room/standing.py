"""Pages that stand over a room in which much has happened, for tests that look at each of them in a browser."""

import contextlib
import pathlib
from typing import Iterator

from wisangub.room.service import Pages
from wisangub.room.store import passwords, users

from .test_pages import filled
from .visits import Bench


def in_trouble(bench: Bench) -> None:
    """Commands at each kind of step, a sign that is blank, and a user who is disabled."""
    line = f"publish 3 1 {b'FOG'.hex()} {b'me'.hex()} 0 0 100 65535 255 192.0.2.1"
    states = (
        (3, 3, None),
        (9, None, "accepted"),
        (9, None, "failed at step 5: the row has status 5, error"),
        (None, None, None),
    )
    for sign, (number, step, how) in zip((bench.gantry, bench.two, bench.two, bench.two), states):
        command = bench.store.commands.ask(sign, "operator", line)
        bench.store.database.run(
            "UPDATE commands SET line_number = ?, step = ?, outcome = ? WHERE id = ?", number, step, how, command
        )
        bench.store.database.run("INSERT INTO batch_commands (batch, command) VALUES (1, ?)", command)
    bench.read(bench.two, text="")
    bench.store.database.run("UPDATE messages SET status = 5 WHERE sign = ?", bench.one)
    users.disable(bench.store.database, "reader", True, "a test")


@contextlib.contextmanager
def standing(folder: pathlib.Path) -> Iterator[tuple[Bench, str]]:
    """The room, and where its pages are. No worker stands beside them, so nothing happens there by itself."""
    before, passwords.COST = passwords.COST, 2**4
    made = Bench(folder, str(folder / "database"))
    filled(made)
    pages = Pages(made.settings, list(made.service.signs.values()), "127.0.0.1", 0)
    try:
        pages.start()
        try:
            yield made, pages.address.rstrip("/")
        finally:
            pages.stop()
    finally:
        passwords.COST = before
        made.store.database.close()
        made.service.close()
