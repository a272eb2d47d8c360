"""Programs that end beside a service over one file of SQLite: they take nothing from it."""

import os
import pathlib
import re
import time

import pytest

from . import needs

needs.modules("aiohttp", "jinja2")

from trials.room import beside
from trials.room.beside import Browser, Service
from wisangub.room.store import database
from wisangub.room.store.database import Failed, Row
from wisangub.room.store.store import Store
from wisangub.snmp import wire

from .bench import PROGRAM, Bench, bench

HIDDEN = re.compile(r'<input type="hidden" name="(confirmation|newest|kind|sign|number)" value="([^"]*)">')
PATIENCE = 60.0


def service_of(at: Bench, folder: pathlib.Path) -> Service:
    return Service(at.fleet, at.where, PROGRAM, folder / "said")


def blank(at: Bench, browser: Browser, number: int) -> None:
    """Asks for a blank by the pages, and waits until the sign has accepted it."""
    before = len(at.live.accepted)
    form = f"/blank?sign={at.sign_id}&number={number}"
    browser.post("/send", form, HIDDEN.findall(browser.get(form).partition('action="/send"')[2]))
    ends = time.monotonic() + PATIENCE
    while len(at.live.accepted) == before:
        assert time.monotonic() < ends, f"blank {number} is accepted"
        time.sleep(0.05)


def contents(at: Bench) -> dict[int, set[bytes]]:
    """What went over the wire under each number, as the sign's own record has it."""
    found: dict[int, set[bytes]] = {}
    for octets in list(at.live.requests):
        message = wire.spelled(octets)
        assert message is not None
        found.setdefault(message.number, set()).add(octets)
    return found


def programs_end(at: Bench, folder: pathlib.Path, number: int) -> list[object]:
    """Each program that has a database, to its end: what is wrong with what they said."""
    line = f"blank {number} 65535 255 192.0.2.1"
    said = [
        (beside.ended(at.where, "wisangub.room.users", "list").stdout, f"{beside.NAME} operator\n"),
        (beside.ended(at.where, "wisangub.room.command", "--wait", "30", "one", line).stdout, "accepted\n"),
        (beside.worker_ended(at.fleet, at.where, PROGRAM), 0),
        (beside.ended(at.where, "wisangub.room.store.backup", "copy", "--to", str(folder / "copy")).returncode, 0),
    ]
    return [found for found, wanted in said if found != wanted]


def test_programs_that_end_beside_a_service_take_nothing_from_it(tmp_path: pathlib.Path) -> None:
    where = str(tmp_path / "database")
    with bench(tmp_path, where) as at:
        at.store.database.close()  # a connection of this process would keep the log where it is
        beside.enter(where)
        service = service_of(at, tmp_path)
        try:
            service.start()
            browser = Browser(service.address)
            browser.look()
            blank(at, browser, 1)
            assert service.open_files(where).count(where) > 2, "it has several connections"
            wrong = programs_end(at, tmp_path, 2)
            lost = [name for name in service.open_files(where) if name.endswith("(deleted)")]
            for number in (3, 4):
                blank(at, browser, number)
            service.kill()
            service.start()
            for number in (5, 6):
                blank(at, Browser(service.address), number)
        finally:
            service.kill()
        store = Store(database.opened(where))
        ledger = {int(line.split(" ")[1]): line.split(" ")[2] for line in store.lines.ledger(at.sign_id)}
        audit = [str(row[0]) for row in store.database.run("SELECT what FROM audit")]
        store.database.close()
        twice = [number for number, octets in contents(at).items() if len(octets) > 1]
        missing = [number for number, code in at.live.accepted if ledger.get(number) != code]
        unheard = [number for number in range(1, 7) if not any(f"one: blank {number} " in what for what in audit)]
        assert (wrong, lost, twice, missing, unheard) == ([], [], [], [], [])


def test_a_connection_opens_no_file_that_is_there(tmp_path: pathlib.Path) -> None:
    """A file that is opened and closed beside SQLite takes all its locks away."""
    where = str(tmp_path / "database")
    first = database.opened(where)
    assert first.run("SELECT count(*) FROM signs") == [(0,)]
    log = os.stat(f"{where}-wal").st_ino
    for _ in range(3):
        database.opened(where).close()
        assert beside.ended(where, "wisangub.room.users", "list").returncode == 0
    assert not [name for name in beside.open_files(os.getpid(), where) if name.endswith("(deleted)")]
    assert os.stat(f"{where}-wal").st_ino == log, "the log is the one that it was"
    first.close()


def test_a_file_that_is_taken_away_is_said(tmp_path: pathlib.Path) -> None:
    for name in ("database", "database-wal"):
        held = database.opened(str(tmp_path / "database"))
        assert held.run("SELECT count(*) FROM signs") == [(0,)]
        (tmp_path / name).rename(tmp_path / "aside")
        with pytest.raises(Failed, match="taken away"):
            held.run("INSERT INTO audit (at, who, what) VALUES (0, 'me', 'lost')")
        with pytest.raises(Failed, match="taken away"), held.transaction():
            held.run("SELECT 1")
        (tmp_path / "aside").rename(tmp_path / name)
        assert held.run("SELECT count(*) FROM audit") == [(0,)]
        held.close()


def test_what_was_committed_as_the_file_was_taken_away_is_not_known(
    tmp_path: pathlib.Path, monkeypatch: pytest.MonkeyPatch
) -> None:
    held = database.opened(str(tmp_path / "database"))
    before = held.rows

    def taken(sql: str, values: Row) -> list[Row]:
        found = before(sql, values)
        if sql == "COMMIT":
            (tmp_path / "database").rename(tmp_path / "aside")
        return found

    monkeypatch.setattr(held, "rows", taken)
    with pytest.raises(Failed, match="taken away"):
        with held.transaction():
            held.run("INSERT INTO audit (at, who, what) VALUES (0, 'me', 'lost')")
