"""Pages over a database that goes away as something is asked of it."""

import pathlib
from typing import Any

import pytest

from . import needs

needs.modules("aiohttp", "jinja2")

from wisangub.room.store import tokens, users
from wisangub.room.store.database import Away, Failed, Row
from wisangub.room.store.sqlite import Sqlite
from wisangub.room.web import connections

from .visits import Bench, Visitors, run


def test_what_may_have_been_done_is_not_said_to_be_undone(
    tmp_path: pathlib.Path, monkeypatch: pytest.MonkeyPatch
) -> None:
    def away(*_: Any) -> None:
        raise Away("the connection was lost as the answer to COMMIT was awaited")

    async def act(bench: Bench, visitor: Visitors) -> None:
        one = await bench.logged_in(visitor, "administrator")
        monkeypatch.setattr(users, "change_role", away)
        status, said, _ = await one.post("/users", {"do": "role", "name": "reader", "role": "operator"})
        assert status == 503 and "may not have been done" in said and "Nothing was changed" not in said

    run(tmp_path, str(tmp_path / "database"), act)


def test_what_signs_show_is_seen_though_nothing_can_be_written(
    tmp_path: pathlib.Path, monkeypatch: pytest.MonkeyPatch
) -> None:
    """As the disk is full: that a log-in or a token is used need not be written for a page that only reads."""
    rows = Sqlite.rows

    def full(held: Sqlite, sql: str, values: Row) -> list[Row]:
        if sql.startswith(("UPDATE", "INSERT", "DELETE", "BEGIN")):
            raise Failed("database or disk is full")
        return rows(held, sql, values)

    async def act(bench: Bench, visitor: Visitors) -> None:
        bench.read(bench.one)
        one = await bench.logged_in(visitor, "operator")
        token = tokens.add(bench.store.database, "map", "operator", True, 1, "operator")
        bench.store.database.run("UPDATE logins SET begun = begun - 600, seen = NULL")
        with monkeypatch.context() as patched:
            patched.setattr(Sqlite, "rows", full)
            for path in ("/", f"/signs/{bench.one}", "/alarms", "/history", f"/signs/{bench.one}/shown"):
                assert (await one.get(path))[0] == 200, path
            headers = {"Authorization": f"Bearer {token}"}
            assert (await visitor().answered("/api/1/signs", headers=headers)).status == 200
            assert (await one.get("/history.csv"))[0] == 503, "what the audit has to have is not done without it"
        assert (await one.get("/"))[0] == 200
        (seen,) = bench.store.database.run("SELECT seen FROM logins")[0]
        assert seen is not None, "it is written as soon as it can be"

    run(tmp_path, str(tmp_path / "database"), act)


def test_pages_end_where_a_newer_program_has_the_database(
    tmp_path: pathlib.Path, monkeypatch: pytest.MonkeyPatch
) -> None:
    monkeypatch.setattr(connections, "_KNOWN", 0.0)

    async def act(bench: Bench, visitor: Visitors) -> None:
        one = await bench.logged_in(visitor, "operator")
        assert (await one.get("/"))[0] == 200
        bench.store.database.run("INSERT INTO migrations (number, at) VALUES (900, {clock})")
        assert (await one.get("/"))[0] == 503

    run(tmp_path, str(tmp_path / "database"), act)
