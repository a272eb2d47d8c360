"""The roles of PostgreSQL of the example roles.sql: a service works, and changes neither audit nor journals."""

import contextlib
import datetime
import pathlib
import re
from typing import Iterator

import pytest

from . import needs

needs.modules("aiohttp", "jinja2", "psycopg")

from trials.room.cluster import Server
from wisangub.process.places import TOP
from wisangub.refusal import Refusal
from wisangub.room.store import database, months
from wisangub.room.store.audit import note
from wisangub.room.store.database import Failed, Taken

from .bench import HELLO, bench
from .visits import Bench, Visitors, run

OWNER, SERVICE = "room_owner", "room_service"
DENIED = (
    "UPDATE audit SET what = 'nothing'",
    "DELETE FROM audit",
    "TRUNCATE audit",
    "DROP TABLE audit",
    "ALTER TABLE audit DISABLE TRIGGER ALL",
    "DELETE FROM audit_other",
    "UPDATE audit_other SET what = 'nothing'",
    "DROP TABLE audit_other",
    "ALTER TABLE audit DETACH PARTITION audit_other",
    "UPDATE lines SET line = ''",
    "DELETE FROM lines",
    "DELETE FROM commands",
    "UPDATE commands SET line = ''",
    "UPDATE commands SET who = 'nobody'",
    "DELETE FROM ledger",
    "UPDATE keys SET value = ''",
    "INSERT INTO migrations (number, at) VALUES (900, 0)",
    "CREATE TABLE more (a BIGINT)",
)


def recipe() -> list[str]:
    """The statements of the example, for the roles of the test."""
    lines = (TOP / "python/wisangub/room/examples/roles.sql").read_text(encoding="utf-8").splitlines(keepends=True)
    text = re.sub(r"\bcontrol\b", SERVICE, "".join(line for line in lines if not line.startswith("--")))
    return [one.strip() for one in text.split(";\n") if one.strip()]


@pytest.fixture
def role(server: Server) -> Iterator[str]:
    """A new database of the owner, as the service's role sees it."""
    url = server.database()
    first = database.connected(url)
    for name in (OWNER, SERVICE):
        with contextlib.suppress(Failed, Taken):  # they are the server's, which other tests may share
            first.run(f"CREATE ROLE {name} LOGIN")
    first.run(f"ALTER DATABASE {url.rpartition('/')[2]} OWNER TO {OWNER}")
    first.close()
    owner = database.opened(url.replace("control@", f"{OWNER}@"))
    for statement in recipe():
        owner.run(statement)
    owner.close()
    yield url.replace("control@", f"{SERVICE}@")


def test_a_worker_of_the_service_s_role_changes_no_record(tmp_path: pathlib.Path, role: str) -> None:
    with bench(tmp_path, role) as at:
        assert at.ended(at.worker(), at.ask(HELLO)) == "accepted"
        held = at.store.database
        before = held.run("SELECT * FROM audit"), held.run("SELECT * FROM lines")
        for statement in DENIED:
            with pytest.raises(Failed, match="permission denied|must be owner"):
                held.run(statement)
        assert (held.run("SELECT * FROM audit"), held.run("SELECT * FROM lines")) == before and all(before)


def test_the_service_s_role_makes_months_and_takes_none_away(role: str) -> None:
    month = f"audit_{datetime.datetime.now(datetime.timezone.utc):%Y_%m}"
    owner = database.connected(role.replace(f"{SERVICE}@", f"{OWNER}@"))
    owner.run(f"DROP TABLE {month}")
    service = database.opened(role)
    note(service, "ann", "a thing")
    assert service.run("SELECT tableoid::regclass::text FROM audit") == [(month,)]
    assert len(service.run(f"SELECT * FROM {month}")) == 1, "so that it may make copies"
    for statement in (f"DELETE FROM {month}", f"UPDATE {month} SET what = ''", f"DROP TABLE {month}"):
        with pytest.raises(Failed, match="permission denied|must be owner"):
            service.run(statement)
    service.run("CREATE TEMPORARY TABLE audit_other (LIKE audit)")
    service.run("CREATE TEMPORARY TABLE signs (id BIGINT PRIMARY KEY)")
    owner.run(f"DROP TABLE {month}")
    months.make(service)
    assert owner.run("SELECT count(*) FROM pg_class WHERE relname = ?", month) == [(1,)], "no temporary table is taken"
    service.close()
    owner.close()


def test_pages_of_the_service_s_role(tmp_path: pathlib.Path, role: str) -> None:
    async def act(bench: Bench, visitor: Visitors) -> None:
        one = await bench.logged_in(visitor, "administrator")
        assert (await visitor().log_in("operator", "wrong"))[0] == 403
        assert "another role" in (await one.post("/users", {"do": "role", "name": "reader", "role": "operator"}))[1]
        assert (await one.get("/audit"))[0] == 200 and (await one.post("/logout", {}))[0] == 303

    run(tmp_path, role, act)


def test_the_service_s_role_carries_no_database_over(role: str, monkeypatch: pytest.MonkeyPatch) -> None:
    known = database.migrations()
    monkeypatch.setattr(database, "migrations", lambda: [*known, (900, "CREATE TABLE more (a BIGINT);\n")])
    with pytest.raises(Refusal, match="permission denied"):
        database.opened(role)
