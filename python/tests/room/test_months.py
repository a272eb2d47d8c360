"""Months of the audit and of the readings on PostgreSQL: where rows stand, coming months, archives that drop them."""

import datetime
import json
import pathlib
import random

from . import needs

needs.modules("psycopg")

import pytest

from trials.room.cluster import Server
from wisangub.refusal import Refusal
from wisangub.room.store import database, history, months, queries, retention
from wisangub.room.store.audit import note
from wisangub.room.store.connection import Database
from wisangub.room.store.readings import Said

from .test_archive import DAY, Room
from .test_database import two_stores

NOW = datetime.datetime.now(datetime.timezone.utc)
BEFORE = 35  # the last migration without months
ALL = "SELECT sign, number, at, heard, minutes, shown, fault FROM readings ORDER BY sign, number"


@pytest.fixture
def url(server: Server) -> str:
    return server.database()


def name_of(days: float, table: str) -> str:
    """The table of a month that was so many days ago."""
    return f"{table}_{NOW - datetime.timedelta(days=days):%Y_%m}"


def tables(held: Database, table: str) -> list[str]:
    """The tables that a table's rows stand in."""
    return [str(row[0]) for row in held.run(f"SELECT DISTINCT tableoid::regclass::text FROM {table} ORDER BY 1")]


def there(held: Database) -> set[str]:
    rows = held.run("SELECT relname FROM pg_inherits JOIN pg_class ON pg_class.oid = inhrelid WHERE relkind = 'r'")
    return {str(row[0]) for row in rows}


def make_month(held: Database, days: float) -> None:
    """The month that was so many days ago."""
    held.run("SELECT make_months(CAST(now() AT TIME ZONE 'UTC' - ? * INTERVAL '1 day' AS TIMESTAMP), 1)", days)


def keep(room: Room, number: int, text: str | None) -> None:
    shown = None if text is None else json.dumps({"text": text})
    room.store.readings.keep([Said(room.two, number, 65535, shown, "no reply" if text is None else None)])


def test_rows_stand_in_their_months(url: str) -> None:
    held = database.opened(url)
    note(held, "ann", "now")
    held.run("INSERT INTO audit (at, who, what) VALUES (0, 'ann', 'long ago')")
    held.run("INSERT INTO audit (at, who, what) VALUES (1e300, 'ann', 'far ahead')")
    assert tables(held, "audit") == [name_of(0, "audit"), "audit_other"]
    coming = {name for name in there(held) if name > name_of(0, "audit") and name.startswith("audit_2")}
    assert len(coming) == 3, "three months ahead"
    assert [entry[3] for entry in history.audit(held, None)] == ["far ahead", "long ago", "now"]


def test_a_row_waits_for_no_month(url: str) -> None:
    first, second, sign = two_stores(url)
    for table in ("audit", "readings"):
        first.database.run(f"DROP TABLE {name_of(0, table)}")
    note(first.database, "ann", "without a month")
    first.readings.keep([Said(sign, -1, 65535, "{}")])
    assert tables(first.database, "audit") == ["audit_other"] and tables(first.database, "readings") == [
        "readings_other"
    ]
    for store in (first, second):
        months.make(store.database)
        assert tables(first.database, "audit") == [name_of(0, "audit")], "it is put into the month as that is made"
        assert tables(first.database, "readings") == [name_of(0, "readings")]
    first.readings.keep([Said(sign, -2, 65535, '{"a": 1}')])
    assert [row[1] for row in first.readings.of(sign)] == ['{"a": 1}', "{}"]


def test_months_that_cannot_be_made_are_said(url: str, capsys: pytest.CaptureFixture[str]) -> None:
    held = database.opened(url)
    held.run(f"DROP TABLE {name_of(0, 'audit')}")
    held.run("ALTER TABLE audit_other RENAME TO audit_elsewhere")
    months.make(held)
    assert "coming months" in capsys.readouterr().err
    note(held, "ann", "all the same")
    assert tables(held, "audit") == ["audit_elsewhere"]


def filled(held: Database) -> None:
    """Rows of a database of before: of many months, and of times that a clock wrote which was far from right."""
    held.run("INSERT INTO signs (name, place, address, poll) VALUES ('one', 'here', '127.0.0.1:1161', 10)")
    held.run("INSERT INTO signs (name, place, address, poll) VALUES ('two', 'here', '127.0.0.1:1162', 10)")
    held.run("INSERT INTO signs (name, place, address, poll) VALUES ('three', 'here', '127.0.0.1:1163', 10)")
    for days in (800, 400, 399, 40, 3, 1, 0):
        held.run("INSERT INTO audit (at, who, what) VALUES ({clock} - ?, 'ann', 'a thing')", days * DAY)
        held.run(
            "INSERT INTO readings (sign, number, at, heard, minutes, shown, fault) SELECT id, -1000 + ?, {clock} - ?,"
            " {clock} - ?, 65535, CASE WHEN name = 'one' THEN '{}' END, CASE WHEN name = 'two' THEN 'no reply' END"
            " FROM signs WHERE name <> 'three'",
            days,
            days * DAY,
            days * DAY,
        )
    for at in (0.0, -1e18, 1e300, 4e9):
        held.run("INSERT INTO audit (at, who, what) VALUES (?, 'ann', 'a clock that jumped')", at)
    held.run("UPDATE readings SET shown = '{\"a\": 1}' WHERE number = -600 AND sign = 2")
    held.run("DELETE FROM audit WHERE id = (SELECT max(id) FROM audit)")


def test_a_database_without_months_is_carried_over(url: str) -> None:
    held = database.connected(url)
    database.migrate(held, [one for one in database.migrations() if one[0] <= BEFORE])
    filled(held)
    audit, readings = held.run("SELECT * FROM audit ORDER BY id"), held.run(ALL)
    held.close()
    held = database.opened(url)
    assert held.run("SELECT * FROM audit ORDER BY id") == audit and held.run(ALL) == readings
    assert {name_of(days, "readings") for days in (800, 400, 40, 0)} <= set(tables(held, "readings"))
    assert "readings_other" not in tables(held, "readings") and "audit_other" in tables(held, "audit")
    assert held.run("SELECT count(*) FROM audit_other") == [(3,)]
    note(held, "ann", "the next")
    assert held.run("SELECT max(id) FROM audit") == [(int(audit[-1][0] or 0) + 2,)], "no number comes again"
    latest = held.run("SELECT sign, number, shown_number FROM latest_readings ORDER BY sign")
    assert latest == [(1, -1000, -1000), (2, -1000, -600)]
    assert [one.shown is None for one in queries.signs(held)] == [False, False, True]
    with pytest.raises(database.Taken):
        held.run("INSERT INTO readings SELECT 99, number, at, heard, minutes, shown, fault FROM readings LIMIT 1")
    with pytest.raises(database.Taken):
        held.run("INSERT INTO audit SELECT * FROM audit LIMIT 1")
    held.close()


def test_an_archive_drops_the_months_that_it_has(tmp_path: pathlib.Path, url: str) -> None:
    room = Room(tmp_path / "room", url)
    keep(room, -1, "X")
    room.held.run("UPDATE hearings SET heard = heard - ? WHERE sign = ?", 500.0 * DAY, room.two)
    make_month(room.held, 500)
    old = [name_of(500, "audit"), name_of(500, "readings")]
    assert tables(room.held, "audit") == old[:1] and set(old) <= there(room.held)
    audit, readings = room.held.run("SELECT * FROM audit"), room.held.run(ALL)
    found = room.archive()
    assert not set(old) & there(room.held), "the months went as a whole"
    assert found.counts["audit"] == len(audit) and found.counts["reading"] == 3
    kinds = room.kinds()
    assert len(kinds["audit"]) == len(audit) and len(kinds["reading"]) == 3
    stay = [row for row in readings if (row[0], row[1]) in ((room.one, -5), (room.one, -4), (room.two, -1))]
    assert room.held.run(ALL) == stay
    assert "readings_other" in tables(room.held, "readings")
    assert [len(history.readings(room.held, sign)) for sign in (room.one, room.two)] == [2, 1]
    keep(room, -2, "Y")
    assert [one.shown.text for one in queries.signs_of(room.held, [room.two]) if one.shown] == [b""]
    retention.take_out(room.held, room.file, "again")
    assert len(room.held.run(ALL)) == len(stay) + 1
    room.held.close()


@pytest.mark.parametrize("table", ["audit", "readings"])
def test_a_month_with_other_rows_than_the_archive_s_stays(tmp_path: pathlib.Path, url: str, table: str) -> None:
    room = Room(tmp_path / "room", url)
    make_month(room.held, 500)
    retention.write(room.held, room.file, 400 * DAY)
    if table == "audit":
        room.held.run("UPDATE audit SET what = 'something else' WHERE id = 1")
        room.held.run("INSERT INTO audit (at, who, what) SELECT at, 'ann', 'not in the file' FROM audit WHERE id = 2")
    else:
        room.held.run("UPDATE readings SET number = -33 WHERE number = -3")
    retention.take_out(room.held, room.file, "a test")
    assert name_of(500, table) in there(room.held)
    other = {"audit": "readings", "readings": "audit"}[table]
    assert name_of(500, other) not in there(room.held), "of the other one it is the same"
    if table == "audit":
        assert room.held.run("SELECT count(*) FROM audit WHERE what = 'not in the file'") == [(1,)]
        assert room.held.run(f"SELECT count(*) FROM {name_of(500, 'audit')}") == [(1,)], "what is the same went"
    else:
        assert room.numbers("readings") == [-33, -5, -4]
    room.held.close()


def test_who_writes_meanwhile_loses_nothing(tmp_path: pathlib.Path, url: str, monkeypatch: pytest.MonkeyPatch) -> None:
    room = Room(tmp_path / "room", url)
    make_month(room.held, 500)
    retention.write(room.held, room.file, 400 * DAY)
    other, is_had, calls = database.opened(url), months._is_had, []

    def late(*words: object) -> bool:
        found = is_had(*words)  # type: ignore[arg-type]
        calls.append(words[2])
        if calls.count(words[2]) == 1 and "audit" in str(words[2]):
            other.run("INSERT INTO audit (at, who, what) SELECT at, 'ann', 'late' FROM audit ORDER BY id LIMIT 1")
        return found

    monkeypatch.setattr(months, "_is_had", late)
    retention.take_out(room.held, room.file, "a test")
    month = name_of(500, "audit")
    assert calls.count(month) == 2 and month in there(room.held) and name_of(500, "readings") not in there(room.held)
    assert room.held.run(f"SELECT what FROM {month}") == [("late",)]
    other.close()
    room.held.close()


def test_who_looks_at_a_month_keeps_it(tmp_path: pathlib.Path, url: str, monkeypatch: pytest.MonkeyPatch) -> None:
    room = Room(tmp_path / "room", url)
    make_month(room.held, 500)
    retention.write(room.held, room.file, 400 * DAY)
    room.held.run("SET lock_timeout = '200ms'")
    other = database.opened(url)
    with other.transaction():
        other.run(f"SELECT count(*) FROM {name_of(500, 'audit')}")
        retention.take_out(room.held, room.file, "a test")
    assert name_of(500, "audit") in there(room.held)
    assert room.held.run(f"SELECT count(*) FROM {name_of(500, 'audit')}") == [(0,)], "its rows went one by one"
    other.close()
    room.held.close()


def test_a_damaged_or_other_archive_drops_no_month(tmp_path: pathlib.Path, url: str) -> None:
    room = Room(tmp_path / "room", url)
    make_month(room.held, 500)
    retention.write(room.held, room.file, 400 * DAY)
    room.file.write_bytes(room.file.read_bytes()[:-20])
    with pytest.raises(Refusal):
        retention.take_out(room.held, room.file, "a test")
    assert name_of(500, "audit") in there(room.held) and len(room.numbers("readings")) == 5
    room.held.close()


def test_the_latest_readings_are_those(where: str) -> None:
    """Whatever signs say, and in whatever order it comes, the newest row is the one of the least number."""
    first, second, _ = two_stores(where)
    chance, held = random.Random(7), first.database
    for number in range(60):
        says = chance.choice(("{}", '{"a": 1}', '{"b": 2}', None))
        store = chance.choice((first, second))
        at = -number - 1 if chance.random() < 0.8 else -max(1, number - chance.randint(1, 5))
        store.readings.keep([Said(1, at, 65535, says, "no reply" if says is None else None)])
        if chance.random() < 0.1:
            held.run("DELETE FROM hearings")  # as a crash of PostgreSQL does
        (found,) = held.run(
            "SELECT latest.number, latest.at, latest.fault, latest.shown_number, latest.shown_at, latest.shown,"
            " latest.minutes, latest.heard FROM latest_readings AS latest"
        )
        rows = held.run("SELECT number, at, fault FROM readings ORDER BY number LIMIT 1")
        rows += held.run(
            "SELECT number, at, shown, minutes, heard FROM readings WHERE shown IS NOT NULL ORDER BY number LIMIT 1"
        )
        assert found[:3] == rows[0] and found[3:] == (rows[1] if len(rows) > 1 else (None,) * 5)
