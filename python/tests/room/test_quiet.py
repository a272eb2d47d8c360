"""What is read and says nothing new writes no row that PostgreSQL has in its log; when it was heard is known."""

import pathlib
import time
from typing import Sequence

import pytest

from wisangub.room.store import queries
from wisangub.room.store.connection import Database, Row
from wisangub.room.store.messages import RowSaid
from wisangub.room.store.readings import BLOCK
from wisangub.room.store.sqlite import Sqlite

from .bench import HELLO, bench
from .test_clock import jump
from .test_database import two_stores


class Writes:
    """Which rows of a table were written, though they may say what they said."""

    def __init__(self, database: Database, table: str) -> None:
        self.database, self.table = database, table
        if isinstance(database, Sqlite):
            database.run(f"CREATE TABLE written_{table} (one BIGINT)")
            for kind in ("INSERT", "UPDATE", "DELETE"):
                database.run(
                    f"CREATE TRIGGER {table}_{kind} AFTER {kind} ON {table}"
                    f" BEGIN INSERT INTO written_{table} VALUES (1); END"
                )
        self.before = self.found()

    def found(self) -> list[Row]:
        """A trigger counts them, or PostgreSQL makes each that is written anew, by another transaction."""
        if isinstance(self.database, Sqlite):
            return self.database.run(f"SELECT count(*) FROM written_{self.table}")
        return self.database.run(f"SELECT CAST(ctid AS TEXT), CAST(xmin AS TEXT) FROM {self.table} ORDER BY 1, 2")

    def are_some(self) -> bool:
        """Since the last time that this was asked."""
        before, self.before = self.before, self.found()
        return before != self.before


def test_rows_of_a_table_that_say_what_they_said_are_not_written(where: str) -> None:
    first, second, sign = two_stores(where)
    rows = [
        RowSaid(sign, 2, 1, -1, 4, '{"p": 1}'),
        RowSaid(sign, 3, 1, -2, 4, '{"a": 1}'),
        RowSaid(sign, 3, 2, -3, 1, None),
    ]
    first.messages.keep([*rows, RowSaid(sign, 3, 3, -4, 4, '{"b": 1}')])
    first.messages.keep([RowSaid(sign, 3, 3, -5, 1, None)])
    writes, said = Writes(first.database, "messages"), first.messages.of(sign)
    jump(second.database, 100.0)
    again = [RowSaid(one.sign, one.memory, one.number, one.reading - 10, one.status, one.held) for one in rows]
    second.messages.keep([*again, RowSaid(sign, 3, 3, -20, 1, None)])
    assert not writes.are_some() and [row[:4] for row in first.messages.of(sign)] == [row[:4] for row in said]
    heard = [(before[4], now[4]) for before, now in zip(said, first.messages.of(sign))]
    assert len(heard) == 3 and all(99.0 < now - before < 200.0 for before, now in heard), "it was heard again"
    assert [row.heard for row in queries.table(first.database, sign).rows] == [now for _, now in heard[:2]]
    first.messages.keep([RowSaid(sign, 3, 1, -7, 4, "late"), RowSaid(sign, 3, 3, -8, 4, "late")])
    assert not writes.are_some(), "what comes late is no news, though the newest that was written is older"
    for changed in (
        RowSaid(sign, 3, 1, -31, 4, '{"c": 1}'),
        RowSaid(sign, 3, 1, -32, 5, '{"c": 1}'),
        RowSaid(sign, 3, 1, -33, 1, None),
    ):
        first.messages.keep([changed])
        assert writes.are_some()
        assert first.messages.of(sign)[1][:4] == (3, 1, changed.status, changed.held)


def test_what_many_rows_say_is_a_few_statements(where: str, monkeypatch: pytest.MonkeyPatch) -> None:
    first, _, sign = two_stores(where)
    first.messages.keep([RowSaid(sign, 3, number, -number, 4, "{}") for number in range(1, 1201)])
    put, sent = first.database.put, []

    def counted(sql: str, values: Sequence[Row]) -> None:
        sent.append(len(values))
        put(sql, values)

    monkeypatch.setattr(first.database, "put", counted)
    rows = [RowSaid(sign, 3, number, -2000 - number, 4 - number % 2, None) for number in range(1, 2001)]
    rows += [RowSaid(sign, 4, number, -number, 4, "{}") for number in range(1, 1001)]
    first.messages.keep([*rows, RowSaid(sign, 3, 1, -1999, 5, "late"), RowSaid(sign, 3, 2, -5000, 5, "newest")])
    assert sum(sent) <= 9 and len(first.messages.of(sign)) == 2200
    assert {row[2:4] for row in first.messages.of(sign) if row[0] == 3 and row[1] > 2} == {(4, None), (3, None)}
    assert [row[2:4] for row in first.messages.of(sign)[:2]] == [(3, None), (5, "newest")]
    first.devices.keep([])
    first.messages.keep([])
    assert sum(sent) <= 9


def test_rows_are_known_where_the_server_lost_when_they_were_heard(where: str) -> None:
    first, second, sign = two_stores(where)
    first.messages.keep([RowSaid(sign, 3, 1, -1, 4, '{"a": 1}')])
    ((*_, written),) = first.messages.of(sign)
    jump(second.database, 100.0)
    second.messages.keep([RowSaid(sign, 3, 1, -2, 4, '{"a": 1}')])
    first.database.run("DELETE FROM row_hearings")  # as a crash of PostgreSQL does
    ((*row, heard),) = first.messages.of(sign)
    assert row == [3, 1, 4, '{"a": 1}'] and abs(heard - written) < 60.0, "since when it stands so"
    second.messages.keep([RowSaid(sign, 3, 1, -3, 4, '{"a": 1}')])
    ((*_, heard),) = first.messages.of(sign)
    assert 99.0 < heard - written < 200.0


def test_numbers_of_tables_are_taken_some_at_a_time(where: str) -> None:
    first, second, sign = two_stores(where)
    writes = Writes(first.database, "signs")
    found = [store.readings.numbers([sign])[sign] for store in (first, second) for _ in range(BLOCK // 2)]
    assert sorted(found, reverse=True) == list(range(-1, -BLOCK - 1, -1)) and writes.are_some()
    assert first.readings.to_read() == [sign], "its reading is due as before"
    found = [store.readings.numbers([sign])[sign] for store in (second, first)]
    assert found == [-BLOCK - 1, -BLOCK - 2] and writes.are_some()
    assert second.readings.due([sign]) == [(sign, -BLOCK - 3)] and not writes.are_some()
    first.readings.anew([sign])
    assert second.readings.numbers([sign]) == {sign: -2 * BLOCK - 1}, "which were used last may be forgotten"


def test_what_a_worker_writes_is_in_no_log(where: str) -> None:
    first, _, _ = two_stores(where)
    if not isinstance(first.database, Sqlite):
        kinds = first.database.run("SELECT relname, relpersistence FROM pg_class WHERE relname LIKE '%hearings'")
        assert sorted(kinds) == [("device_hearings", "u"), ("hearings", "u"), ("row_hearings", "u")]


def test_a_worker_reads_a_table_again_and_writes_none_of_its_rows(tmp_path: pathlib.Path, where: str) -> None:
    with bench(tmp_path, where) as at:
        worker = at.worker()
        assert at.ended(worker, at.ask(HELLO)) == "accepted"

        def read(after: float) -> list[float]:
            """Reads the table until each of its rows was heard after a time."""
            heard: list[float] = []
            at.store.messages.want(at.sign_id)
            ends = time.monotonic() + 60
            while (len(heard) < 3 or min(heard) <= after) and time.monotonic() < ends:
                worker.round()
                heard = [row[4] for row in at.store.messages.of(at.sign_id)]
            return heard

        heard = read(0.0)
        writes = Writes(at.store.database, "messages")
        again = read(max(heard))
        assert len(again) == 3 and min(again) > max(heard) and not writes.are_some()
