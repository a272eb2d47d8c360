"""Alarms: what begins and ends each kind, who acknowledges them, and that a sign's own record is told from others'."""

import json
import pathlib
import random
import time
from typing import Callable, Sequence

import pytest

from . import needs

needs.modules("aiohttp", "jinja2")

from wisangub.room.store import alarms, database, queries
from wisangub.room.store.alarms import ERROR, FAILED, OTHER, SILENT, Alarm
from wisangub.room.store.connection import Database
from wisangub.room.store.lines import News
from wisangub.room.store.messages import RowSaid
from wisangub.room.store.readings import Said
from wisangub.room.store.sqlite import Sqlite
from wisangub.room.store.store import Store

from .bench import HELLO, bench
from .test_database import BLANK
from .test_database import OTHER as ANOTHER
from .test_database import SIGN, two_stores
from .visits import SHOWN, Bench, Visitors, run

CODE = "ffff64" + str(SHOWN["source"]) + str(SHOWN["requester"])  # the activation of what SHOWN says


def look(store: Store) -> list[tuple[str, str]]:
    """The kinds and words of what stands, after a look that is due."""
    store.database.run("UPDATE alarm_looks SET at = 0")
    store.alarms.look()
    rows = store.database.run("SELECT kind, what FROM alarms WHERE ended IS NULL ORDER BY kind")
    return [(str(kind), str(what)) for kind, what in rows]


def shows(store: Store, sign: int, number: int, **changed: object) -> None:
    store.readings.keep([Said(sign, number, 5, json.dumps({**SHOWN, **changed}))])


def test_signs_are_asked_for_that_were_read_anew(where: str, monkeypatch: pytest.MonkeyPatch) -> None:
    store, other, sign = two_stores(where)
    asked: list[int] = []
    of = queries.signs_of

    def counted(held: Database, numbers: Sequence[int]) -> list[queries.SignView]:
        asked.extend(numbers)
        return of(held, numbers)

    monkeypatch.setattr(queries, "signs_of", counted)
    assert look(store) == [] and asked == [], "it was never read"
    other.readings.keep([Said(sign, -1, fault="no reply")])
    assert look(store) == [(SILENT, "no reply")] == look(store) and asked == [sign]
    other.readings.keep([Said(sign, -2, fault="no reply")])
    assert look(store) == [(SILENT, "no reply")] and asked == [sign], "it said the same again"
    shows(other, sign, -3)
    assert [kind for kind, _ in look(store)] == [OTHER] and asked == [sign, sign]
    assert [kind for kind, _ in look(store)] == [OTHER] and asked == [sign, sign]


def test_a_sign_that_is_silent(where: str) -> None:
    store, _, sign = two_stores(where)
    assert look(store) == [], "nothing was asked of it yet"
    store.readings.keep([Said(sign, -1, fault="no reply")])
    assert look(store) == [(SILENT, "no reply")] == look(store)
    shows(store, sign, -2, text="")
    assert look(store) == []
    store.database.run("UPDATE signs SET still = 'its address is that of two' WHERE id = ?", sign)
    assert look(store) == [(SILENT, "it stands still: its address is that of two")]
    assert store.database.run("SELECT count(*), count(ended) FROM alarms") == [(2, 1)]


def test_a_text_that_is_not_ours(where: str) -> None:
    store, other, sign = two_stores(where)
    shows(store, sign, -1)
    assert look(store) == [(OTHER, "it shows “FOG”, which 192.0.2.1 activated")]
    assert alarms.signs_with(store.database, OTHER) == {sign} and not alarms.signs_with(store.database, SILENT)
    store.lines.keep([News(sign, [f"ledger 4 {CODE} accepted"])])
    assert look(store) == [] == look(other)
    shows(store, sign, -2, requester="c0000209")
    assert look(store) == [(OTHER, "it shows “FOG”, which 192.0.2.9 activated")]
    shows(store, sign, -3, mode=10)
    assert look(store) == [(OTHER, "it shows “FOG”, by itself (mode 10)")]
    shows(store, sign, -4, mode=10, text=b"A\0".hex() + b"x".hex() * 99)
    assert look(store) == [(OTHER, f"it shows “A?{'x' * 58}..”, by itself (mode 10)")]
    shows(store, sign, -5, mode=10, text="")
    assert look(store) == [], "a blank sign shows nobody's text"


def test_rows_in_error_and_commands_that_failed(where: str) -> None:
    store, _, sign = two_stores(where)
    store.messages.keep([RowSaid(sign, 3, 2, -1, 5, "{}"), RowSaid(sign, 3, 4, -2, 5, "{}")])
    commands = [store.commands.ask(sign, "me", BLANK) for _ in range(4)]
    for command, how in zip(commands, ("failed at step 2: noreply", "withdrawn by you", "refused 5", "accepted")):
        store.commands.end(command, how)
        found = dict(look(store))
        assert found[ERROR] == "row 2 of memory 3 is in error"
        assert found.get(FAILED) == {
            "withdrawn by you": f"command {commands[0]} failed at step 2: noreply",
            "accepted": None,
        }.get(how, f"command {command} {how}")
    store.messages.keep([RowSaid(sign, 3, 2, -3, 4, "{}"), RowSaid(sign, 3, 4, -4, 1, None)])
    assert look(store) == []


def put(store: Store, rows: Sequence[tuple[int, str, float | None, str | None]]) -> None:
    """Alarms of signs and kinds, when each ended, and who has seen it."""
    with store.database.transaction():
        store.database.run_all(
            "INSERT INTO alarms (sign, kind, what, begun, ended, seen_by) VALUES (?, ?, 'x', 1, ?, ?)", list(rows)
        )


def test_the_newest_alarms_are_listed(where: str) -> None:
    store, chance = Store(database.opened(where)), random.Random(1)
    signs = list(store.signs.enter([SIGN, ANOTHER]))
    standing = [(sign, kind, None, chance.choice([None, "me"])) for sign in signs for kind in alarms.KINDS]
    ended = [(chance.choice(signs), SILENT, 2.0, chance.choice([None, "me"])) for _ in range(60)]
    rows = chance.sample([*standing, *ended], len(standing) + len(ended))
    put(store, rows)

    def wanted(of: Sequence[int]) -> list[Alarm]:
        found = [
            one
            for (number,) in store.database.run("SELECT id FROM alarms ORDER BY id DESC")
            for one in every
            if one.id == number and one.sign in of and (one.ended is None or one.seen_by is None)
        ]
        return sorted(found, key=lambda one: one.seen_by is not None)

    every = [
        Alarm(
            number, sign, {signs[0]: SIGN.name, signs[1]: ANOTHER.name}[sign], kind, "x", 1.0, ended_at, seen_by, None
        )
        for number, (sign, kind, ended_at, seen_by) in enumerate(rows, 1)
    ]
    for most in (3, 25, 200):
        assert alarms.listed(store.database, most=most) == wanted(signs)[:most]
        for sign in signs:
            assert alarms.listed(store.database, sign, most) == wanted([sign])[:most]
            assert alarms.listed(store.database, None, most, lambda one: one == sign) == wanted([sign])[:most]
    assert alarms.listed(store.database, may_see=lambda _: False) == []


def test_alarms_of_years_that_nobody_has_seen_are_not_all_read(tmp_path: pathlib.Path) -> None:
    store = Store(database.opened(str(tmp_path / "database")))
    held = store.database
    assert isinstance(held, Sqlite)
    one, two = store.signs.enter([SIGN, ANOTHER])
    put(store, [(one, SILENT, 2.0, None)] * 30_000 + [(two, SILENT, 2.0, None), (two, SILENT, None, None)])
    put(store, [(one, SILENT, None, "me"), *[(one, SILENT, 2.0, "me")] * 30_000])
    done: list[int] = []
    held.connection.set_progress_handler(lambda: done.append(1), 1000)  # instructions of SQLite

    def few(ask: Callable[[], list[Alarm]], count: int) -> bool:
        done.clear()
        return len(ask()) == count and len(done) < 25

    assert few(lambda: alarms.listed(held), 200)
    assert few(lambda: alarms.listed(held, one), 200) and few(lambda: alarms.listed(held, two), 2)
    assert few(lambda: alarms.listed(held, may_see=lambda sign: sign == two), 2)
    assert few(lambda: alarms.to_tell(held, "mail", alarms.KINDS), 1)


def test_one_worker_looks_at_a_time(where: str) -> None:
    store, other, sign = two_stores(where)
    assert look(store) == []
    store.readings.keep([Said(sign, -1, fault="no reply")])
    other.alarms.look()
    assert not other.database.run("SELECT id FROM alarms"), "it was looked just before"
    store.database.run("UPDATE alarm_looks SET at = at + 50000")
    other.alarms.look()
    assert other.database.run("SELECT kind FROM alarms") == [(SILENT,)], "a time to come is no time"


def test_an_alarm_is_acknowledged_once(tmp_path: pathlib.Path, where: str) -> None:
    async def act(bench: Bench, visitor: Visitors) -> None:
        bench.read(bench.one)
        bench.silent(bench.two)
        assert len(look(bench.store)) == 2
        reader, operator = [await bench.logged_in(visitor, name) for name in ("reader", "operator")]
        page = (await reader.get("/alarms"))[1]
        assert "not ours" in page and "no reply" in page and page.count("not yet") == 2 and "Acknowledge<" not in page
        assert (
            "not ours" in (await reader.get("/"))[1]
            and "which 192.0.2.1" in (await reader.get(f"/signs/{bench.one}"))[1]
        )
        (number,) = [int(row[0] or 0) for row in bench.store.database.run("SELECT id FROM alarms WHERE kind = 'other'")]
        assert (await operator.post(f"/alarms/{number}/acknowledge", {}))[::2] == (303, "/alarms")
        assert (await operator.post(f"/alarms/{number}/acknowledge", {}))[0] == 409
        assert (await operator.post("/alarms/999/acknowledge", {}))[0] == 404
        rows = bench.store.database.run("SELECT who, what FROM audit ORDER BY id DESC LIMIT 1")
        said = "it shows “FOG”, which 192.0.2.1 activated"
        assert rows == [("operator", f"one: alarm {number} is acknowledged: {said}")]
        assert [(one.kind, one.seen_by) for one in alarms.listed(bench.store.database)] == [
            (SILENT, None),
            (OTHER, "operator"),
        ]
        bench.read(bench.one, number=-9, text="")
        bench.read(bench.two, number=-9, text="")
        look(bench.store)
        assert [one.kind for one in alarms.listed(bench.store.database)] == [SILENT], "over, and nobody has seen it"
        assert "not ours" not in (await reader.get("/"))[1]

    run(tmp_path, where, act)


def test_what_a_worker_sent_is_ours(tmp_path: pathlib.Path, where: str) -> None:
    with bench(tmp_path, where) as at:
        worker = at.worker()
        assert at.ended(worker, at.ask(HELLO)) == "accepted"
        ends = time.monotonic() + 30
        while b"HELLO".hex() not in str(at.store.readings.of(at.sign_id)[:1]) and time.monotonic() < ends:
            worker.round()
        assert look(at.store) == []
        at.store.database.run("DELETE FROM ledger")
        assert look(Store(database.opened(where))) == [(OTHER, "it shows “HELLO”, which 192.0.2.1 activated")]
        worker.reader.next_alarms = 0.0
        at.store.database.run("UPDATE alarm_looks SET at = 0")
        worker.round()
        assert worker.reader.next_alarms > 0 and not worker.fault
