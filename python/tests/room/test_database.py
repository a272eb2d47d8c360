"""The database: migrations, transactions, and the key that gives a line's number once."""

import contextlib
import importlib
import pathlib
import stat
import sys
import threading
import time
from typing import Sequence

import pytest

from wisangub.process.places import TOP
from wisangub.refusal import Refusal
from wisangub.room.__main__ import PARTS
from wisangub.room.fleet import Sign
from wisangub.room.store import database
from wisangub.room.store.commands import Command, Meanwhile
from wisangub.room.store.connection import Row
from wisangub.room.store.database import Database, Failed, Taken
from wisangub.room.store.lines import Line, News
from wisangub.room.store.messages import RowSaid
from wisangub.room.store.queries import sign as sign_view
from wisangub.room.store.readings import BLOCK, Said
from wisangub.room.store.store import Store

from .people import person

BLANK = "blank 1 65535 255 192.0.2.1"
OTHER = Sign("other", "", "127.0.0.1", 1162, b"", b"public", 10.0, 1)
SIGN = Sign("one", "a place", "127.0.0.1", 1161, b"", b"public", 10.0, 1)


def two_stores(where: str) -> tuple[Store, Store, int]:
    """Two connections to one database with one sign, as two workers have them."""
    first, second = (Store(database.opened(where)) for _ in range(2))
    return first, second, next(iter(first.signs.enter([SIGN])))


def numbers(made: Database) -> list[object]:
    """The migrations that were run."""
    return [row[0] for row in made.run("SELECT number FROM migrations ORDER BY number")]


def test_a_file_is_made_with_care(tmp_path: pathlib.Path) -> None:
    path = tmp_path / "database"
    made = database.opened(str(path))
    assert stat.S_IMODE(path.stat().st_mode) == 0o600
    assert made.run("PRAGMA journal_mode") == [("wal",)] and made.run("PRAGMA synchronous") == [(2,)]


def test_migrations_run_once(where: str) -> None:
    made = database.opened(where)
    assert database.migrate(made, database.migrations()) == []
    more = (900, "CREATE TABLE more (a {key});\nINSERT INTO more VALUES (7);\n")
    assert database.migrate(made, [*database.migrations(), more]) == [900]
    assert made.run("SELECT a FROM more") == [(7,)]
    with pytest.raises(Refusal, match="newer program: it has migration 900"):
        database.opened(where)


def test_a_migration_that_fails_leaves_nothing(where: str) -> None:
    made = database.opened(where)
    with pytest.raises(Failed):
        more = (900, "CREATE TABLE more (a {key});\nINSERT INTO none VALUES (7);\n")
        database.migrate(made, [*database.migrations(), more])
    assert numbers(made) == [number for number, _ in database.migrations()]
    with pytest.raises(Failed):
        made.run("SELECT a FROM more")


def test_a_name_that_is_no_database_s_makes_none(
    nowhere: str, tmp_path: pathlib.Path, monkeypatch: pytest.MonkeyPatch
) -> None:
    of = ["--database", nowhere]
    programs = {
        "worker": [*of, "--fleet", str(TOP / "signs/fleet.toml")],
        "users": [*of, "list"],
        "signs": [*of, "list"],
        "command": [*of, "one", BLANK],
        "backup": ["advance", *of],
    }
    for name, words in programs.items():
        monkeypatch.setattr(sys, "argv", [name, *words])
        with pytest.raises(Refusal, match="--create makes"):
            importlib.import_module(PARTS[name]).main()
        assert database.is_url(nowhere) or not list(tmp_path.iterdir()), name
    if database.is_url(nowhere):
        assert not database.connected(nowhere).has_table("migrations")
    monkeypatch.setattr(sys, "argv", ["users", "--database", nowhere, "--create", "list"])
    assert importlib.import_module(PARTS["users"]).main() == 0 and database.opened(nowhere, may_create=False).has_table(
        "signs"
    )


def test_what_is_no_database_is_refused(tmp_path: pathlib.Path) -> None:
    (tmp_path / "text").write_text("no database " * 100)
    for path in (tmp_path / "text", tmp_path / "none" / "database", tmp_path):
        with pytest.raises(Refusal):
            database.opened(str(path))


def test_a_transaction_is_whole_or_nothing(where: str) -> None:
    made = database.opened(where)
    with pytest.raises(Taken):
        with made.transaction():
            made.run("INSERT INTO users (name, role, secret) VALUES ('a', 'reader', '')")
            made.run("INSERT INTO users (name, role, secret) VALUES ('a', 'reader', '')")
    with pytest.raises(Failed, match="failed before"):
        with made.transaction():
            made.run("INSERT INTO users (name, role, secret) VALUES ('b', 'reader', '')")
            with contextlib.suppress(Taken):
                made.run("INSERT INTO users (name, role, secret) VALUES ('b', 'reader', '')")
    with pytest.raises(ZeroDivisionError):
        with made.transaction(is_alone=True):
            made.run("INSERT INTO users (name, role, secret) VALUES ('c', 'reader', '')")
            1 / 0
    assert made.run("SELECT name FROM users") == []
    with pytest.raises(Taken):
        made.run("INSERT INTO users (name, role, secret) VALUES ('a', 'king', '')")


def test_a_mark_differs_where_something_was_written(where: str) -> None:
    first, second, sign = two_stores(where)
    mark = first.database.mark()
    second.commands.ask(sign, "me", BLANK)
    later = first.database.mark()
    assert later != mark
    first.commands.ask(sign, "me", BLANK)
    assert first.database.mark() != later


def test_many_threads_take_turns(where: str) -> None:
    store, _, sign = two_stores(where)
    threads = [
        threading.Thread(target=lambda: [store.commands.ask(sign, "me", BLANK) for _ in range(20)]) for _ in range(4)
    ]
    for thread in threads:
        thread.start()
    for thread in threads:
        thread.join()
    assert (
        store.database.run("SELECT count(*) FROM commands")
        == [(80,)]
        == store.database.run("SELECT count(*) FROM audit")
    )


def test_values_are_what_they_were(where: str) -> None:
    made = database.opened(where)
    for text in ("100 % sure? {clock}", "it's", "", "Grüße 道"):
        assert made.run("SELECT CAST(? AS TEXT)", text) == [(text,)]
    for number in (0, -(2**31), 2**31, 2**62):
        assert made.run("SELECT CAST(? AS BIGINT)", number) == [(number,)]
    assert made.run("SELECT CAST(? AS TEXT)", None) == [(None,)]
    now = made.run("SELECT {clock}")[0][0]
    assert isinstance(now, float) and abs(now - time.time()) < 60


@pytest.mark.parametrize(("is_often", "wanted"), ((False, [1, 7, 1000, 100]), (True, [1, 4, 2, 1, 512, 512, 64, 8, 4])))
def test_many_rows_are_put_by_a_few_statements(
    where: str, is_often: bool, wanted: list[int], monkeypatch: pytest.MonkeyPatch
) -> None:
    made, sizes = database.opened(where), list[int]()
    put = made.put

    def counted(sql: str, values: Sequence[Row]) -> None:
        sizes.append(sql.count("?"))
        put(sql, values)

    monkeypatch.setattr(made, "put", counted)
    made.run("CREATE TABLE held (a BIGINT)")
    rows: list[Row] = [(number,) for number in range(1100)]
    for count in (0, 1, 7, 1100):
        with made.transaction():
            made.run("DELETE FROM held")
            made.run_rows("INSERT INTO held (a) VALUES {rows}", "(?)", rows[:count], is_often)
        assert made.run("SELECT a FROM held ORDER BY a") == rows[:count]
    assert sizes == wanted


def test_a_number_is_given_once(where: str) -> None:
    first, second, sign = two_stores(where)
    command = first.commands.ask(sign, "me", BLANK)
    assert first.lines.insert([Line(sign, 1, b"journal", is_first=True)], "first") == {sign}
    assert second.lines.insert([Line(sign, 2, b"tick")], "second") == {sign}
    assert first.lines.insert([Line(sign, 2, BLANK.encode(), command)], "first") == set()
    assert second.lines.of(sign) == (1, 0, [b"journal", b"tick"])
    assert first.commands.begun(sign) is None, "a command whose line lost is not begun"
    assert first.lines.insert([Line(sign, 3, b"journal again", is_first=True)], "first") == {sign}
    assert second.lines.of(sign) == (3, 0, [b"journal again"])


def test_of_many_lines_those_are_kept_whose_numbers_are_free(where: str) -> None:
    first, second, one = two_stores(where)
    other = [row for row in first.signs.enter([SIGN, OTHER]) if row != one][0]
    commands = [first.commands.ask(sign, "me", BLANK) for sign in (one, other)]
    assert second.lines.insert([Line(one, 1, b"journal", is_first=True)], "second") == {one}
    lines = [Line(other, 1, BLANK.encode(), commands[1]), Line(one, 1, BLANK.encode(), commands[0])]
    assert first.lines.insert(lines, "first", [(3, commands[1])]) == {other}
    assert first.commands.begun(one) is None and first.commands.begun(other) == (Command(commands[1], BLANK), 1)
    person(first.database, "withdrawn")
    assert not first.commands.withdraw(commands[1], "withdrawn") and first.commands.withdraw(commands[0], "withdrawn")
    assert second.lines.insert([Line(one, 2, BLANK.encode(), commands[0])], "second") == set(), "it waits no longer"
    assert second.lines.of(one) == (1, 0, [b"journal"])


def test_a_lease_is_one_worker_s_until_it_ends(where: str) -> None:
    first, second, sign = two_stores(where)
    assert first.leases.with_work() == [] and first.leases.take([], "first", 60) == set()
    first.commands.ask(sign, "me", BLANK)
    assert second.leases.with_work() == [sign]
    assert first.leases.take([sign], "first", 60) == {sign} and second.leases.take([sign], "second", 60) == set()
    assert second.leases.with_work() == []
    assert first.leases.renew([sign], "first", 60) == {sign} and second.leases.renew([sign], "second", 60) == set()
    assert first.leases.renew([sign], "first", -1) == {sign}
    assert first.leases.renew([sign], "first", 60) == set(), "a lease that ended is not renewed"
    assert second.leases.take([sign], "second", 60) == {sign}
    first.leases.release([sign], "first")
    assert first.leases.take([sign], "first", 60) == set(), "what another worker has is not let go"
    second.leases.release([sign], "second")
    assert first.leases.take([sign], "first", 60) == {sign}


def test_a_lease_is_by_the_database_s_clock(where: str, monkeypatch: pytest.MonkeyPatch) -> None:
    first, second, sign = two_stores(where)
    now = float(first.database.run("SELECT {clock}")[0][0] or 0)
    for clock in ("time", "monotonic"):
        monkeypatch.setattr(time, clock, lambda: 7.0)
    assert first.leases.take([sign], "first", 60) == {sign}
    until = float(first.database.run("SELECT leased_until FROM signs WHERE id = ?", sign)[0][0] or 0)
    assert now + 60 <= until <= now + 120, "a worker's clock that is wrong changes no lease"
    assert second.leases.take([sign], "second", 60) == set()


def test_commands_have_their_turns(where: str) -> None:
    first, second, sign = two_stores(where)
    numbers = [first.commands.ask(sign, "me", line) for line in ("blank 1 1 1 192.0.2.1", "blank 2 1 1 192.0.2.1")]
    found = second.commands.next(sign)
    assert found is not None and found.id == numbers[0]
    second.lines.insert([Line(sign, 1, found.line.encode(), found.id)], "second")
    assert first.commands.begun(sign) == (found, 1)
    first.commands.end(found.id, "accepted")
    second.commands.end(found.id, "failed")
    assert first.commands.how(found.id) == "accepted" and first.commands.begun(sign) is None
    following = first.commands.next(sign)
    assert following is not None and following.id == numbers[1]
    assert first.database.run("SELECT who, what FROM audit ORDER BY id") == [
        ("me", "one: blank 1 1 1 192.0.2.1"),
        ("me", "one: blank 2 1 1 192.0.2.1"),
    ]


def test_the_ledger_goes_on_from_what_waits_alone(where: str) -> None:
    first, second, sign = two_stores(where)
    first.lines.keep([News(sign, ["ledger 4 ff waiting", "ledger 9 ee waiting"])])
    second.lines.keep([News(sign, ["ledger 4 ff refused 5"])])
    first.lines.keep([News(sign, ["ledger 4 ff waiting"])])
    assert first.lines.ledger(sign) == ["ledger 4 ff refused 5", "ledger 9 ee waiting"]
    assert first.lines.replace(Line(sign, 1, b"journal", is_first=True), "first", "")
    assert not second.lines.replace(Line(sign, 1, b"journal", is_first=True), "second", "")
    assert first.lines.ledger(sign) == ["ledger 4 ff refused 5", "ledger 9 ee unknown"]


def test_a_reading_is_a_row_where_it_is_another(where: str) -> None:
    first, second, sign = two_stores(where)
    assert (
        first.readings.to_read() == [sign]
        and first.readings.due([sign]) == [(sign, -1)]
        and second.readings.due([sign]) == []
    )
    assert [store.readings.numbers([sign])[sign] for store in (first, second, first)] == [-2, -3, -4]
    first.readings.keep([Said(sign, -1, 5, "a")])
    assert first.readings.of(sign) == [(5, "a", None)]
    first.readings.keep([Said(sign, -5, 4, "a"), Said(sign, -4, 3, "a")])
    assert first.readings.of(sign) == [(4, "a", None)]
    second.readings.keep([Said(sign, -7, fault="no reply")])
    first.readings.keep([Said(sign, -6, 4, "b")])
    assert first.readings.of(sign) == [
        (None, None, "no reply"),
        (4, "a", None),
    ], "one that comes late is not the newest"


def test_numbers_are_taken_anew_where_the_last_ones_may_be_forgotten(where: str) -> None:
    first, second, sign = two_stores(where)

    def ask(store: Store) -> list[tuple[int, int]]:
        store.database.run("UPDATE hearings SET read_at = 0")
        return store.readings.due([sign])

    assert ask(first) == [(sign, -1)] and ask(second) == [(sign, -2)]
    first.readings.anew([sign])
    assert ask(second) == [(sign, -BLOCK - 1)] and ask(first) == [(sign, -BLOCK - 2)]
    first.readings.keep([Said(sign, -BLOCK - 2, 5, "{}")])
    first.database.run("DELETE FROM hearings")  # as a crash of PostgreSQL does
    found = sign_view(second.database, sign)
    assert first.readings.to_read() == [sign] and found is not None and found.heard is not None
    assert ask(first) == [(sign, -2 * BLOCK - 1)]
    first.readings.keep([Said(sign, -2 * BLOCK - 1, 4, "{}")])
    assert first.readings.of(sign) == [(4, "{}", None)], "and what is said still is no new row"
    while len(ask(second)) and second.database.run("SELECT number > floor FROM hearings")[0][0]:
        pass
    assert ask(first) == [(sign, -3 * BLOCK - 1)], "below all that were taken"


def test_a_table_has_the_newest_of_each_row(where: str) -> None:
    first, second, sign = two_stores(where)
    assert first.messages.due([sign], 60) == [sign] and second.messages.due([sign], 60) == []
    first.messages.want(sign)
    assert second.messages.to_read(60) == [sign] == second.messages.due([sign], 60) and first.messages.to_read(60) == []
    first.messages.keep([RowSaid(sign, 3, 1, -1, 1, None), RowSaid(sign, 3, 2, -2, 4, "a")])
    second.messages.keep([RowSaid(sign, 3, 2, -4, 4, "b"), RowSaid(sign, 3, 1, -5, 5, "c")])
    first.messages.keep([RowSaid(sign, 3, 2, -3, 4, "late"), RowSaid(sign, 3, 1, -6, 1, None)])
    assert [row[:4] for row in first.messages.of(sign)] == [(3, 1, 1, None), (3, 2, 4, "b")]


def test_numbers_of_readings_are_used_up_once(where: str) -> None:
    store, _, sign = two_stores(where)
    store.database.run("UPDATE signs SET reading_number = ? WHERE id = ?", -(2**31) + 1, sign)
    assert (
        store.readings.numbers([sign]) == {sign: -(2**31)}
        and store.readings.numbers([sign]) == {}
        and store.readings.due([sign]) == []
    )


def test_a_command_and_its_audit_are_one(where: str) -> None:
    first, second, sign = two_stores(where)
    for name in ("me", "you"):
        person(first.database, name)
    lines = [(sign, BLANK), (sign, BLANK)]
    batch = first.commands.ask_all(lines, "me", "nothing", "a confirmation")
    assert second.commands.ask_all(lines, "me", "nothing", "a confirmation") == batch, "it counts once"
    with pytest.raises(Taken):
        second.commands.ask_all(lines, "you", "nothing", "a confirmation")
    with pytest.raises(Taken):
        second.commands.ask_all([(sign, BLANK), (sign + 1, BLANK)], "me", "nothing", "another confirmation")
    commands = [int(row[0] or 0) for row in first.database.run("SELECT command FROM batch_commands ORDER BY command")]
    assert first.commands.withdraw(commands[0], "you") and not first.commands.withdraw(commands[0], "me")
    assert not first.commands.withdraw(commands[1] + 100, "me")
    assert first.commands.how(commands[0]) == "withdrawn by you" and first.commands.how(commands[1]) is None
    noted = [("me", f"one: {BLANK}")] * 2 + [("you", f"one: command {commands[0]} is withdrawn")]
    assert first.database.run("SELECT who, what FROM audit ORDER BY id") == noted


def test_of_two_that_ask_at_the_same_time_one_is_told(where: str) -> None:
    """Each has seen that nothing was asked for yet: who comes second has not seen what the first one asks for."""
    first, second, sign = two_stores(where)
    both, said = threading.Barrier(2), list[object]()
    for name in ("me", "you"):
        person(first.database, name)

    def ask(store: Store, who: str, word: str, newest: int) -> None:
        both.wait()
        try:
            said.append(store.commands.ask_all([(sign, BLANK)], who, "nothing", word, newest=newest))
        except Meanwhile as refused:
            said.append(str(refused))

    for turn in range(8):
        said.clear()
        newest = first.commands.newest([sign])
        threads = [
            threading.Thread(target=ask, args=(store, who, f"{turn} {who}", newest))
            for store, who in ((first, "me"), (second, "you"))
        ]
        for thread in threads:
            thread.start()
        for thread in threads:
            thread.join()
        (words,) = [one for one in said if isinstance(one, str)]
        assert words.endswith("has asked for something else of one meanwhile") and len(said) == 2
        assert first.database.run("SELECT count(*) FROM commands") == [(turn + 1,)]
