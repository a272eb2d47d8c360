"""A database of an earlier version is carried over, by each engine: its rows stand under the new names."""

import pathlib

import pytest

from wisangub.refusal import Refusal
from wisangub.room.store import backup, database
from wisangub.room.store.commands import Command
from wisangub.room.store.database import Database, Taken
from wisangub.room.store.store import Store

from .bench import HELLO, bench
from .test_database import BLANK

BEFORE = 14  # the last migration of the version before
OLD = (
    "INSERT INTO signs (name, place, address, poll, holder, until, centre, polled, reading_number, least, tabled,"
    " wanted, leased) VALUES ('one', 'here', '127.0.0.1:1161', 10, 'a worker', 90, 3, 70, -9, 1000, 60, 1, 80)",
    "INSERT INTO signs (name, place, address, poll) VALUES ('two', 'there', '127.0.0.1:1162', 10)",
    "INSERT INTO commands (sign, who, at, line, number, ended, how, step, why)"
    " SELECT id, 'me', 11, 'blank 2 0 0 127.0.0.1', 4, 12, 'accepted', 7, 'nothing' FROM signs WHERE name = 'one'",
    "INSERT INTO commands (sign, who, at, line, number)"
    " SELECT id, 'me', 21, '{blank}', 5 FROM signs WHERE name = 'one'",
    "INSERT INTO commands (sign, who, at, line) SELECT id, 'you', 31, '{blank}' FROM signs WHERE name = 'one'",
)


def known_before() -> list[tuple[int, str]]:
    """The migrations of the version before."""
    return [one for one in database.migrations() if one[0] <= BEFORE]


def old(where: str) -> Database:
    """A database of the version before, with rows."""
    made = database.connected(where)
    database.migrate(made, known_before())
    for statement in OLD:
        made.run(statement.replace("{blank}", BLANK))
    return made


def check(made: Database) -> None:
    """Its rows stand under the new names, and its keys refuse what they refused."""
    store = Store(made)
    one = int(made.run("SELECT id FROM signs WHERE name = 'one'")[0][0] or 0)
    assert made.run("SELECT first_number, centre FROM signs ORDER BY name") == [(1000, 3), (0, 1)]
    commands = made.run("SELECT who, asked_at, line_number, ended, outcome, step, why FROM commands ORDER BY id")
    assert commands[0] == ("me", 11, 4, 12, "accepted", 7, "nothing")
    assert commands[1:] == [("me", 21, 5, None, None, None, None), ("you", 31, None, None, None, None, None)]
    number = int(made.run("SELECT max(id) FROM commands")[0][0] or 0)
    assert store.commands.begun(one) == (Command(number - 1, BLANK), 5) and store.commands.next(one) == Command(
        number, BLANK
    )
    with pytest.raises(Taken):
        made.run("UPDATE commands SET line_number = 6 WHERE id = ?", number)
    assert store.leases.take([one], "another", 10.0) == {one}, "the lease of before is over"


def test_a_database_of_before_is_carried_over(nowhere: str, capsys: pytest.CaptureFixture[str]) -> None:
    old(nowhere).close()
    made = database.opened(nowhere)
    said = capsys.readouterr().err
    assert "an earlier program refuses it" in said and "wisangub-control backup copy" in said
    signs = made.run(
        "SELECT leased_by, leased_until, leased_at, read_at, table_read_at, table_wanted FROM signs ORDER BY name"
    )
    assert signs == [("a worker", 90, 80, 70, 60, 1), (None, 0, 0, 0, 0, 0)]
    check(made)
    database.opened(nowhere).close()
    assert not capsys.readouterr().err, "it is said once"


def test_a_program_of_before_refuses_it(where: str) -> None:
    made = database.opened(where)
    with pytest.raises(Refusal, match=f"of a newer program: it has migration {database.migrations()[-1][0]}"):
        database.migrate(made, known_before())


def test_a_copy_of_before_stays_one_and_is_carried_over(nowhere: str, empty: str, tmp_path: pathlib.Path) -> None:
    before = old(nowhere)
    backup.copy(nowhere, tmp_path / "copy")
    assert before.run("SELECT holder FROM signs WHERE name = 'one'") == [("a worker",)], "a copy changes nothing"
    if not database.is_url(nowhere):
        copied = database.connected(str(tmp_path / "copy"))
        assert copied.run("SELECT how FROM commands ORDER BY id") == [("accepted",), (None,), (None,)]
        copied.close()
    backup.restore(empty, tmp_path / "copy", "me", 5_000_000)
    made = database.opened(empty)
    outcomes = [str(row[0]).split(":")[0] for row in made.run("SELECT outcome FROM commands ORDER BY id")]
    assert outcomes == ["accepted", "unknown", "unknown"]
    assert made.run("SELECT leased_by FROM signs ORDER BY id") == [(None,), (None,)]


def test_a_worker_ends_where_a_newer_program_has_the_database(tmp_path: pathlib.Path, where: str) -> None:
    """It knows not what that one's tables mean, and drives no sign by them."""
    with bench(tmp_path, where) as at:
        worker = at.worker()
        at.ask(HELLO)
        while not worker.sessions:
            worker.guarded_round()
        at.store.database.run("INSERT INTO migrations (number, at) VALUES (900, {clock})")
        worker.next_renewal = 0.0
        with pytest.raises(Refusal, match="of a newer program: it has migration 900"):
            worker.run()
        assert not worker.sessions
        assert at.store.database.run("SELECT leased_by FROM signs") == [(None,)], "the next one goes on at once"


def test_files_of_a_newer_program_carry_nothing_over(tmp_path: pathlib.Path) -> None:
    """As they come into the place of those of a service that stands."""
    (tmp_path / "001_a.sql").write_text("CREATE TABLE a (b BIGINT);\n")
    known = database.migrations(tmp_path)
    (tmp_path / "002_c.sql").write_text("CREATE TABLE c (d BIGINT);\n")
    assert [number for number, _ in known] == [1] == [number for number, _ in database.migrations(tmp_path)]
