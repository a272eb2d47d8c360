"""Copies of a database in use, and a restore, after which no number is used that was used since the copy."""

import pathlib
import stat
import threading

import pytest

from wisangub.refusal import Refusal
from wisangub.room.fleet import LAST_NUMBER
from wisangub.room.store import advance, backup, database
from wisangub.room.store.lines import Line
from wisangub.room.store.store import Store
from wisangub.room.store.values import whole
from wisangub.room.worker.session import RESTORED
from wisangub.snmp import wire

from .bench import HELLO, Bench, bench
from .test_database import BLANK, two_stores
from .test_worker import begin, carried_on


def numbers_sent(at: Bench) -> dict[int, set[bytes]]:
    """The octets of each request's number that came to the sign."""
    sent: dict[int, set[bytes]] = {}
    for octets in list(at.live.requests):
        message = wire.spelled(octets)
        assert message is not None
        sent.setdefault(message.number, set()).add(octets)
    return sent


def test_a_copy_is_whole_while_others_write(tmp_path: pathlib.Path, where: str) -> None:
    store, other, sign = two_stores(where)
    is_done = threading.Event()

    def write() -> None:
        number = 0
        while not is_done.is_set():
            number += 1
            assert other.lines.insert([Line(sign, number, b"tick")], "me") == {sign}
            other.commands.ask(sign, "me", BLANK)

    writer = threading.Thread(target=write)
    writer.start()
    try:
        backup.copy(where, tmp_path / "copy")
    finally:
        is_done.set()
        writer.join()
    assert stat.S_IMODE((tmp_path / "copy").stat().st_mode) == 0o600
    with pytest.raises(Refusal, match="is there already"):
        backup.copy(where, tmp_path / "copy")
    if not database.is_url(where):
        copied = database.connected(str(tmp_path / "copy"))
        lines, commands = copied.run("SELECT count(*), max(number) FROM lines"), copied.run("SELECT id FROM commands")
        assert lines[0][0] == (lines[0][1] or 0) and abs(len(commands) - int(lines[0][0] or 0)) <= 1
        assert sorted(whole(row[0]) for row in commands) == list(range(1, len(commands) + 1))


def test_a_restored_database_uses_no_number_again(tmp_path: pathlib.Path, where: str, empty: str) -> None:
    with bench(tmp_path, where) as at:
        worker = at.worker()
        assert at.ended(worker, at.ask(HELLO)) == "accepted"
        begun, waiting = at.ask(HELLO.replace("3 1", "3 2")), at.ask(HELLO)
        found = at.session("first")
        begin(found)
        carried_on(found, 2)
        backup.copy(where, tmp_path / "copy")
        carried_on(found, 1000)
        found.close()
        assert at.ended(worker, waiting) == "accepted"
        while worker.sessions:
            worker.round()
        before = numbers_sent(at)
        told = backup.restore(empty, tmp_path / "copy", "me", None)
        assert "2 commands that had not ended are ended as unknown" in told
        assert "Users and tokens that were ended since count again" in told, "which somebody has to end once more"
        at.where, at.store = empty, Store(database.opened(empty))
        assert [at.store.commands.how(begun), at.store.commands.how(waiting)] == [RESTORED, advance.NOT_DONE]
        assert at.ended(at.worker(), at.ask(HELLO)) == "accepted"
        after = numbers_sent(at)
        new = set(after) - set(before)
        assert {number for number in new if number >= 0} and {number for number in new if number < 0}
        assert all(after[number] == before[number] for number in before)
        assert min(number for number in new if number >= 0) > max(before) + advance.LEAST_STEP / 2
        who, what = at.store.database.run("SELECT who, what FROM audit WHERE what LIKE 'restored%'")[0]
        assert who == "me" and "above all that were used before" in str(what)


def test_the_first_number_is_said_by_hand(where: str) -> None:
    store, _, sign = two_stores(where)
    head = b"journal 1 centre rules 1 description x first 70"
    assert store.lines.insert([Line(sign, 1, head, is_first=True)], "me") == {sign}
    assert store.lines.insert([Line(sign, 2, b"tick")], "me") == {sign}
    for first, words in ((70, "has used numbers up to 70"), (LAST_NUMBER + 1, "say --first NUMBER")):
        with pytest.raises(Refusal, match=words):
            advance.advance(store, "me", first)
    assert store.lines.of(sign)[1] == 0, "a restore that is refused changes nothing"
    assert advance.advance(store, "me", 71).least == 71 and store.lines.of(sign)[1] == 71
    assert advance.advance(store, "me", None).least == 71 + advance.LEAST_STEP


def test_seconds_that_passed_are_numbers_that_were_used(where: str) -> None:
    store, _, sign = two_stores(where)
    store.database.run("UPDATE signs SET read_at = {clock} - 100000")
    found = advance.advance(store, "me", None)
    assert found.left_out >= 100_000 * advance.LINES_A_SECOND and found.least == found.left_out
    store.database.run("UPDATE signs SET read_at = {clock} + 100000")
    with pytest.raises(Refusal, match="clock is before its newest entry"):
        advance.advance(store, "me", None)
    advance.advance(store, "me", 50_000_000)
    for table, column in (("signs", "read_at"), ("audit", "at")):
        store.database.run(f"UPDATE {table} SET {column} = {{clock}} - 30000000")
    with pytest.raises(Refusal, match="none is left"):
        advance.advance(store, "me", None)


def test_what_is_there_is_not_overwritten(tmp_path: pathlib.Path, where: str, empty: str) -> None:
    store, _, sign = two_stores(where)
    backup.copy(where, tmp_path / "copy")
    with pytest.raises(Refusal, match="where there is none"):
        backup.restore(where, tmp_path / "copy", "me", None)
    (tmp_path / "bad").write_bytes(b"no copy" * 100)
    with pytest.raises(Refusal):
        backup.restore(empty, tmp_path / "bad", "me", None)
    if database.is_url(where):
        with pytest.raises(Refusal, match="its restore failed"):
            database.opened(empty)
    assert not list(tmp_path.glob("*.part"))
