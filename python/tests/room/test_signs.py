"""What a sign is told by: its name, and an address that is one sign's alone, whatever the fleet says."""

import pathlib
import sys

import pytest

from wisangub.refusal import Refusal
from wisangub.room import signs
from wisangub.room.fleet import Sign
from wisangub.room.store import database
from wisangub.room.store.addresses import MARGIN
from wisangub.room.store.lines import Line
from wisangub.room.store.store import Store
from wisangub.room.store.values import whole

from .bench import HELLO, Bench, bench
from .test_backup import numbers_sent


def sign(name: str, port: int) -> Sign:
    return Sign(name, "", "127.0.0.1", port, b"", b"public", 10.0, 1)


def used(store: Store, row: int, first: int, reading: int) -> None:
    """A centre that began with this number, and had two lines; and the number of the last reading."""
    begun = f"journal 1 centre rules 1 description x first {first}".encode()
    for number, line in enumerate((begun, b"tick", b"tick"), 1):
        assert store.lines.insert([Line(row, number, line, is_first=number == 1)], "me") == {row}
    store.database.run("UPDATE signs SET reading_number = ? WHERE id = ?", reading, row)


def least_of(store: Store, row: int) -> tuple[int, int]:
    """What a new centre begins above, and the next readings go on below."""
    return store.lines.used(row), whole(store.database.run("SELECT reading_number FROM signs WHERE id = ?", row)[0][0])


def renamed_in_the_fleet(at: Bench, old: str, new: str) -> None:
    at.fleet.write_text(at.fleet.read_text().replace(f'name = "{old}"', f'name = "{new}"'))


def test_a_sign_that_is_renamed_in_the_fleet_is_refused_until_it_is_renamed(tmp_path: pathlib.Path, where: str) -> None:
    with bench(tmp_path, where) as at:
        assert at.ended(at.worker(), at.ask(HELLO)) == "accepted"
        before = numbers_sent(at)
        renamed_in_the_fleet(at, "one", "north")
        with pytest.raises(
            Refusal, match="bin/wisangub-control signs --database .. rename 'one' 'north' keeps its numbers"
        ):
            at.worker()
        assert at.store.database.run("SELECT name FROM signs") == [("one",)], "nothing was entered"
        at.store.signs.rename("one", "north", "me")
        lines, ledger = at.store.lines.of(at.sign_id), at.store.lines.ledger(at.sign_id)
        worker = at.worker()
        assert list(at.signs(at.store)) == [at.sign_id] and (
            at.store.lines.of(at.sign_id),
            at.store.lines.ledger(at.sign_id),
        ) == (
            lines,
            ledger,
        )
        assert at.ended(worker, at.ask(HELLO.replace("3 1", "3 2"))) == "accepted"
        after = numbers_sent(at)
        assert all(after[number] == before[number] for number in before) and len(after) > len(before)
        assert all(len(octets) == 1 for octets in after.values())
        assert at.store.database.run("SELECT who, what FROM audit WHERE what LIKE 'sign %'") == [
            ("me", "sign one: its name is north")
        ]


def test_an_address_is_one_sign_s(where: str) -> None:
    store = Store(database.opened(where))
    rows = {sign.name: row for row, sign in store.signs.enter([sign("one", 1161), sign("two", 1162)]).items()}
    for fleet, words in (
        ([sign("three", 1161)], "rename 'one' 'three'"),
        ([sign("one", 1162)], "Where it is that sign, its name is 'two'"),
        ([sign("one", 1162), sign("two", 1161)], "127.0.0.1:1162 is the address of 'two'"),
    ):
        with pytest.raises(Refusal, match=words):
            store.signs.enter(fleet)
    assert store.database.run("SELECT name, address FROM signs ORDER BY id") == [
        ("one", "127.0.0.1:1161"),
        ("two", "127.0.0.1:1162"),
    ]
    assert list(store.signs.enter([sign("two", 1163), sign("one", 1161)])) == [rows["two"], rows["one"]]


def test_who_has_an_address_that_another_sign_had_goes_on_above_it(where: str) -> None:
    store = Store(database.opened(where))
    (one,) = store.signs.enter([sign("one", 1161)])
    used(store, one, 70, -400)
    store.signs.enter([sign("one", 1163)])
    assert least_of(store, one) == (72, -400)
    (two,) = [row for row in store.signs.enter([sign("one", 1163), sign("two", 1161)]) if row != one]
    assert least_of(store, two) == (72 + MARGIN, -400 - MARGIN)
    store.signs.enter([sign("two", 1164)])
    store.signs.enter([sign("one", 1161)])
    assert least_of(store, one) == (72 + 2 * MARGIN, -400 - 2 * MARGIN), "whichever of them stood there"


def test_numbers_that_are_a_little_above_are_not_enough(where: str) -> None:
    """A worker that does not know of it yet may drive the other one for a while."""
    store = Store(database.opened(where))
    one, two = store.signs.enter([sign("one", 1161), sign("two", 1162)])
    used(store, one, 70, -400)
    used(store, two, 80, -410)
    store.signs.enter([sign("one", 1163)])
    store.signs.enter([sign("two", 1161)])
    assert least_of(store, two) == (72 + MARGIN, -400 - MARGIN) and least_of(store, one) == (72, -400)


def test_signs_that_were_entered_under_one_address_are_parted(where: str) -> None:
    """As they are in a database of before, in which a sign was renamed in the fleet."""
    store = Store(database.opened(where))
    one, two = store.signs.enter([sign("one", 1161), sign("two", 1162)])
    used(store, one, 70, -400)
    used(store, two, 1, -3)
    store.database.run("DELETE FROM addresses")
    store.database.run("UPDATE signs SET address = '127.0.0.1:1161'")
    store.database.run(
        "INSERT INTO addresses (address, sign, now) SELECT address, max(id), 1 FROM signs GROUP BY address"
    )
    for _ in range(2):
        assert list(store.signs.enter([sign("two", 1161)])) == [two]
        assert least_of(store, two) == (72 + MARGIN, -400 - MARGIN) and least_of(store, one) == (72, -400)
    with pytest.raises(Refusal, match="rename 'two' 'three'"):
        store.signs.enter([sign("three", 1161)])


def test_a_name_is_one_sign_s(where: str, monkeypatch: pytest.MonkeyPatch, capsys: pytest.CaptureFixture[str]) -> None:
    store = Store(database.opened(where))
    store.signs.enter([sign("one", 1161), sign("two", 1162)])
    for old, new, words in (
        ("three", "four", "there is no sign 'three'"),
        ("one", "two", "a sign 'two' already"),
        ("one", "", "printable"),
        ("one", "a" * 65, "printable"),
    ):
        with pytest.raises(Refusal, match=words):
            store.signs.rename(old, new, "me")
    for call in (["rename", "one", "the first"], ["list"]):
        monkeypatch.setattr(sys, "argv", ["signs", "--database", where, *call])
        assert signs.main() == 0
    assert capsys.readouterr().out == "the first 127.0.0.1:1161\ntwo 127.0.0.1:1162\n"
