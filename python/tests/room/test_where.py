"""Addresses by what they resolve to, at the start and whenever a name resolves anew."""

import pathlib
import socket
import time
from collections import Counter
from typing import Any

import pytest

from wisangub.endpoint.sockets import Waiting
from wisangub.refusal import Refusal
from wisangub.room import addresses
from wisangub.room.addresses import Addresses, looked_up, of_places
from wisangub.room.fleet import Sign
from wisangub.room.store import database
from wisangub.room.store.addresses import MARGIN
from wisangub.room.store.queries import signs as sign_views
from wisangub.room.store.store import Store
from wisangub.room.worker.rounds import Pace, Worker
from wisangub.room.worker.where import Where
from wisangub.snmp import wire

from .bench import HELLO, PROGRAM, TICK, Bench, bench
from .test_signs import least_of, sign, used

AGAIN = 0.1
PACE = Pace(tick=TICK, lease=10.0, look=0.05, again=AGAIN)
PATIENCE = 60.0


class Names:
    """Names that resolve to what a test says; all others as they do. How often each was asked for is counted."""

    def __init__(self, monkeypatch: pytest.MonkeyPatch) -> None:
        self.before = socket.getaddrinfo
        self.of: dict[str, list[str]] = {}
        self.asked: Counter[str] = Counter()
        monkeypatch.setattr(addresses, "getaddrinfo", self.getaddrinfo)

    def getaddrinfo(self, host: str, port: int, **words: Any) -> Any:
        if not host.endswith(".example"):
            return self.before(host, port, **words)
        if not words["flags"]:
            self.asked[host] += 1
        found = [] if words["flags"] else self.of.get(host, [])
        if not found:
            raise socket.gaierror(socket.EAI_NONAME, "Name or service not known")
        return [one for address in found for one in self.before(address, port, **words)]

    def again(self) -> None:
        """Waits until each was looked up anew from now on: what that found is known once it is asked for once more."""
        wanted, ends = {host: count + 2 for host, count in self.asked.copy().items()}, time.monotonic() + PATIENCE
        while any(self.asked[host] < count for host, count in wanted.items()):
            assert time.monotonic() < ends, "names are looked up again and again"
            time.sleep(AGAIN / 10)


@pytest.fixture
def names(monkeypatch: pytest.MonkeyPatch) -> Names:
    return Names(monkeypatch)


def named(name: str, host: str, port: int = 1161) -> Sign:
    return Sign(name, "", host, port, b"", b"public", 10.0, 1)


def looks(where: Where, store: Store, names: Names) -> list[str | None]:
    """Why each sign stands still, once each name was looked up again."""
    where.next_look = 0.0
    names.again()
    where.look()
    return [one.still for one in sign_views(store.database)]


def test_an_address_is_spelled_in_one_way() -> None:
    one = {"127.0.0.1", "127.1", "localhost", "::ffff:127.0.0.1", "0.0.0.0", "0"}
    assert all("127.0.0.1:7" in looked_up((host, 7)).every for host in one)
    assert {looked_up((host, 7)).every for host in ("::1", "0:0::1", "::")} == {frozenset({"[::1]:7"})}
    assert looked_up(("192.0.2.1", 7)).every == {"192.0.2.1:7"} and looked_up(("192.0.2.1", 8)).every == {"192.0.2.1:8"}


def test_a_name_with_many_addresses_is_spoken_to_at_one(names: Names) -> None:
    order = ["::1", "127.0.0.2", "127.0.0.1"]
    for _ in range(3):
        order.append(order.pop(0))
        names.of["a.example"] = order
        found = looked_up(("a.example", 7))
        assert found.host == "127.0.0.1" and found.every == {"127.0.0.1:7", "127.0.0.2:7", "[::1]:7"}


def test_a_name_that_is_found_no_more_stands_for_what_it_was(names: Names) -> None:
    held = Addresses([("a.example", 7), ("127.1", 7)], AGAIN).wait()
    assert held.of(("a.example", 7)).fault == "a.example: Name or service not known"
    assert held.of(("127.1", 7)).host == "127.0.0.1"
    for count in (1, 0):
        names.of["a.example"] = ["127.0.0.3"] * count
        names.again()
        assert held.of(("a.example", 7)).host == "127.0.0.3"
    held.close()


def test_many_names_are_not_waited_for_for_ever(monkeypatch: pytest.MonkeyPatch) -> None:
    def slow(*_: Any, **words: Any) -> Any:
        if not words["flags"]:
            time.sleep(60)
        raise socket.gaierror(socket.EAI_AGAIN, "Temporary failure in name resolution")

    monkeypatch.setattr(addresses, "getaddrinfo", slow)
    monkeypatch.setattr(addresses, "PATIENCE", 0.5)
    begun = time.monotonic()
    found = Addresses([(f"{at}.example", 7) for at in range(1000)]).wait(0.5)
    found.close()
    assert time.monotonic() - begun < 50 and "being looked up" in found.of(("3.example", 7)).fault


@pytest.mark.parametrize("host", ("localhost", "127.1", "::ffff:127.0.0.1"))
def test_a_sign_of_the_database_under_another_spelling_is_refused(where: str, host: str) -> None:
    store = Store(database.opened(where))
    store.signs.enter([sign("one", 1161)])
    store.database.run("DELETE FROM addresses WHERE address <> '127.0.0.1:1161'")  # as a program of before left it
    found = of_places([(host, 1161)])[host, 1161]
    with pytest.raises(Refusal, match="rename 'one' 'two'"):
        store.signs.enter([Sign("two", "", host, 1161, b"", b"public", 10.0, 1, found.every)])
    assert store.database.run("SELECT name FROM signs") == [("one",)]


def test_the_second_that_comes_to_one_address_stands_still(
    where: str, names: Names, capfd: pytest.CaptureFixture[str]
) -> None:
    names.of.update({"a.example": ["127.0.0.1"], "b.example": ["127.0.0.2"]})
    store = Store(database.opened(where))
    rows = store.signs.enter([named("a", "a.example"), named("b", "b.example")])
    one, two = rows
    used(store, one, 70, -400)
    held = Where(store, rows, AGAIN)
    assert looks(held, store, names) == [None, None] and held.signs[two].host == "127.0.0.2"
    names.of["b.example"] = ["127.0.0.2", "127.0.0.1"]
    assert looks(held, store, names) == [None, "its address is that of a"] and set(held.signs) == {one}
    assert "b: it stands still: its address is that of a" in capfd.readouterr().err
    names.of["a.example"] = ["127.0.0.3"]
    assert looks(held, store, names) == [None, None] and held.signs[two].host == "127.0.0.1"
    assert least_of(store, two) == (72 + MARGIN, -400 - MARGIN), "a stood where b is"
    assert "b: it goes on, at 127.0.0.1" in capfd.readouterr().err
    held.close()


def test_where_nothing_resolves_anew_no_sign_is_looked_at(
    where: str, names: Names, monkeypatch: pytest.MonkeyPatch
) -> None:
    names.of.update({"a.example": ["127.0.0.1"]})
    store = Store(database.opened(where))
    held = Where(store, store.signs.enter([named("a", "a.example"), named("b", "127.0.0.2")]), AGAIN)
    assert looks(held, store, names) == [None, None]
    asked: list[object] = []
    monkeypatch.setattr(held.addresses, "of", asked.append)
    assert held.look() == set() and asked == []
    held.close()


def test_two_that_change_places_go_on_above_one_another(where: str, names: Names) -> None:
    names.of.update({"a.example": ["127.0.0.1"], "b.example": ["127.0.0.2"]})
    store = Store(database.opened(where))
    rows = store.signs.enter([named("a", "a.example"), named("b", "b.example")])
    one, two = rows
    used(store, one, 70, -400)
    used(store, two, 5, -3)
    held = Where(store, rows, AGAIN)
    assert looks(held, store, names) == [None, None]
    names.of.update({"a.example": ["127.0.0.2"], "b.example": ["127.0.0.1"]})
    looks(held, store, names)
    assert looks(held, store, names) == [None, None]
    assert (held.signs[one].host, held.signs[two].host) == ("127.0.0.2", "127.0.0.1")
    assert least_of(store, two)[0] == 72 + MARGIN and least_of(store, one)[0] == 72 + 2 * MARGIN
    held.close()


def worker_of(at: Bench) -> Worker:
    store = Store(database.opened(at.where))
    return Worker(store, at.signs(store), PROGRAM, PACE, Waiting())


def until(worker: Worker, at: Bench, still: list[str | None]) -> None:
    """Rounds, until the signs stand still as is said."""
    ends = time.monotonic() + PATIENCE
    while (found := [one.still for one in sign_views(at.store.database)]) != still:
        assert time.monotonic() < ends, found
        worker.guarded_round()


def test_a_sign_whose_name_does_not_resolve_waits(
    tmp_path: pathlib.Path, where: str, names: Names, monkeypatch: pytest.MonkeyPatch, capfd: pytest.CaptureFixture[str]
) -> None:
    with bench(tmp_path, where) as at:
        at.fleet.write_text(at.fleet.read_text().replace("127.0.0.1", "a.example"))
        worker, command = worker_of(at), at.ask(HELLO)
        words = "its address is not known, so it waits: a.example: Name or service not known"
        until(worker, at, [words])
        for _ in range(5):
            worker.guarded_round()
        assert at.store.commands.how(command) is None and not at.live.requests and not worker.sessions
        assert f"one: it stands still: {words}" in capfd.readouterr().err
        names.of["a.example"] = ["127.0.0.1"]
        assert at.ended(worker, command) == "accepted" and len(at.live.accepted) == 1
        until(worker, at, [None])
        worker.where.close()


def test_of_two_names_for_one_sign_one_is_driven(tmp_path: pathlib.Path, where: str, names: Names) -> None:
    names.of.update({"a.example": ["127.0.0.1"], "b.example": ["127.0.0.9"]})
    with bench(tmp_path, where) as at:
        entry = at.fleet.read_text()
        at.fleet.write_text(
            entry.replace("127.0.0.1", "a.example") + entry.replace("127.0.0.1", "b.example").replace('"one"', '"two"')
        )
        worker = worker_of(at)
        until(worker, at, [None, None])
        names.of["b.example"] = ["127.0.0.1"]
        until(worker, at, [None, "its address is that of one"])
        commands = [at.store.commands.ask(row, "me", HELLO) for row in worker.where.fleet]
        assert at.ended(worker, commands[0]) == "accepted"
        for _ in range(20):
            worker.guarded_round()
        assert at.store.commands.how(commands[1]) is None and len(at.live.accepted) == 1
        sent: dict[int, set[bytes]] = {}
        for octets in at.live.requests:
            message = wire.spelled(octets)
            assert message is not None
            sent.setdefault(message.number, set()).add(octets)
        assert all(len(octets) == 1 for octets in sent.values())
        worker.where.close()
