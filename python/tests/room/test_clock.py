"""A database whose clock jumps ahead and back again: what stands there at a time to come is due, over or stale."""

import pathlib

from wisangub.room.store import database
from wisangub.room.store.database import Database
from wisangub.room.store.queries import now as time_now
from wisangub.room.store.queries import sign as sign_view
from wisangub.room.store.readings import Said
from wisangub.room.store.store import Store

from .bench import HELLO, bench
from .test_database import BLANK, two_stores

AHEAD = 13 * 3600.0


def jump(held: Database, seconds: float) -> None:
    """The clock as this connection sees it is elsewhere."""
    held.clock = f"({type(held).clock} + {seconds})"


def test_a_reading_that_was_asked_at_a_time_to_come_is_due(where: str) -> None:
    store, other, sign = two_stores(where)
    jump(store.database, AHEAD)
    assert store.readings.due([sign]) == [(sign, -1)] and store.messages.due([sign], 60) == [sign]
    assert store.readings.to_read() == [] == store.messages.due([sign], 60) == store.messages.to_read(60)
    assert other.readings.to_read() == [sign] == other.messages.to_read(60) == other.messages.due([sign], 60)
    assert other.readings.due([sign]) == [(sign, -2)] and other.readings.to_read() == [] == other.messages.due(
        [sign], 60
    )


def test_a_lease_that_was_taken_at_a_time_to_come_is_over(where: str) -> None:
    store, other, sign = two_stores(where)
    store.commands.ask(sign, "me", BLANK)
    jump(store.database, AHEAD)
    assert store.leases.take([sign], "first", 60) == {sign} and store.leases.with_work() == []
    assert other.leases.with_work() == [sign] and other.leases.take([sign], "second", 60) == {sign}
    assert other.leases.with_work() == [] == list(other.leases.take([sign], "third", 60))
    jump(other.database, 30.0)
    assert other.leases.renew([sign], "second", 60) == {sign}
    jump(other.database, 0.0)
    assert other.leases.take([sign], "third", 60) == {sign}, "a renewal counts as it was written"


def test_a_lease_lasts_as_long_as_it_was_taken_for(where: str) -> None:
    store, other, sign = two_stores(where)
    assert store.leases.take([sign], "first", 60) == {sign}
    for seconds, taken in ((-AHEAD, {sign}), (61.0, {sign}), (59.0, set())):
        jump(other.database, 0.0)
        store.database.run("UPDATE signs SET leased_by = 'first', leased_at = {clock}, leased_until = {clock} + 60")
        jump(other.database, seconds)
        assert other.leases.take([sign], "second", 60) == taken, seconds


def test_what_was_heard_at_a_time_to_come_is_stale(where: str) -> None:
    store, other, sign = two_stores(where)
    jump(store.database, AHEAD)
    store.readings.keep([Said(sign, -1, 5, '{"mode": 8}')])
    for held, is_stale in ((store.database, False), (other.database, True)):
        found = sign_view(held, sign)
        assert found is not None and found.is_stale(time_now(held)) is is_stale
    other.readings.keep([Said(sign, -2, 5, '{"mode": 8}')])
    found = sign_view(other.database, sign)
    assert found is not None and not found.is_stale(time_now(other.database)), "it is heard again"


def test_a_worker_goes_on_where_one_was_killed_as_the_clock_was_ahead(tmp_path: pathlib.Path, where: str) -> None:
    with bench(tmp_path, where) as at:
        command = at.ask(HELLO)
        first = at.worker()
        jump(first.store.database, AHEAD)
        first.look()
        assert list(first.sessions) == [at.sign_id]
        for session in first.sessions.values():
            session.close()  # and nothing is released, as where it was killed
        assert at.ended(at.worker(), command) == "accepted"
        assert len(set(at.live.accepted)) == 1


def test_a_clock_that_is_behind_the_database_lets_no_number_come_twice(where: str) -> None:
    """Numbers are counted, and no clock decides them."""
    store = Store(database.opened(where))
    other, sign = two_stores(where)[1:]
    numbers = []
    for seconds in (AHEAD, 0.0, -AHEAD, AHEAD):
        jump(store.database, seconds)
        numbers += [store.readings.due([sign])[0][1], other.readings.numbers([sign])[sign]]
    assert len(set(numbers)) == len(numbers) and all(
        of == sorted(of, reverse=True) for of in (numbers[::2], numbers[1::2])
    )
