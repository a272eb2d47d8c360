"""Commands whose turn does not come: they are given up, are an alarm, and are not carried out hours later."""

import dataclasses
import pathlib
import time

from wisangub.room.store import alarms, plans
from wisangub.room.store.connection import Database
from wisangub.room.worker.late import Late
from wisangub.snmp import wire

from .bench import HELLO, PACE, bench, carried
from .people import person
from .test_clock import AHEAD, jump
from .test_database import BLANK, OTHER, SIGN, two_stores

LINE = "publish 3 1 464f47 6d65 0 0 100 65535 100 192.0.2.1"
NOT_COME = "given up: its turn did not come within 600 seconds"


def waited(database: Database, seconds: float) -> None:
    """Each command was asked for so much earlier."""
    database.run("UPDATE commands SET asked_at = asked_at - ?", seconds)


def said(database: Database) -> list[str]:
    return [str(row[0]) for row in database.run("SELECT what FROM audit ORDER BY id")]


def test_a_command_that_waits_for_too_long_is_given_up(where: str) -> None:
    store = two_stores(where)[0]
    sign, other = store.signs.enter([SIGN, OTHER])
    first = store.commands.ask(sign, "ann", BLANK)
    waited(store.database, 601)
    second = store.commands.ask(other, "ben", BLANK)
    store.commands.give_up(store.commands.waiting(600), 600)
    assert store.commands.how(first) == NOT_COME and store.commands.how(second) is None
    assert said(store.database)[-1] == f"{SIGN.name}: command {first} is given up"
    assert store.leases.with_work() == [other]
    before = said(store.database)
    store.commands.give_up(store.commands.waiting(600), 600)
    assert said(store.database) == before, "once"
    store.alarms.look()
    (alarm,) = alarms.listed(store.database)
    assert (alarm.sign_name, alarm.what) == (SIGN.name, f"command {first} {NOT_COME}")


def test_a_worker_puts_nothing_up_that_waited_for_too_long(tmp_path: pathlib.Path, where: str) -> None:
    """Also where it waited since no worker stood."""
    with bench(tmp_path, where) as at:
        old = at.ask(HELLO)
        waited(at.store.database, 601)
        new = at.ask(BLANK)
        worker = at.worker()
        assert at.ended(worker, new) == "accepted" and at.store.commands.how(old) == NOT_COME
        assert len(at.store.lines.ledger(at.sign_id)) == 1


def test_how_long_a_worker_waits_is_its_setting(tmp_path: pathlib.Path, where: str) -> None:
    with bench(tmp_path, where) as at:
        command = at.ask(HELLO)
        waited(at.store.database, 601)
        worker = at.worker(dataclasses.replace(PACE, give_up=3600.0))
        assert at.ended(worker, command) == "accepted"
        late = at.ask(HELLO)
        waited(at.store.database, 4000)
        worker = at.worker(dataclasses.replace(PACE, give_up=3600.0))
        assert at.ended(worker, late) == "given up: its turn did not come within 3600 seconds"


def test_a_clock_that_is_set_forward_gives_nothing_up(tmp_path: pathlib.Path, where: str) -> None:
    with bench(tmp_path, where) as at:
        before = at.ask(HELLO)
        worker = at.worker()
        jump(worker.store.database, AHEAD)
        assert at.ended(worker, before) == "accepted"


def test_what_a_worker_has_seen_wait_for_too_long_is_given_up(where: str) -> None:
    store = two_stores(where)[0]
    (sign,) = store.signs.enter([SIGN])
    late = Late(store.commands, 0.2)
    command = store.commands.ask(sign, "ann", BLANK)
    late.give_up()
    assert store.commands.how(command) is None
    time.sleep(0.3)
    late.give_up()
    assert store.commands.how(command) == "given up: its turn did not come within 0.2 seconds"


def test_what_is_under_way_is_its_centres_to_end(tmp_path: pathlib.Path, where: str) -> None:
    with bench(tmp_path, where) as at:
        command = at.ask(HELLO)
        session = at.session("first")
        carried(session, session.offer(False))
        waited(at.store.database, 4000)
        at.store.commands.give_up(at.store.commands.waiting(600), 600)
        assert at.store.commands.how(command) is None
        session.close()
        at.store.database.run("UPDATE signs SET leased_by = NULL")
        assert at.ended(at.worker(), command) == "accepted"
        assert any(wire.read(octets).kind == wire.SET for octets in at.live.requests)


def test_a_plan_takes_nothing_off_that_it_could_not_put_on(where: str) -> None:
    store = two_stores(where)[0]
    sign, _ = store.signs.enter([SIGN, OTHER])
    database = store.database
    person(database, "ann")
    plan = plans.keep(database, "night", [(sign, LINE)], "ann")
    plans.begin(database, plan, "ann")
    waited(database, 601)
    store.commands.give_up(store.commands.waiting(600), 600)
    plans.end(database, plan, "ann")
    assert [str(row[0]) for row in database.run("SELECT line FROM commands")] == [LINE]
