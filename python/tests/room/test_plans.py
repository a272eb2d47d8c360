"""Plans: when schedules are on, what is put on signs and taken off, once whoever looks and is killed, and the pages."""

import datetime
import os
import pathlib
import random
import re
import signal
import subprocess
import sys
import time
from dataclasses import replace
from typing import Callable

import pytest

from . import needs

needs.modules("aiohttp", "jinja2")

from wisangub.process.places import environment
from wisangub.refusal import Refusal
from wisangub.room.store import database, groups, history, plans, queries, rules
from wisangub.room.store.database import Database
from wisangub.room.store.rights import Level
from wisangub.room.store.sqlite import Sqlite
from wisangub.room.store.steady import PATIENCE
from wisangub.room.store.store import Store
from wisangub.room.store.users import Role
from wisangub.room.times import Times

from .bench import HELLO, bench
from .people import person
from .test_clock import jump
from .test_compose import GOOD, confirmation
from .test_database import BLANK, OTHER, SIGN, two_stores
from .test_rights import narrowed
from .visits import Bench, Visitor, Visitors, run

BERLIN, WEEK = "Europe/Berlin", "0123456"
HOUR = 3600.0
LINE = "publish 3 1 464f47 6d65 0 0 100 65535 100 192.0.2.1"
OFF = "blank 1 65535 100 192.0.2.1"


def second(words: str) -> float:
    """A time of UTC as seconds since 1970."""
    return datetime.datetime.fromisoformat(f"{words}+00:00").timestamp()


def times(first: str, last: str, days: str, begins: str, ends: str, zone: str = BERLIN) -> Times:
    return Times.of(first, last, days, begins, ends, zone)


def test_when_a_schedule_is_on() -> None:
    night = times("2026-11-30", "2026-12-04", "01234", "20:00", "05:00")
    begins, ends = second("2026-11-30T19:00"), second("2026-12-01T04:00")
    assert [night.on(now) for now in (begins - 1, begins, ends - 1, ends)] == [
        None,
        (begins, ends),
        (begins, ends),
        None,
    ]
    assert night.next(begins - 1) == begins and night.next(begins) == begins + 86_400
    friday = second("2026-12-04T19:00")
    assert night.on(friday + 9 * HOUR - 1) == (friday, friday + 9 * HOUR), "the last night ends on the day after"
    assert night.on(friday + 86_400) is None is night.next(friday)
    block = times("2026-11-30", "2026-12-04", "", "20:00", "05:00")
    assert block.on(friday - 40 * HOUR) == (begins, second("2026-12-04T04:00")) and block.on(friday) is None
    assert block.next(begins - 1) == begins and block.next(begins) is None
    weekend = times("2026-11-30", "2027-11-30", "56", "00:00", "00:00")
    saturday = second("2026-12-04T23:00")
    assert weekend.on(saturday) == (saturday, saturday + 86_400) and weekend.on(saturday - 1) is None


def test_a_schedule_where_clocks_change() -> None:
    spring = times("2026-03-28", "2026-03-30", WEEK, "02:30", "04:00")
    assert spring.on(second("2026-03-29T01:45")) == (second("2026-03-29T01:30"), second("2026-03-29T02:00"))
    autumn = times("2026-10-24", "2026-10-26", WEEK, "02:30", "04:00")
    assert autumn.on(second("2026-10-25T01:00")) == (second("2026-10-25T00:30"), second("2026-10-25T03:00"))
    assert times("2026-03-29", "2026-03-29", "", "00:00", "06:00").on(second("2026-03-29T03:59")) is not None
    assert times("2026-07-01", "2026-07-02", WEEK, "10:00", "11:00", "").next(0.0) is not None, "the machine's zone"


def test_what_is_on_of_a_night_in_which_clocks_go_forward() -> None:
    """They show 03:00 after 01:59: what begins at 02:30 and ends at 03:15 is on from then on."""
    before, change = second("2026-03-29T00:00"), second("2026-03-29T01:00")
    part = times("2026-03-28", "2026-03-30", WEEK, "02:30", "03:15")
    assert part.next(before) == change, "it is promised as it comes"
    assert part.on(change - 1) is None and part.on(change) == (change, second("2026-03-29T01:15"))
    none = times("2026-03-28", "2026-03-30", WEEK, "02:00", "03:00")
    assert none.on(change) is None and none.next(before) == second("2026-03-30T00:00"), "and no time that never comes"
    late = times("2026-03-28", "2026-03-30", WEEK, "02:15", "02:45")
    assert late.on(second("2026-03-29T01:20")) == (second("2026-03-29T01:15"), second("2026-03-29T01:45"))


@pytest.mark.parametrize(
    "words",
    (
        ("2026-11-30", "2026-11-29", WEEK, "10:00", "11:00"),
        ("2026-11-30", "2026-11-30", "1", "10:00", "11:00"),
        ("2026-11-30", "2026-11-30", "", "11:00", "11:00"),
        ("2026-11-30", "2026-12-30", "8", "10:00", "11:00"),
        ("2026-11-31", "2026-12-30", "1", "10:00", "11:00"),
        ("2026-11-30", "2026-12-30", "x", "10:00", "11:00"),
        ("", "", "", "", ""),
    ),
)
def test_what_is_no_schedule(words: tuple[str, str, str, str, str]) -> None:
    with pytest.raises(Refusal, match="a schedule "):
        times(*words)
    with pytest.raises(Refusal, match="no time zone"):
        times("2026-11-30", "2026-11-30", WEEK, "10:00", "11:00", "Nowhere/Town")


@pytest.mark.parametrize(
    "begins, ends", (("06:00:10", "06:00:50"), ("06:00:00.5", "06:01"), ("06:00+02:00", "07:00"), ("0600", "07"))
)
def test_a_schedule_is_of_whole_minutes(begins: str, ends: str) -> None:
    """As the database has it: else it is never on as it is read again."""
    with pytest.raises(Refusal, match="a schedule "):
        times("2026-11-30", "2026-11-30", "", begins, ends)


def test_a_schedule_of_no_calendar_is_refused() -> None:
    with pytest.raises(Refusal, match="no day of this machine's calendar"):
        times("9999-12-30", "9999-12-31", WEEK, "23:00", "01:00")
    for days in ("", WEEK):
        assert times("2026-11-30", "9999-12-31", days, "23:00", "01:00").on(second("2026-11-30T22:30")) is not None


def test_a_schedule_that_cannot_be_on_here_keeps_no_other_from_it(where: str) -> None:
    """Of a zone that this machine has not, or one that an earlier version took: plans are listed, and looked at."""
    store, _, one = two_stores(where)
    held, number = store.database, planned(store, one)
    for zone in ("UTC", "UTC", "Europe/Berlin"):
        plans.add_schedule(held, number, always(zone), "me")
    first, second_, _ = plans.listed(held)[0].schedules
    held.run("UPDATE schedules SET zone = 'Nowhere/Town' WHERE id = ?", first.id)
    held.run("UPDATE schedules SET last_day = first_day WHERE id = ?", second_.id)
    look(store)
    assert lines(held) == [(one, "me", LINE)]
    plans.remove_schedule(held, number, first.id, "me")
    assert len(plans.listed(held)[0].schedules) == 2
    held.close()


def lines(held: Database) -> list[tuple[object, ...]]:
    """All that was asked for."""
    return list(held.run("SELECT sign, who, line FROM commands ORDER BY id"))


def look(store: Store) -> None:
    """A look for what is due that is due itself."""
    store.database.run("UPDATE plan_looks SET at = 0")
    store.plans.look()


def set_to(store: Store, ahead: float, is_believed: bool = False) -> None:
    """The database's clock is set so far ahead, and looked at; it is believed once it has gone on so for a while."""
    jump(store.database, ahead)
    look(store)
    if is_believed:
        wait(store, PATIENCE + 1, ahead)


def wait(store: Store, seconds: float, ahead: float) -> None:
    """Time passes by the worker's clock, and by the database's, which is so far ahead: each goes back at the end."""
    store.plans.steady.monotonic = lambda: time.monotonic() + seconds
    jump(store.database, ahead + seconds)
    look(store)
    store.plans.steady.monotonic = time.monotonic
    jump(store.database, ahead)


def planned(store: Store, *signs: int) -> int:
    """A plan of these signs, of a user: its number."""
    person(store.database, "me")
    return plans.keep(store.database, "Road works", [(sign, LINE) for sign in signs], "me")


def always(zone: str = "UTC") -> Times:
    """From long before until long after now, without a break."""
    return times("2020-01-01", "2099-01-01", "", "00:00", "00:00", zone)


def test_a_plan_is_begun_and_ended_by_hand(where: str) -> None:
    store, _, one = two_stores(where)
    held = store.database
    other = next(row for row in store.signs.enter([SIGN, OTHER]) if row != one)
    number = planned(store, one, other)
    assert plans.keep(held, " Road  works ", [(one, LINE)], "me") == number, "the same plan"
    plans.begin(held, number, "me")
    with pytest.raises(Refusal, match="on already"):
        plans.begin(held, number, "me")
    with pytest.raises(Refusal, match="end it first"):
        plans.remove(held, number, "me")
    assert lines(held) == [(one, "me", LINE), (other, "me", LINE)]
    held.run("UPDATE commands SET line_number = 1, outcome = 'accepted'")
    plans.end(held, number, "me")
    assert lines(held)[2:] == [(one, "me", OFF), (other, "me", OFF)], "by the priority of what is taken off"
    with pytest.raises(Refusal, match="is not on"):
        plans.end(held, number, "me")
    assert [row[0] for row in held.run("SELECT what FROM batches ORDER BY id")] == [
        "plan Road works begins",
        "plan Road works ends",
    ]
    plans.take_out(held, number, other, "me")
    found = plans.found(held, number)
    assert found is not None and found.signs == [one] and not found.is_on
    plans.begin(held, number, "me")
    plans.end(held, number, "me")
    plans.remove(held, number, "me")
    assert plans.listed(held) == [] and held.run("SELECT count(*) FROM plan_runs") == [(0,)]
    again = plans.keep(held, "Road works", [(one, LINE)], "me")
    plans.begin(held, again, "me")
    said = [what for _, _, who, what in history.audit(held, None) if who == "me"]
    assert said[1] == "plan Road works begins" and said[0] == f"one: {LINE}" and "plan Road works is removed" in said


ENDINGS = {
    "accepted": True,
    "failed at step 7: no reply": True,
    "unknown: the database was restored": True,
    "failed at step 2: no reply": False,
    "refused a value is out of its range": False,
    "withdrawn by you": False,
}


@pytest.mark.parametrize("outcome", ENDINGS)
def test_what_is_taken_off(where: str, outcome: str) -> None:
    store, _, sign = two_stores(where)
    number = planned(store, sign)
    plans.begin(store.database, number, "me")
    store.database.run("UPDATE commands SET line_number = 1, outcome = ?", outcome)
    plans.end(store.database, number, "me")
    assert len(lines(store.database)) == 1 + ENDINGS[outcome]


@pytest.mark.parametrize(("outcome", "is_left"), ((None, True), ("accepted", True), ("failed at step 7: x", False)))
def test_what_somebody_asked_for_since_stays(where: str, outcome: str | None, is_left: bool) -> None:
    store, _, sign = two_stores(where)
    number = planned(store, sign)
    plans.begin(store.database, number, "me")
    store.database.run("UPDATE commands SET line_number = 1, outcome = 'accepted'")
    command = store.commands.ask(sign, "you", BLANK)
    if outcome is not None:
        store.commands.end(command, outcome)
    plans.end(store.database, number, "me")
    assert len(lines(store.database)) == 2 + (not is_left)


def test_what_waits_is_withdrawn(where: str) -> None:
    store, _, sign = two_stores(where)
    number = planned(store, sign)
    plans.begin(store.database, number, "me")
    plans.end(store.database, number, "me")
    assert store.database.run("SELECT outcome FROM commands") == [("withdrawn by me",)]
    plans.begin(store.database, number, "me")
    store.database.run("UPDATE commands SET line_number = 1 WHERE outcome IS NULL")
    plans.end(store.database, number, "me")
    assert lines(store.database)[-1] == (sign, "me", OFF), "one that was begun goes on, and is taken off then"


def test_a_schedule_s_plan_is_begun_and_ended_once(where: str) -> None:
    store, other, sign = two_stores(where)
    held, number = store.database, planned(store, sign)
    now = queries.now(held)
    day = datetime.datetime.fromtimestamp(now, datetime.timezone.utc)
    first, last = day - datetime.timedelta(hours=1), day + datetime.timedelta(hours=1)
    plans.add_schedule(
        held,
        number,
        times(f"{first:%Y-%m-%d}", f"{last:%Y-%m-%d}", "", f"{first:%H:%M}", f"{last:%H:%M}", "UTC"),
        "me",
    )
    store.plans.look()
    other.plans.look()
    assert len(lines(held)) == 1
    for one in (store, other):
        look(one)
    assert len(lines(held)) == 1 and plans.listed(held)[0].is_on, "once, whoever looks"
    held.run("UPDATE commands SET line_number = 1, outcome = 'accepted'")
    for hours in (-3, -1.5, 0, 0.5):
        for is_believed in (False, True):
            set_to(store, hours * HOUR, is_believed)
            assert len(lines(held)) == 1, "a clock that goes back begins nothing anew, and ends nothing"
    set_to(store, 1.5 * HOUR, is_believed=True)
    assert lines(held)[1:] == [(sign, "me", OFF)] and not plans.listed(held)[0].is_on
    for hours in (0, 1.5, 3, -0.5):
        jump(held, hours * HOUR)
        look(store)
        look(other)
        assert len(lines(held)) == 2, "what was over stays over, whatever the clock does"
    plans.remove_schedule(held, number, plans.listed(held)[0].schedules[0].id, "me")
    plans.add_schedule(held, number, always(), "me")
    set_to(store, 0, is_believed=True)
    assert len(lines(held)) == 3, "another schedule is another"


def test_runs_of_years_are_not_all_read(tmp_path: pathlib.Path) -> None:
    held = database.opened(str(tmp_path / "database"))
    assert isinstance(held, Sqlite)
    with held.transaction():
        held.run_all("INSERT INTO plans (name) VALUES (?)", [("none",), ("over",), ("on",)])
        rows = [
            (plan, f"{plan} {at}", at, None if (plan, at) == (3, 7000) else at)
            for plan in (2, 3)
            for at in range(15_000)
        ]
        held.run_all(
            "INSERT INTO plan_runs (plan, occurrence, who, begun, ended, said) VALUES (?, ?, 'me', ?, ?, '')", rows
        )
    done: list[int] = []
    held.connection.set_progress_handler(lambda: done.append(1), 1000)  # instructions of SQLite
    last = {plan.name: plan.last and (plan.last.begun, plan.is_on) for plan in plans.listed(held)}
    assert last == {"none": None, "over": (14_999, False), "on": (7000, True)} and len(done) < 10


def test_a_schedule_that_was_missed_is_not_begun_late(where: str) -> None:
    store, _, sign = two_stores(where)
    number = planned(store, sign)
    plans.add_schedule(store.database, number, times("2020-01-01", "2020-01-02", WEEK, "10:00", "11:00"), "me")
    look(store)
    assert lines(store.database) == []


def test_of_two_schedules_the_plan_is_on_as_long_as_the_longer(where: str) -> None:
    store, _, sign = two_stores(where)
    held, number = store.database, planned(store, sign)
    plans.add_schedule(held, number, times("2020-01-01", "2098-01-01", "", "00:00", "00:00", "UTC"), "me")
    plans.add_schedule(held, number, always(), "me")
    look(store)
    (plan,) = plans.listed(held)
    assert len(lines(held)) == 1 and plan.last is not None and plan.last.until == second("2099-01-01T00:00")
    assert held.run("SELECT count(*) FROM plan_runs") == [(2,)]


def test_ends_come_before_beginnings(where: str) -> None:
    store, _, sign = two_stores(where)
    held = store.database
    first = planned(store, sign)
    plans.begin(held, first, "me")
    held.run("UPDATE commands SET line_number = 1, outcome = 'accepted'")
    held.run("UPDATE plan_runs SET until = 1")
    then = plans.keep(held, "Another", [(sign, LINE)], "me")
    plans.add_schedule(held, then, always(), "me")
    look(store)
    assert [line for _, _, line in lines(held)] == [LINE, OFF, LINE]


def test_what_is_refused_is_left_out_and_said(where: str) -> None:
    store, _, one = two_stores(where)
    held = store.database
    other = next(row for row in store.signs.enter([SIGN, OTHER]) if row != one)
    number = planned(store, one, other)
    plans.add_schedule(held, number, always(), "me")
    held.run("UPDATE plan_texts SET line = ? WHERE sign = ?", LINE.replace("464f47", "494345"), other)
    rules.forbid(held, "ice", "boss")
    look(store)
    assert lines(held) == [(one, "me", LINE)]
    (plan,) = plans.listed(held)
    assert plan.last is not None and plan.last.said == "other: “ice” may not be shown"
    held.run("UPDATE plan_runs SET ended = 1, occurrence = 'another'")
    held.run("UPDATE users SET disabled = 1 WHERE name = 'me'")
    look(store)
    (plan,) = plans.listed(held)
    assert len(lines(held)) == 1 and plan.last is not None and plan.last.batch is None
    assert "one: me may not command it" in plan.last.said, "who may no more, puts nothing on"
    words = f"plan Road works leaves out {plan.last.said.split('; ')[0]}"
    assert words in [what for *_, what in history.audit(held, None)]


def test_who_may_change_a_plan(where: str) -> None:
    store, _, one = two_stores(where)
    held = store.database
    number = planned(store, one)
    person(held, "other", level=Level.SEE)
    person(held, "reader", Role.READER)
    acts: tuple[Callable[[Database, int, str], object], ...] = (plans.begin, plans.end, plans.remove)
    for who in ("other", "reader", "nobody"):
        for act in acts:
            with pytest.raises(Refusal, match="may not command every sign of this plan"):
                act(held, number, who)
        with pytest.raises(Refusal, match="may not command"):
            plans.keep(held, "New", [(one, LINE)], who)
        with pytest.raises(Refusal, match="may not command"):
            plans.add_schedule(held, number, always(), who)
    with pytest.raises(Refusal, match="no such plan"):
        plans.begin(held, 999, "me")
    with pytest.raises(Refusal, match="no sign yet"):
        plans.take_out(held, number, one, "me")
        plans.begin(held, number, "me")


def test_no_sign_is_blanked_by_who_may_not_command_it(where: str) -> None:
    """Nor by the end of a plan that it was taken out of while that was on."""
    store, _, one = two_stores(where)
    held = store.database
    other = next(row for row in store.signs.enter([SIGN, OTHER]) if row != one)
    number = planned(store, one, other)
    person(held, "neighbour", level=Level.NOTHING)
    group = groups.add(held, "A 9", "route", "me")
    groups.change_signs(held, group, frozenset([one]), frozenset([one, other]), "me")
    groups.give(held, group, "neighbour", Level.PUBLISH, "me")
    plans.begin(held, number, "me")
    held.run("UPDATE commands SET line_number = 1, outcome = 'accepted'")
    for sign in (other, one):
        plans.take_out(held, number, sign, "me")
        with pytest.raises(Refusal, match="neighbour may not command every sign that this plan has put a text on"):
            plans.end(held, number, "neighbour")
        found = plans.found(held, number)
        assert found is not None and found.is_on and len(lines(held)) == 2
    plans.end(held, number, "me")
    assert lines(held)[2:] == [(one, "me", OFF), (other, "me", OFF)]


LOOKER = """
import sys, time
from wisangub.room.store import database, plans
from wisangub.room.store.database import Failed, Taken
from wisangub.room.store.store import Store
plans.EVERY = 0.0
store = Store(database.opened(sys.argv[1]))
print("here", flush=True)
while True:
    time.sleep(0.01)
    try:
        store.plans.look()
    except (Failed, Taken):
        pass
"""


def test_workers_that_are_killed_begin_and_end_each_plan_once(where: str) -> None:
    store = Store(database.opened(where))
    held, chance = store.database, random.Random(7)
    signs = list(store.signs.enter([replace(SIGN, name=f"{at}", port=2000 + at) for at in range(40)]))
    person(held, "me")
    of = [signs[at : at + 2] for at in range(0, 40, 2)]
    numbers = [plans.keep(held, f"plan {at}", [(sign, LINE) for sign in two], "me") for at, two in enumerate(of)]

    def looker() -> subprocess.Popen[bytes]:
        made = subprocess.Popen(
            [sys.executable, "-c", LOOKER, where], env=environment(), stdout=subprocess.PIPE, process_group=0
        )
        assert made.stdout is not None and made.stdout.readline() == b"here\n"
        return made

    workers = [looker(), looker()]
    try:
        for at, number in enumerate(numbers):
            plans.add_schedule(held, number, always(), "me")
            if at % 5 == 0:
                time.sleep(chance.random() / 50)
                os.kill(workers[at % 2].pid, signal.SIGKILL)
                workers[at % 2].wait()
                workers[at % 2] = looker()
        until(lambda: held.run("SELECT count(*) FROM plan_runs") == [(20,)])
        held.run("UPDATE commands SET line_number = id, outcome = 'failed at step 7: x' WHERE outcome IS NULL")
        held.run("UPDATE plan_runs SET until = 1")
        os.kill(workers[0].pid, signal.SIGKILL)
        until(lambda: held.run("SELECT count(*) FROM plan_runs WHERE ended IS NULL") == [(0,)])
    finally:
        for worker in workers:
            worker.kill()
            worker.wait()
    counts = held.run("SELECT line, count(*), count(DISTINCT sign) FROM commands GROUP BY line ORDER BY line")
    assert counts == [(OFF, 40, 40), (LINE, 40, 40)], "each text is put on each sign once, and taken off once"
    assert held.run("SELECT count(*), count(DISTINCT what) FROM batches") == [(40, 40)]


def until(is_so: Callable[[], bool], seconds: float = 120.0) -> None:
    """Waits until it is so."""
    ends = time.monotonic() + seconds
    while not is_so():
        assert time.monotonic() < ends, "not in time"
        time.sleep(0.05)


def test_a_plan_on_a_sign(tmp_path: pathlib.Path, where: str) -> None:
    with bench(tmp_path, where) as at:
        held = at.store.database
        person(held, "me")
        number = plans.keep(held, "Fog", [(at.sign_id, HELLO)], "me")
        plans.add_schedule(held, number, always(), "me")
        worker = at.worker()

        def carried(count: int) -> bool:
            worker.guarded_round()
            return held.run("SELECT count(*) FROM commands WHERE outcome = 'accepted'") == [(count,)]

        until(lambda: carried(1))
        held.run("UPDATE plan_runs SET until = 1")
        worker.reader.next_plans = 0.0
        held.run("UPDATE plan_looks SET at = 0")
        until(lambda: carried(2))
        assert len(set(at.live.accepted)) == 2 and len(lines(held)) == 2
        assert lines(held)[1][2] == "blank 1 65535 100 192.0.2.1"


async def shown(one: Visitor, page: str) -> str:
    """What a plan's page says that it shows."""
    found = re.search(r'name="shown" value="([0-9a-f]{64})"', (await one.get(page))[1])
    assert found is not None, page
    return found[1]


def test_what_a_page_showed_begins_alone(tmp_path: pathlib.Path, where: str) -> None:
    """A plan that somebody changed since is shown anew instead: with another text, a sign more or a sign less."""

    async def act(bench: Bench, visitor: Visitors) -> None:
        held, one = bench.store.database, await bench.logged_in(visitor, "operator")
        number = plans.keep(held, "Fog", [(bench.one, LINE)], "operator")
        page = f"/plans/{number}"
        for change in (
            lambda: plans.keep(held, "Fog", [(bench.one, LINE.replace("464f47", "494345"))], "operator"),
            lambda: plans.keep(held, "Fog", [(bench.gantry, LINE)], "operator"),
            lambda: plans.take_out(held, number, bench.one, "operator"),
        ):
            before = await shown(one, page)
            change()
            status, text, _ = await one.post(page, {"do": "begin", "shown": before})
            assert (status, lines(held)) == (422, []) and "changed meanwhile" in text, "nothing was begun"
            assert before not in text and await shown(one, page) in text, "as it is now"
        assert (await one.post(page, {"do": "begin"}))[0] == 422, "of a page that shows nothing"
        fields = {"do": "begin", "shown": await shown(one, page)}
        assert (await one.post(page, fields))[0] == 303
        assert lines(held) == [(bench.gantry, "operator", LINE)]

    run(tmp_path, where, act)


def test_the_pages_of_plans(tmp_path: pathlib.Path, where: str) -> None:
    async def act(bench: Bench, visitor: Visitors) -> None:
        held = bench.store.database
        one, reader = [await bench.logged_in(visitor, name) for name in ("operator", "reader")]
        fields = [("sign", str(bench.one)), ("sign", str(bench.gantry)), *GOOD.items()]
        confirmed = await confirmation(one, fields)
        assert (await one.post("/plans", [*confirmed, ("plan", " ")]))[0] == 422
        assert (await one.post("/plans", [("plan", "x"), *confirmed[:1], ("kind", "publish"), ("sign", "1")]))[0] == 422
        status, _, then = await one.post("/plans", [*confirmed, ("plan", "Road <works>")])
        assert (status, then) == (303, "/plans/1") and lines(held) == [], "nothing is shown yet"
        page = (await one.get(then))[1]
        assert "Road &lt;works&gt;" in page and "Begin it now" in page and "5b666f325d464f47.svg" in page
        assert (
            "Begin it now" not in (await reader.get(then))[1]
            and "Road &lt;works&gt;" in (await reader.get("/plans"))[1]
        )
        assert (await reader.post(then, {"do": "begin"}))[0] == 403
        good = {
            "do": "schedule",
            "first_day": "2026-11-30",
            "last_day": "2099-12-04",
            "begins": "20:00",
            "ends": "05:00",
        }
        assert (await one.post(then, [*good.items(), ("day", "0"), ("day", "4")]))[0] == 303
        assert "Mon, Fri, 20:00 to 05:00 Europe/Berlin" in (await one.get(then))[1]
        assert "until" not in (await one.get("/plans"))[1].split("<tbody>")[1]
        for wrong in ({"first_day": "x"}, {"ends": ""}, {"last_day": "2020-01-01"}, {"do": "x"}):
            assert (await one.post(then, {**good, **wrong}))[0] == 422, wrong
        begin = {"do": "begin", "shown": await shown(one, then)}
        assert (await one.post(then, begin))[0] == 303 and len(lines(held)) == 2
        assert (await one.post(then, begin))[0] == 422
        page = (await one.get(then))[1]
        assert "until it is ended by hand" in page and "End it now" in page and "/batches/1" in page
        assert "plan Road" in (await one.get("/batches/1"))[1].replace("Plan road", "plan Road")
        assert (await one.post(then, {"do": "end"}))[0] == 303
        (row,) = held.run("SELECT id FROM schedules")[0]
        assert (await one.post(then, {"do": "unschedule", "row": str(row)}))[0] == 303
        assert (await one.post(then, {"do": "take", "row": str(bench.gantry)}))[0] == 303
        narrowed(bench, "reader", Level.SEE, bench.gantry)
        assert (await reader.get(then))[0] == 404 and "Road" not in (await reader.get("/plans"))[1]
        assert (await one.post(then, {"do": "remove"}))[2] == "/plans" and (await one.get(then))[0] == 404

    run(tmp_path, where, act)
