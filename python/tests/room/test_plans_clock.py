"""Plans by a clock that is set: ahead for a while, as one that is not in step yet, or back; and what is trusted."""

import datetime
import time

import pytest

from . import needs

needs.modules("aiohttp", "jinja2")

from wisangub.room.store import history, plans, queries
from wisangub.room.store.database import Database
from wisangub.room.store.steady import PATIENCE, SLACK, Steady
from wisangub.room.store.store import Store
from wisangub.room.times import Times

from .test_clock import jump
from .test_database import BLANK, OTHER, SIGN, two_stores
from .test_plans import HOUR, LINE, OFF, lines, look, planned, wait

MINUTE = 60.0


class Clocks:
    """The clocks of a machine whose workers are these: their own goes on, and the database's is so far ahead of it."""

    def __init__(self, *stores: Store) -> None:
        self.stores, self.passed, self.ahead = stores, 0.0, 0.0
        for store in stores:
            store.plans.steady.monotonic = lambda: time.monotonic() + self.passed
        self.go()

    def go(self, seconds: float = 0.0, ahead: float | None = None) -> None:
        """Time passes, and the database's clock is set where that is said; each worker looks."""
        self.passed += seconds
        self.ahead = self.ahead if ahead is None else ahead
        for store in self.stores:
            jump(store.database, self.passed + self.ahead)
            look(store)


def around(now: float, hours: float = 1.0) -> Times:
    """From an hour before a moment until so long after it, to the minute."""
    first, last = [
        datetime.datetime.fromtimestamp(at, datetime.timezone.utc) for at in (now - HOUR, now + hours * HOUR + MINUTE)
    ]
    words = f"{first:%Y-%m-%d}", f"{last:%Y-%m-%d}", "", f"{first:%H:%M}", f"{last:%H:%M}"
    return Times.of(*words, "UTC")


def begun(where: str) -> tuple[Clocks, Database, int]:
    """A plan whose text is shown, with an hour to go; two workers look for what is due."""
    store, other, sign = two_stores(where)
    held, number = store.database, planned(store, sign)
    plans.add_schedule(held, number, around(queries.now(held)), "me")
    clocks = Clocks(store, other)
    held.run("UPDATE commands SET line_number = 1, outcome = 'accepted'")
    assert lines(held) == [(sign, "me", LINE)]
    return clocks, held, sign


def asked(held: Database) -> list[object]:
    return [line for _, _, line in lines(held)]


@pytest.mark.parametrize("ahead", (13 * HOUR, 400 * 24 * HOUR, -13 * HOUR))
def test_a_clock_that_is_set_for_a_while_ends_and_begins_nothing(
    where: str, ahead: float, capfd: pytest.CaptureFixture[str]
) -> None:
    clocks, held, sign = begun(where)
    there = queries.now(held) + ahead
    plans.add_schedule(held, plans.keep(held, "There", [(sign, LINE)], "me"), around(there), "me")
    before = len(lines(held))
    clocks.go(MINUTE, ahead)
    for _ in range(4):
        clocks.go(2 * MINUTE)
    assert len(lines(held)) == before and plans.listed(held)[0].is_on
    clocks.go(MINUTE, 0.0)
    clocks.go(30 * MINUTE)
    assert len(lines(held)) == before and plans.listed(held)[0].is_on
    clocks.go(31 * MINUTE)
    assert OFF in asked(held), "it ends at its time"
    said = capfd.readouterr().err.splitlines()
    words = "the database's clock was set, or is not this machine's: no plan begins or ends by it for 10 minutes"
    assert said == [f"{words}, or until it is back"] * 2, "each worker says it once"


def test_a_clock_that_was_set_is_believed_after_a_while(where: str) -> None:
    clocks, held, _ = begun(where)
    clocks.go(MINUTE, 2 * HOUR)
    clocks.go(PATIENCE - 1)
    assert asked(held) == [LINE]
    clocks.go(2.0)
    assert asked(held) == [LINE, OFF]


def test_a_clock_that_is_set_again_and_again_is_not_believed(where: str) -> None:
    clocks, held, _ = begun(where)
    for hours in range(2, 9):
        clocks.go(PATIENCE - 1, hours * HOUR)
    assert asked(held) == [LINE]


def test_a_clock_that_was_set_while_there_was_no_schedule_is_believed(where: str) -> None:
    clocks, held, _ = begun(where)
    (plan,) = plans.listed(held)
    plans.end(held, plan.id, "me")
    plans.remove_schedule(held, plan.id, plan.schedules[0].id, "me")
    clocks.go(MINUTE, 2 * HOUR)
    clocks.go(PATIENCE + 1)
    plans.add_schedule(held, plan.id, around(queries.now(held)), "me")
    clocks.go(5.0)
    assert asked(held) == [LINE, OFF, LINE]


def over_too_early(where: str) -> tuple[Clocks, Database, int]:
    """A plan that was ended by a clock which was ahead for long; it is back for some minutes."""
    clocks, held, sign = begun(where)
    clocks.go(MINUTE, 13 * HOUR)
    clocks.go(PATIENCE + 1)
    held.run("UPDATE commands SET line_number = id, outcome = 'accepted' WHERE outcome IS NULL")
    assert asked(held) == [LINE, OFF]
    clocks.go(MINUTE, 0.0)
    clocks.go(PATIENCE - 1)
    assert asked(held) == [LINE, OFF], "a clock that was set back is not believed at once"
    return clocks, held, sign


def test_a_plan_that_a_clock_ended_which_was_ahead_begins_again(where: str) -> None:
    clocks, held, _ = over_too_early(where)
    for _ in range(3):
        clocks.go(2.0)
        assert asked(held) == [LINE, OFF, LINE], "once, whoever looks"
    (plan,) = plans.listed(held)
    assert plan.is_on and plan.last is not None and plan.last.until is not None
    held.run("UPDATE commands SET line_number = id, outcome = 'accepted' WHERE outcome IS NULL")
    assert "plan Road works was ended by a clock that was ahead" in [what for *_, what in history.audit(held, None)]
    clocks.go(HOUR)
    assert asked(held) == [LINE, OFF, LINE, OFF], "it ends at its time"
    clocks.go(PATIENCE + 1)
    assert len(asked(held)) == 4


def test_what_somebody_ended_stays_over(where: str) -> None:
    clocks, held, _ = begun(where)
    clocks.go(MINUTE, 30 * MINUTE)
    clocks.go(PATIENCE + 1)
    (plan,) = plans.listed(held)
    plans.end(held, plan.id, "me")
    clocks.go(MINUTE, 0.0)
    clocks.go(PATIENCE + 1)
    assert asked(held) == [LINE, OFF]


def test_what_somebody_asked_for_meanwhile_stays(where: str) -> None:
    """A sign of which nobody asked for anything begins again."""
    store, other, one = two_stores(where)
    held = store.database
    two = next(row for row in store.signs.enter([SIGN, OTHER]) if row != one)
    number = planned(store, one, two)
    plans.add_schedule(held, number, around(queries.now(held)), "me")
    clocks = Clocks(store, other)
    clocks.go(MINUTE, 13 * HOUR)
    held.run("UPDATE commands SET line_number = id, outcome = 'accepted'")
    clocks.go(PATIENCE + 1)
    store.commands.ask(one, "you", BLANK)
    held.run("UPDATE commands SET line_number = id, outcome = 'accepted'")
    clocks.go(MINUTE, 0.0)
    clocks.go(PATIENCE + 1)
    assert lines(held)[4:] == [(one, "you", BLANK), (two, "me", LINE)]
    (plan,) = plans.listed(held)
    assert plan.last is not None and plan.last.said == "one: somebody asked for something else meanwhile"


def test_a_plan_of_two_schedules_is_on_again_as_long_as_the_longer(where: str) -> None:
    store, other, sign = two_stores(where)
    held, number = store.database, planned(store, sign)
    for hours in (1.0, 3.0):
        plans.add_schedule(held, number, around(queries.now(held), hours), "me")
    clocks = Clocks(store, other)
    held.run("UPDATE commands SET line_number = 1, outcome = 'accepted'")
    (before,) = plans.listed(held)
    for ahead in (13 * HOUR, 0.0):
        clocks.go(MINUTE, ahead)
        clocks.go(PATIENCE + 1)
        held.run("UPDATE commands SET line_number = id, outcome = 'accepted'")
    (plan,) = plans.listed(held)
    assert plan.last is not None and before.last is not None and plan.is_on
    assert plan.last.until == before.last.until and asked(held) == [LINE, OFF, LINE]


def test_a_worker_that_has_just_begun_doubts_a_clock_that_is_not_its_machine_s(where: str) -> None:
    """It has seen nothing go on, and would end plans of weeks by the first clock that it sees."""
    _, held, _ = begun(where)
    store = two_stores(where)[0]
    for passed, wanted in ((0.0, [LINE]), (PATIENCE - 1, [LINE]), (PATIENCE + 1, [LINE, OFF])):
        wait(store, passed, 13 * HOUR)
        assert asked(held) == wanted, passed


def test_a_worker_that_has_just_begun_lets_nothing_begin_again(where: str) -> None:
    """It has not seen yet how the clock goes: it may be one that is behind until it is in step."""
    _, held, _ = over_too_early(where)
    clocks = Clocks(two_stores(where)[0])
    clocks.go(PATIENCE - 1)
    assert asked(held) == [LINE, OFF]
    clocks.go(2.0)
    assert asked(held) == [LINE, OFF, LINE]


def test_a_database_that_answers_late_is_no_clock_that_was_set() -> None:
    steady, own = Steady(), [0.0]
    steady.monotonic = lambda: own[0]

    def late(seconds: float, share: float) -> float:
        """It answers after so long, with the time of some moment of it."""
        own[0] += seconds
        return 1e9 + own[0] - seconds * share

    for seconds in (0.0, 1000.0, 1.0, 5000.0):
        for share in (0.0, 0.5, 1.0):
            steady.look(lambda: late(seconds, share))
            assert not steady.is_doubted, (seconds, share)
    assert steady.is_trusted
    own[0] += 1.0
    steady.look(lambda: 1e9 + own[0] + 2 * SLACK)
    assert steady.is_doubted and not steady.is_trusted


def test_a_clock_that_drifts_is_no_clock_that_was_set() -> None:
    steady, own = Steady(), [0.0]
    steady.monotonic = lambda: own[0]
    for _ in range(1000):
        own[0] += HOUR
        steady.look(lambda: own[0] * 1.01)
        assert not steady.is_doubted
