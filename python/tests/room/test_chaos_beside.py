"""Chaos: that plans which are carried out twice, and alarms that nobody was told of, are found after a run."""

import pathlib
import random
from typing import Any, Callable

import pytest

from trials.room import chaos_plans
from trials.room.beside import NAME
from trials.room.chaos_checks import Outcome
from trials.room.chaos_plans import Plans, look_at_plans
from trials.room.chaos_targets import Target, look_at_alarms
from wisangub.room.notices import Webhook
from wisangub.room.store import alarms, plans
from wisangub.room.store.readings import Said
from wisangub.room.store.store import Store

from . import test_plans
from .bench import bench
from .people import person

Held = tuple[Store, Plans]
BREAKS: dict[str, Callable[[Held], Any]] = {
    "plan 0 put its text on sign": lambda held: held[0].commands.ask(held[1].rows[0], NAME, held[1].line(0)),
    "plan 3 took it off once at most": lambda held: [
        held[0].commands.ask(held[1].rows[0], NAME, held[1].off(3)) for _ in range(2)
    ],
    "plan 3 begins once each time": lambda held: held[0].database.run("DELETE FROM audit WHERE what LIKE 'plan %'"),
    "every plan has ended": lambda held: held[0].database.run("UPDATE plan_runs SET ended = NULL"),
    "no sign was left out of a plan": lambda held: held[0].database.run("UPDATE plan_runs SET said = 'one: why'"),
    "the text of plan 0 does not stay": lambda held: (
        held[0].commands.ask(held[1].rows[0], NAME, held[1].line(0)),
        held[0].database.run("UPDATE commands SET outcome = 'accepted'"),
    ),
}


@pytest.mark.parametrize("what", BREAKS)
def test_what_does_not_hold_of_plans_is_found(
    tmp_path: pathlib.Path, what: str, monkeypatch: pytest.MonkeyPatch
) -> None:
    monkeypatch.setattr(chaos_plans, "FIRST", -1.0)  # the first schedule is on, and the others are to come
    with bench(tmp_path, str(tmp_path / "database")) as at:
        person(at.store.database, NAME)
        held = Plans([at.sign_id], random.Random(1))
        held.enter(at.store)
        plans.Plans(at.store.database).look()
        assert not held.is_over(at.store) and held.asked == 1
        plans.end(at.store.database, held.numbers[0], NAME)
        plans.end(at.store.database, held.numbers[-1], NAME)
        for is_broken in (False, True):
            if is_broken:
                BREAKS[what]((at.store, held))
            found = Outcome()
            assert look_at_plans(found, at.store, held) == "2 times that plans were on, 1 of them by schedules"
            assert any(name.startswith(what) for name in found.failed) is is_broken, found.failed
            assert is_broken or not found.failed


def test_what_is_asked_again_of_a_sign_that_was_away_breaks_no_law(
    tmp_path: pathlib.Path, monkeypatch: pytest.MonkeyPatch
) -> None:
    monkeypatch.setattr(chaos_plans, "SCHEDULES", 0)
    with bench(tmp_path, str(tmp_path / "database")) as at:
        person(at.store.database, NAME)
        held = Plans([at.sign_id], random.Random(1))
        held.enter(at.store)
        silent = "UPDATE commands SET line_number = id, outcome = 'failed at step 7: no reply', ended = {clock} - 1"
        for is_end in (False, True):
            if is_end:
                plans.end(at.store.database, held.numbers[0], NAME)
            else:
                plans.begin(at.store.database, held.numbers[0], NAME)
            at.store.database.run(f"{silent} WHERE outcome IS NULL")
            at.store.readings.keep([Said(at.sign_id, -1, 5, '{"mode": 8}')])
            test_plans.look(at.store)
            at.store.database.run("UPDATE commands SET outcome = 'accepted' WHERE outcome IS NULL")
        lines = [line for _, _, line in test_plans.lines(at.store.database)]
        assert lines == [*[held.line(0)] * 2, *[held.off(0)] * 2]
        found = Outcome()
        look_at_plans(found, at.store, held)
        assert found.failed == ["plans were begun by schedules"]


def test_where_no_schedule_was_begun_there_is_a_longer_one(
    tmp_path: pathlib.Path, monkeypatch: pytest.MonkeyPatch
) -> None:
    monkeypatch.setattr(chaos_plans, "FIRST", -100.0)  # all are over
    with bench(tmp_path, str(tmp_path / "database")) as at:
        person(at.store.database, NAME)
        held = Plans([at.sign_id], random.Random(1))
        held.enter(at.store)
        assert not held.is_over(at.store) and held.schedules == chaos_plans.SCHEDULES + 1
        plans.Plans(at.store.database).look()
        plan, ends = plans.found(at.store.database, held.numbers[0]), held.ends
        assert plan is not None and plan.is_on
        assert not held.is_over(at.store) and held.ends == ends


def test_what_does_not_hold_of_alarms_is_found(tmp_path: pathlib.Path) -> None:
    target = Target(1)
    target.chance = random.Random(3)
    try:
        with bench(tmp_path, str(tmp_path / "database")) as at:
            held, hook = at.store.database, Webhook(target.url)
            person(held, NAME)
            held.run("INSERT INTO alarms (sign, kind, what, begun) VALUES (?, 'silent', 'x', 1)", at.sign_id)
            (one,) = alarms.to_tell(held, hook.name, ["silent"])
            body = {"alarms": [{"sign": one.sign_name, "kind": one.kind, "what": one.what, "since": ""}]}
            while target.told(body) != 204:
                target.posted.clear()
            alarms.told(held, hook.name, [one])

            def failed() -> list[str]:
                found = Outcome()
                look_at_alarms(found, at.store, target)
                return found.failed

            assert failed() == []
            target.told(body)
            assert len(failed()) == 1 and "nothing is told but what counts as tried" in failed()[0]
            target.posted.clear()
            target.taken.clear()
            assert len(failed()) == 1 and "what counts as told was taken" in failed()[0]
            held.run("UPDATE alarms SET seen_by = 'me'")
            assert "each acknowledged alarm stands in the audit once" in failed()
            held.run("UPDATE notices SET tries = 100")
            assert any("times at most" in name for name in failed())
    finally:
        target.end()
