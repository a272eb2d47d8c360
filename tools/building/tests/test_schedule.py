"""The order in which crates are proved."""

from __future__ import annotations

import pathlib
import subprocess
import sys
from dataclasses import dataclass, field

import pytest

from building import plan as planning
from building.plan import Crate, Plan
from building.running import Running
from building.schedule import Schedule

ROWS = "low: hex\nmiddle: low\nbeside: low\nprogram: middle beside  # the last\nnot_below: low\n"


@pytest.fixture
def plan(tmp_path: pathlib.Path, monkeypatch: pytest.MonkeyPatch) -> Plan:
    for name in ("low", "middle", "beside", "program", "not_below"):
        root = tmp_path / "crates" / name / "src" / ("main.rt" if name == "program" else "lib.rt")
        root.parent.mkdir(parents=True)
        root.write_text("//! A crate.\n" * (50 if name == "middle" else 5), encoding="utf-8")
    (tmp_path / "crates.txt").write_text(ROWS, encoding="utf-8")
    monkeypatch.setattr(planning, "TOP", tmp_path)
    return Plan()


@dataclass
class Instant:
    """A way by which each crate is proved at once, but those that fail."""

    failing: set[str] = field(default_factory=set)
    begun: list[str] = field(default_factory=list)

    def begin(self, crate: Crate, jobs: int, is_first: bool) -> Running:
        self.begun.append(crate.name)
        one = Running(crate, jobs, crate.folder, is_first)
        status = int(crate.name in self.failing)
        one.process = subprocess.Popen([sys.executable, "-c", f"raise SystemExit({status})"], process_group=0)
        return one


def test_the_plan_has_the_program_and_what_is_below_it(plan: Plan) -> None:
    assert plan.program == "program" and plan.crates.keys() == {"low", "middle", "beside", "program"}
    assert plan.below("program") == {"low", "middle", "beside"}
    assert plan.of_kit["low"] == ("hex",) and plan.crates["program"].uses == ("middle", "beside")
    assert plan.crates["program"].root == "src/main.rt" and plan.crates["low"].root == "src/lib.rt"


def test_what_more_waits_for_begins_first(plan: Plan) -> None:
    way = Instant()
    assert Schedule(plan, {*plan.crates}, set(), 4).run(way) is None
    assert way.begun == ["low", "middle", "beside", "program"]


def test_what_an_earlier_run_proved_is_not_proved_again(plan: Plan) -> None:
    way = Instant()
    assert Schedule(plan, {*plan.crates}, {"low", "beside"}, 4).run(way) is None
    assert way.begun == ["middle", "program"]


def test_nothing_begins_over_a_crate_that_failed(plan: Plan, capsys: pytest.CaptureFixture[str]) -> None:
    way = Instant({"middle"})
    failed = Schedule(plan, {*plan.crates}, set(), 1).run(way)
    assert failed and failed.crate.name == "middle" and "program" not in way.begun
    assert "0 of 4 crates: at the start; some " in capsys.readouterr().err
