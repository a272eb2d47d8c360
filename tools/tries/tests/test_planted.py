"""Planted edits of a tiny crate: which are refused, and that nothing else refuses one."""

from __future__ import annotations

import pathlib
import shutil
import subprocess

import pytest

from building import plan as planning
from building.kit import Kit
from building.plan import Plan
from tries.check import Checker
from tries.checks import Checks
from tries.trial import Outcome, tried
from upkeep.edits import Edit, edits_of

HAS_KIT = shutil.which("rt") is not None
wants_kit = pytest.mark.skipif(not HAS_KIT, reason="the kit is not here")
CODE = """//! A crate of five functions.
#![tactic(auto)]

ghost use Rattle.std.specs.Prelude.{◌≡◌};

const STEP: u8 = 3;

pub fn one() -> u8
    ensures { result ≡ 1 }
{
    1 + 0
}

pub fn two() -> u8
    ensures { result ≡ 2 }
{
    2 + 0
}

pub fn three() -> u8
    ensures { result ≡ 3 }
{
    STEP
}

fn inner(n: u8) -> u8
    ensures { result ≡ n }
{
    n
}

pub fn outer(n: u8) -> u8
    ensures { result ≡ n }
{
    inner(n)
}
"""
ANSWERS = """use Rattle.tiny.proofs.outer.Goals as goal

pub returns : goal.returns
returns c = c.inner.ensures
"""
WRONG, RIGHT = ("1 + 0", "2 + 0"), ("2 + 0", "1 + 1")
PLANTED = {
    "wrong": WRONG,
    "right": RIGHT,
    "wrong_three": ("    STEP", "    STEP + 1"),
    "constant": ("u8 = 3;", "u8 = 4;"),
    "constant_that_is_the_same": ("u8 = 3;", "u8 = 1 + 2;"),
    "name_that_a_proof_cites": ("inner(n)", "n + 0"),
    "no_text": ("1 + 0", "1 + ("),
    "no_number": ("2 + 0", "true"),
}


def plant(crate: pathlib.Path, names: list[str]) -> list[Edit]:
    """Edits of the crate, and no others."""
    shutil.rmtree(crate / "must-fail", ignore_errors=True)
    (crate / "must-fail").mkdir()
    for name in names:
        old, new = PLANTED[name]
        edit = f"file: src/lib.rt\nold: {old}\nnew: {new}\n"
        (crate / f"must-fail/{name}.edit").write_text(edit, encoding="utf-8")
    return edits_of(crate)


def made(top: pathlib.Path) -> pathlib.Path:
    """The folder of the tiny crate."""
    crate = top / "crates/tiny"
    for name, text in (("src/lib.rt", CODE), ("proofs/outer/Answers.antt", ANSWERS)):
        (crate / name).parent.mkdir(parents=True)
        (crate / name).write_text(text, encoding="utf-8")
    (top / "crates/program/src").mkdir(parents=True)
    (top / "crates/program/src/main.rt").write_text("", encoding="utf-8")
    (top / "crates.txt").write_text("tiny:\nprogram: tiny\n", encoding="utf-8")
    (top / "room").mkdir()
    return crate


@pytest.fixture
def crate(tmp_path: pathlib.Path, monkeypatch: pytest.MonkeyPatch) -> pathlib.Path:
    monkeypatch.setattr(planning, "TOP", tmp_path)
    return made(tmp_path)


def checker_of(crate: pathlib.Path, kit: Kit) -> Checker:
    plan, top = Plan(), crate.parent.parent
    return Checker(plan, kit, plan.crates["tiny"], top, top / "room", Checks())


def words(outcomes: list[Outcome]) -> dict[str, str]:
    return {one.edit.name.partition("/")[2]: "; ".join(one.goals) or one.why for one in outcomes}


@wants_kit
def test_an_edit_is_refused_by_a_goal_of_what_it_changes_alone(crate: pathlib.Path) -> None:
    checker = checker_of(crate, Kit.found())
    found = words(list(tried(checker, plant(crate, ["wrong", "right"]))))
    assert found == {"wrong": "one: returns", "right": "not refused: it is still proved"}
    assert checker.checks == 2  # both together, and the one of which nothing was open
    found = words(list(tried(checker, plant(crate, ["constant", "name_that_a_proof_cites", "no_text", "no_number"]))))
    assert found["constant"] == "three: returns"
    assert found["name_that_a_proof_cites"].startswith("nothing is known of it: a proof file names what it takes away")
    assert found["no_text"].startswith("cannot be read: src/lib.rt")
    assert found["no_number"].startswith("cannot be read: src/lib.rt")


@wants_kit
def test_a_constant_is_tried_where_it_is_named_first_and_then_everywhere(crate: pathlib.Path) -> None:
    checker = checker_of(crate, Kit.found())
    found = words(list(tried(checker, plant(crate, ["constant", "constant_that_is_the_same"]))))
    assert found == {"constant": "three: returns", "constant_that_is_the_same": "not refused: it is still proved"}
    assert checker.checks == 3


@wants_kit
def test_beside_a_proof_file_that_does_not_read_the_others_are_tried_together(crate: pathlib.Path) -> None:
    checker = checker_of(crate, Kit.found())
    found = words(list(tried(checker, plant(crate, ["wrong", "wrong_three", "name_that_a_proof_cites"]))))
    assert found["name_that_a_proof_cites"].startswith("nothing is known of it: a proof file names what it takes away")
    assert found["wrong"] == "one: returns" and found["wrong_three"] == "three: returns"
    assert checker.checks == 3


@wants_kit
def test_beside_what_cannot_be_read_each_is_tried_by_itself(crate: pathlib.Path) -> None:
    checker = checker_of(crate, Kit.found())
    found = words(list(tried(checker, plant(crate, ["wrong", "no_number"]))))
    assert found["wrong"] == "one: returns" and found["no_number"].startswith("cannot be read")
    assert checker.checks == 3


class Scripted(Checker):
    """A checker whose checks end as a script has it."""

    def script(self, *ends: tuple[int, str]) -> Scripted:
        self.ends = list(ends)
        return self

    def run(self, only: list[str]) -> subprocess.CompletedProcess[str]:
        status, text = self.ends.pop(0)
        return subprocess.CompletedProcess(only, status, text, "")


OPEN = (
    "fn tiny::{}: no proof: expected answers in ./proofs/{}/Answers.antt; `search` did not prove `returns`\n"
    "only=1 holes=0\n"
)
KILLED = (-9, OPEN.format("one", "one"))


@pytest.fixture
def scripted(crate: pathlib.Path, tmp_path: pathlib.Path) -> Scripted:
    plan = Plan()
    return Scripted(plan, Kit(tmp_path), plan.crates["tiny"], tmp_path, tmp_path / "room", Checks())


def test_a_check_that_was_killed_refuses_nothing(crate: pathlib.Path, scripted: Scripted) -> None:
    ends = scripted.script(*[KILLED] * 4)  # each is tried once more, and then all functions are
    assert "was killed" in words(list(tried(ends, plant(crate, ["wrong"]))))["wrong"]


def test_after_a_group_that_was_killed_each_is_tried_by_itself(crate: pathlib.Path, scripted: Scripted) -> None:
    proved = "fn tiny::two: no holes\nonly=1 holes=0\n"
    ends = scripted.script(KILLED, KILLED, (0, proved), (1, OPEN.format("one", "one")))
    found = words(list(tried(ends, plant(crate, ["right", "wrong"]))))
    assert found == {"wrong": "one: returns", "right": "not refused: it is still proved"}
    assert ends.ends == []


def test_memory_that_ran_out_refuses_nothing(crate: pathlib.Path, scripted: Scripted) -> None:
    ends = scripted.script(*[(1, f"note: antt ran out of memory\n{OPEN.format('one', 'one')}")] * 2)
    assert "ran out of memory" in words(list(tried(ends, plant(crate, ["wrong"]))))["wrong"]


def test_a_goal_of_a_neighbour_refuses_nothing(crate: pathlib.Path, scripted: Scripted) -> None:
    text = f"fn tiny::two: no holes\n{OPEN.format('one', 'one')}"
    ends = scripted.script((1, text))
    assert "open are ['one: returns'] alone" in words(list(tried(ends, plant(crate, ["right"]))))["right"]


def test_a_constant_that_holds_where_it_is_named_is_tried_everywhere(crate: pathlib.Path, scripted: Scripted) -> None:
    named = "fn tiny::three: no holes\nonly=1 holes=0\n"
    ends = scripted.script((0, named), (1, OPEN.format("one", "one")))
    assert words(list(tried(ends, plant(crate, ["constant"])))) == {"constant": "one: returns"}
    assert ends.ends == []


def test_a_limit_where_a_constant_is_named_refuses_nothing(crate: pathlib.Path, scripted: Scripted) -> None:
    limit = (1, f"note: antt ran out of memory\n{OPEN.format('three', 'three')}")
    ends = scripted.script(limit, (0, "fn tiny::three: no holes\nholes=0\n"))
    assert words(list(tried(ends, plant(crate, ["constant"])))) == {"constant": "not refused: it is still proved"}
