"""What a run goes on from."""

from __future__ import annotations

import pathlib

import pytest

from building import plan as planning
from building.kit import Kit
from building.plan import Plan
from building.proofs import Proofs


@pytest.fixture
def proofs(tmp_path: pathlib.Path, monkeypatch: pytest.MonkeyPatch) -> Proofs:
    for file in ("low/src/lib.rt", "low/specs/Low.antt", "program/src/main.rt"):
        (tmp_path / "crates" / file).parent.mkdir(parents=True)
        (tmp_path / "crates" / file).write_text("x\n", encoding="utf-8")
    (tmp_path / "crates.txt").write_text("low:\nprogram: low\n", encoding="utf-8")
    (tmp_path / "KIT-ID").write_text("a kit", encoding="utf-8")
    monkeypatch.setattr(planning, "TOP", tmp_path)
    return Proofs(Plan(), Kit(tmp_path), tmp_path)


def proved_again(proofs: Proofs) -> set[str]:
    """What a new run takes from those that ended well here."""
    for name in proofs.plan.crates:
        proofs.made(name).touch()
        proofs.stamp(name).write_text(proofs.sum_of(name), encoding="ascii")
    return Proofs(Plan(), proofs.kit, proofs.room).proved()


def test_what_was_proved_stays_so(proofs: Proofs) -> None:
    assert proofs.proved() == set()
    assert proved_again(proofs) == {"low", "program"}


def test_a_change_has_the_crate_and_those_above_proved_again(proofs: Proofs) -> None:
    proved_again(proofs)
    for path, left in (("program/src/main.rt", {"low"}), ("low/specs/Low.antt", set())):
        (planning.TOP / "crates" / path).write_text("y\n", encoding="utf-8")
        assert Proofs(Plan(), proofs.kit, proofs.room).proved() == left


@pytest.mark.parametrize("lost", ["low.sum", "low.rlib"])
def test_nothing_stands_over_a_library_that_is_made_again(proofs: Proofs, lost: str) -> None:
    proved_again(proofs)
    (proofs.room / lost).unlink()
    assert proofs.proved() == set()


def test_another_kit_proves_all(proofs: Proofs) -> None:
    proved_again(proofs)
    (planning.TOP / "KIT-ID").write_text("another", encoding="utf-8")
    assert Proofs(Plan(), proofs.kit, proofs.room).proved() == set()


def test_the_compiler_is_given_each_library(proofs: Proofs) -> None:
    plan = proofs.plan
    words = proofs.kit.checked(plan, plan.crates["program"], proofs.room, 3)
    assert words[1:5] == ["build", "--crate-name", "program", "src/main.rt"] and words[-2:] == ["--jobs", "3"]
    assert f"low={proofs.room}/low.rlib" in words and f"dependency={proofs.room}" in words


@pytest.mark.parametrize("is_before", [True, False])
def test_what_is_changed_meanwhile_and_back_again_is_not_taken_for_proved(proofs: Proofs, is_before: bool) -> None:
    (proofs.kit.folder / "bin").mkdir()
    (proofs.kit.folder / "bin/rattle").write_text("#!/bin/sh\n", encoding="utf-8")
    (proofs.kit.folder / "bin/rattle").chmod(0o755)
    source = planning.TOP / "crates/low/src/lib.rt"
    assert proofs.proved() == set()  # as the run begins
    for text in ("x\n", "y\n") if is_before else ("y\n",):
        source.write_text(text if is_before else "x\n", encoding="utf-8")
        proof = proofs.begin(proofs.plan.crates["low"], 1, True)
        source.write_text(text, encoding="utf-8")
        proof.process.wait(20)
        proofs.made("low").touch()
        assert proof.end() == 0
        assert ("low" in Proofs(Plan(), proofs.kit, proofs.room).proved()) is is_before
    source.write_text("x\n", encoding="utf-8")
    assert Proofs(Plan(), proofs.kit, proofs.room).proved() == set()
