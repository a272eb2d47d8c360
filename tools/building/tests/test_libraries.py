"""What `rt` is given to work over."""

from __future__ import annotations

import fcntl
import os
import pathlib
import types

import pytest

from building import libraries
from building import plan as planning
from building.kit import Kit
from building.libraries import give_all
from building.plan import Plan
from building.proofs import Proofs


class Crate:
    """A crate as the kit's program has it."""

    allowed = ""

    def __init__(self, name: str) -> None:
        self.name, self.folder = name, planning.TOP / "crates" / name
        self.rlib = f"{self.folder}/out/rlib/{name}.rlib"

    def makes_rlib(self) -> bool:
        return not (self.folder / "src/main.rt").is_file()

    def stamp(self) -> str:
        return f"sum of {self.name}"


@pytest.fixture
def rt() -> types.ModuleType:
    module = types.ModuleType("rt")
    module.Crate = Crate  # type: ignore[attr-defined]
    module.handles_of = lambda top: ""  # type: ignore[attr-defined]
    names = ("low", "high", "beside", "program")
    module.crates_of = lambda top: [Crate(name) for name in names]  # type: ignore[attr-defined]
    return module


@pytest.fixture
def proofs(tmp_path: pathlib.Path, monkeypatch: pytest.MonkeyPatch) -> Proofs:
    monkeypatch.setattr(planning, "TOP", tmp_path)
    monkeypatch.setattr(libraries, "TOP", tmp_path)
    for file in ("low/src/lib.rt", "high/src/lib.rt", "beside/src/lib.rt", "program/src/main.rt"):
        (tmp_path / "crates" / file).parent.mkdir(parents=True)
        (tmp_path / "crates" / file).write_text("x\n", encoding="utf-8")
    (tmp_path / "crates.txt").write_text("low:\nhigh: low\nbeside: low\nprogram: high\n", encoding="utf-8")
    (tmp_path / "KIT-ID").write_text("a kit", encoding="utf-8")
    made = Proofs(Plan(), Kit(tmp_path), tmp_path / "proved")
    for name in ("low", "high", "program"):
        made.made(name).mkdir(parents=True)
        (made.made(name) / "format").write_text(f"statements of {name}\n", encoding="utf-8")
        made.stamp(name).write_text(made.sum_of(name), encoding="ascii")
    return made


def given(name: str) -> str | None:
    """What stands of a library where `rt` looks for it, if its sum is there."""
    crate = Crate(name)
    stamp = pathlib.Path(crate.rlib).parent / "stamp"
    if not stamp.is_file():
        return None
    assert stamp.read_text(encoding="utf-8") == crate.stamp()
    return (pathlib.Path(crate.rlib) / "format").read_text(encoding="utf-8")


def test_each_library_that_is_proved_is_given(rt: types.ModuleType, proofs: Proofs) -> None:
    here = os.getcwd()
    for _ in range(2):
        assert give_all(rt, proofs) == "" and os.getcwd() == here
        assert [given(name) for name in ("low", "high")] == ["statements of low\n", "statements of high\n"]
    assert given("beside") is None and given("program") is None


def test_what_rt_built_since_then_is_replaced(rt: types.ModuleType, proofs: Proofs) -> None:
    give_all(rt, proofs)
    built = pathlib.Path(Crate("low").rlib) / "format"
    built.unlink()
    built.write_text("of rt\n", encoding="utf-8")
    give_all(rt, proofs)
    assert given("low") == "statements of low\n"
    assert (proofs.made("low") / "format").read_text(encoding="utf-8") == "statements of low\n"


def test_what_was_proved_of_other_sources_is_not_given(rt: types.ModuleType, proofs: Proofs) -> None:
    (planning.TOP / "crates/high/src/lib.rt").write_text("y\n", encoding="utf-8")
    give_all(rt, Proofs(Plan(), proofs.kit, proofs.room))
    assert given("low") and given("high") is None


def test_none_is_given_while_rt_works_in_one(rt: types.ModuleType, proofs: Proofs) -> None:
    folder = os.open(proofs.plan.crates["high"].folder, os.O_RDONLY)
    try:
        fcntl.flock(folder, fcntl.LOCK_EX)
        assert give_all(rt, proofs) == "high"
        assert given("low") is None
    finally:
        os.close(folder)
    assert give_all(rt, proofs) == "" and given("low")


def test_a_kit_that_puts_aside_what_stands_gives_its_crates_too(rt: types.ModuleType, proofs: Proofs) -> None:
    crates = rt.crates_of("")
    rt.crates_of = lambda root, aside: pytest.fail("it puts aside what is proved")  # type: ignore[attr-defined]
    rt.rtlib = types.SimpleNamespace(crates_below=lambda top: crates)
    assert give_all(rt, proofs) == ""
    assert (planning.TOP / "crates/high/out/rlib/stamp").read_text(encoding="utf-8") == "sum of high"
