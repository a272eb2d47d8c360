"""What is taken of the libraries that `rt ci` left in this clone."""

from __future__ import annotations

import os
import pathlib

import pytest

from building import plan as planning
from building.kit import Kit
from building.plan import Plan
from building.proofs import Proofs
from tries import libraries
from tries.libraries import left_by_gate

BOTH = {"low", "high"}


def written(file: pathlib.Path, text: str, at: int) -> None:
    """Writes a file that was changed so many seconds after 1970."""
    file.parent.mkdir(parents=True, exist_ok=True)
    file.write_text(text, encoding="utf-8")
    os.utime(file, (at, at))


@pytest.fixture
def proofs(tmp_path: pathlib.Path, monkeypatch: pytest.MonkeyPatch) -> Proofs:
    """Two libraries that were made at 200 and at 300, of sources of 100."""
    monkeypatch.setattr(planning, "TOP", tmp_path)
    monkeypatch.setattr(libraries, "TOP", tmp_path)
    written(tmp_path / "KIT-ID", "a kit", 100)
    written(tmp_path / "crates.txt", "low:\nhigh: low\nprogram: high\n", 100)
    for name, root in (("low", "lib"), ("high", "lib"), ("program", "main")):
        written(tmp_path / f"crates/{name}/src/{root}.rt", "x\n", 100)
    for name, at in (("low", 200), ("high", 300)):
        written(tmp_path / f"crates/{name}/out/rlib/{name}.rlib/format", f"statements of {name}\n", at)
    return Proofs(Plan(), Kit(tmp_path), tmp_path / "proved")


def test_libraries_that_are_newer_than_their_sources_are_taken(proofs: Proofs) -> None:
    assert left_by_gate(proofs.plan, proofs, BOTH) == 2
    assert proofs.proved() == BOTH


def test_no_library_is_taken_where_a_source_was_changed_since(proofs: Proofs, tmp_path: pathlib.Path) -> None:
    written(tmp_path / "crates/high/src/lib.rt", "y\n", 301)
    assert left_by_gate(proofs.plan, proofs, BOTH) == 0
    assert proofs.proved() == set()


def test_no_library_is_taken_that_one_below_is_newer_than(proofs: Proofs, tmp_path: pathlib.Path) -> None:
    written(tmp_path / "crates/low/out/rlib/low.rlib/format", "statements of low\n", 301)
    assert left_by_gate(proofs.plan, proofs, BOTH) == 0


def test_no_library_is_taken_where_one_lacks(proofs: Proofs, tmp_path: pathlib.Path) -> None:
    (tmp_path / "crates/low/out/rlib/low.rlib/format").unlink()
    assert left_by_gate(proofs.plan, proofs, BOTH) == 0
