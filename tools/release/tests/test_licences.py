"""The licences of what is linked from the kit stand in the repository as the kit has them, and go into a release."""

from __future__ import annotations

import pathlib
import re
import shutil

import pytest

TOP = pathlib.Path(__file__).resolve().parents[3]
FOLDER = TOP / "licences"
OWN = {"std", "core", "std_alloc", "std_collections"}  # of the kit itself
BELOW = {"clap": {"strsim"}}  # what crates of the kit stand on, but for its own
NAMES = {"LICENSE-MIT", "LICENSE"}


def linked() -> set[str]:
    """What the crates of the kit are that the program and the library for C stand on."""
    lines = (TOP / "crates.txt").read_text(encoding="utf-8").splitlines()
    uses = {
        head.split()[0]: set(used.split()) for head, colon, used in (line.partition(":") for line in lines) if colon
    }
    uses = {name: used for name, used in uses.items() if not name.startswith("#")}
    ours = set(uses)
    uses |= BELOW
    found, left = set[str](), {"signtool", "wisangub_c"}
    while left:
        name = left.pop()
        found.add(name)
        left |= uses.get(name, set()) - found
    return found - ours - OWN


def test_each_crate_of_the_kit_has_its_licence_here() -> None:
    assert {path.stem for path in FOLDER.glob("*.txt")} == linked()
    page = (FOLDER / "README.md").read_text(encoding="utf-8")
    assert set(re.findall(r"\[(\w+)\.txt\]", page)) == linked()


@pytest.mark.skipif(shutil.which("rt") is None, reason="here is no kit")
def test_each_is_the_kits_own() -> None:
    kit = pathlib.Path(shutil.which("rt") or "").resolve().parents[1] / "rattle"
    for name in linked():
        found = [path for path in (kit / name).iterdir() if path.name in NAMES]
        assert [path.read_text(encoding="utf-8") for path in found] == [(FOLDER / f"{name}.txt").read_text("utf-8")]


@pytest.mark.skipif(shutil.which("rt") is None, reason="here is no kit")
def test_nothing_else_of_the_kit_is_linked() -> None:
    rlibs = pathlib.Path(shutil.which("rt") or "").resolve().parents[1] / "rlibs"
    for name in linked():
        text = (rlibs / f"{name}.rlib/format").read_text(encoding="utf-8")
        assert set(re.findall(r"(?m)^dep (\w+)$", text)) - OWN == BELOW.get(name, set()), name


def test_a_release_has_them() -> None:
    assert '"$source"/licences' in (TOP / "tools/release/trees.sh").read_text(encoding="utf-8")
    assert "../licences/" in (TOP / "examples/Makefile").read_text(encoding="utf-8")
