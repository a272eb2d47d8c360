"""What a refusal is kept by: where anything changed that a check reads, or that judges it, no run takes it."""

from __future__ import annotations

import pathlib

import pytest
import try_edits
from try_edits import Run

from building import plan as planning
from building.kit import Kit
from tries.kept import Kept
from tries.libraries import whole_plan
from upkeep.edits import edits_of

EDIT = "crates/high/wrong-bodies/two.edit"
FILES = {
    "crates.txt": "low:\nhigh: low\nbeside:\nprogram: high\n",
    "crates/low/src/lib.rt": "pub fn zero() {}\n",
    "crates/low/specs/Zero.antt": "zero\n",
    "crates/high/src/lib.rt": "pub fn one() -> u8 {\n    1\n}\n",
    "crates/high/src/more.rt": "pub fn more() {}\n",
    "crates/high/specs/One.antt": "one\n",
    "crates/high/proofs/one/Answers.antt": "returns\n",
    "crates/beside/src/lib.rt": "pub fn beside() {}\n",
    "crates/program/src/main.rt": "fn main() {}\n",
    EDIT: "file: src/lib.rt\nold:     1\nnew:     2\n",
    "KIT-ID": "a kit",
    "WHAT": "it has\n",
    "bin/rattle": "a program",
    "tools/try_edits.py": "judges\n",
    "tools/tries/said.py": "hears\n",
    "tools/upkeep/functions.py": "finds\n",
}
READ = sorted({*FILES} - {"crates/beside/src/lib.rt", "crates/program/src/main.rt", "crates.txt"})


def put(top: pathlib.Path, name: str, text: str) -> None:
    (top / name).parent.mkdir(parents=True, exist_ok=True)
    (top / name).write_text(text, encoding="utf-8")


@pytest.fixture
def top(tmp_path: pathlib.Path, monkeypatch: pytest.MonkeyPatch) -> pathlib.Path:
    for module in (planning, try_edits):
        monkeypatch.setattr(module, "TOP", tmp_path)
    for name, text in FILES.items():
        put(tmp_path, name, text)
    return tmp_path


def left(top: pathlib.Path) -> int:
    """How many edits of the crate a run tries, since no earlier one refused them over the same; it refuses them."""
    run = Run(whole_plan(), Kit(top), Kept(top / "kept"), False)
    work = run.begin("high", edits_of(top / "crates/high"))
    for edit in work.left:
        run.kept.keep(run.name_of(work.total, edit), ["one: returns"])
    return len(work.left)


def test_over_the_same_files_it_is_taken(top: pathlib.Path) -> None:
    assert [left(top) for _ in range(2)] == [1, 0]
    put(top, "crates/beside/src/lib.rt", "pub fn another() {}\n")
    put(top, "crates/program/src/main.rt", "fn main() { another() }\n")
    assert left(top) == 0, "what it does not stand on"


@pytest.mark.parametrize("name", READ)
def test_over_another_file_it_is_not(top: pathlib.Path, name: str) -> None:
    left(top)
    put(top, name, FILES[name].replace("new:     2", "new:     3") if name == EDIT else FILES[name] + "other\n")
    assert [left(top) for _ in range(2)] == [1, 0]
    put(top, name, FILES[name])
    assert left(top) == (1 if name == "bin/rattle" else 0), "of the compiler the time counts too"


@pytest.mark.parametrize("name", ["crates/high/src/new.rt", "crates/low/proofs/zero/Answers.antt"])
def test_over_one_more_file_it_is_not(top: pathlib.Path, name: str) -> None:
    left(top)
    put(top, name, "")
    assert left(top) == 1


def test_over_another_list_of_crates_it_is_not(top: pathlib.Path) -> None:
    left(top)
    put(top, "crates.txt", FILES["crates.txt"].replace("high: low", "high: low beside"))
    assert left(top) == 1


def test_the_same_edit_under_another_name_is_tried(top: pathlib.Path) -> None:
    left(top)
    (top / EDIT).rename(top / EDIT.replace("two", "three"))
    assert left(top) == 1
