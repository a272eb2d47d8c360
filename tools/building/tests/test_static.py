"""When a static library is made again, and what of."""

from __future__ import annotations

import argparse
import os
import pathlib

import pytest
import static_library

from building import plan as planning
from building.kit import Kit
from building.plan import Plan
from building.proofs import Proofs
from building.static import CHECKED, Static
from tries.libraries import whole_plan

ARM = "aarch64-unknown-linux-gnu"
KIT = """#!/bin/sh
is_checked=
echo "$*" >> calls
while [ $# != 0 ]; do
    case $1 in -o) made=$2 ;; --crate-checked) is_checked=1 ;; esac
    echo "$1" >> said
    shift
done
[ ! "$is_checked" ] || [ ! -e out/checked/of_others ] || exit 2
[ ! -e fails ] && date +%N > "$made"
"""


@pytest.fixture
def plan(tmp_path: pathlib.Path, monkeypatch: pytest.MonkeyPatch) -> Plan:
    for file in ("low/src/lib.rt", "ffi/src/lib.rt", "program/src/main.rt"):
        (tmp_path / "crates" / file).parent.mkdir(parents=True)
        (tmp_path / "crates" / file).write_text("x\n", encoding="utf-8")
    (tmp_path / "crates.txt").write_text("low:\nffi staticlib: low\nprogram: low\n", encoding="utf-8")
    kit = tmp_path / "bin/rattle"
    kit.parent.mkdir()
    kit.write_text(KIT, encoding="utf-8")
    (tmp_path / "bin/rt").write_text("#!/bin/sh\n", encoding="utf-8")
    for program in (kit, tmp_path / "bin/rt"):
        program.chmod(0o755)
    (tmp_path / "KIT-ID").write_text("a kit", encoding="utf-8")
    monkeypatch.setattr(planning, "TOP", tmp_path)
    monkeypatch.setattr(static_library, "gathered", lambda *_: None)
    monkeypatch.setenv("PATH", f"{tmp_path}/bin", prepend=":")
    return whole_plan()


def proved(plan: Plan, *names: str) -> Proofs:
    """What an earlier tools/build.py left of these crates."""
    room = plan.crates[plan.program].folder / "out/proved"
    room.mkdir(parents=True, exist_ok=True)
    made = Proofs(whole_plan(), Kit(planning.TOP), room)
    for name in names:
        made.made(name).touch()
        made.stamp(name).write_text(made.sum_of(name), encoding="ascii")
    return made


def asked(standing: bool = True, target: str | None = None, cpu: str | None = None) -> argparse.Namespace:
    return argparse.Namespace(crate="ffi", standing=standing, target=target, cpu=cpu, processors=2)


def status(**words: object) -> int:
    return static_library.over_what_stands(whole_plan(), asked(**words))  # type: ignore[arg-type]


def test_it_is_made_once_of_the_same_sources(plan: Plan) -> None:
    library = Static(proved(plan, "low"), plan.crates["ffi"])
    assert not library.stands() and status() == 0 and library.stands()
    made = library.made.read_bytes()
    assert status() == 0 and library.made.read_bytes() == made


@pytest.mark.parametrize("changed", ["crates/ffi/src/lib.rt", "crates/low/src/lib.rt", "KIT-ID"])
def test_it_is_made_again_of_other_sources(plan: Plan, changed: str) -> None:
    proved(plan, "low")
    assert status() == 0
    (planning.TOP / changed).write_text("y\n", encoding="utf-8")
    library = Static(proved(plan, "low"), plan.crates["ffi"])
    made = library.made.read_bytes()
    assert not library.stands() and status() == 0 and library.made.read_bytes() != made


def test_a_library_that_something_else_made_is_made_again(plan: Plan) -> None:
    library = Static(proved(plan, "low"), plan.crates["ffi"])
    assert status() == 0
    library.made.write_bytes(b"of rt lib")
    assert not library.stands() and status() == 0 and library.stands()


def test_another_target_has_its_own_place(plan: Plan) -> None:
    mine = proved(plan, "low")
    here, arm = Static(mine, plan.crates["ffi"]), Static(mine, plan.crates["ffi"], ARM)
    assert status(target=ARM) == 0 and arm.stands() and not here.stands()
    assert ARM in (plan.crates["ffi"].folder / "said").read_text(encoding="utf-8").splitlines()


def test_another_processor_has_its_own_place(plan: Plan) -> None:
    mine = proved(plan, "low")
    here, plain = Static(mine, plan.crates["ffi"]), Static(mine, plan.crates["ffi"], cpu="x86-64")
    assert status(cpu="x86-64") == 0 and plain.stands() and not here.stands()
    said = (plan.crates["ffi"].folder / "said").read_text(encoding="utf-8").splitlines()
    assert said[said.index("--cpu") + 1] == "x86-64"
    assert status() == 0 and here.stands() and plain.stands()


def test_what_lacks_below_is_named_or_proved(plan: Plan, capsys: pytest.CaptureFixture[str]) -> None:
    assert status() == static_library.LACKS
    assert capsys.readouterr().out == "skipped libffi.a: no proof stands here of low\n"
    assert status(standing=False) == 0 and proved(plan).proved() >= {"low"}
    assert not (plan.crates["low"].folder / "said").read_text(encoding="utf-8").count("--crate-type")


def test_what_fails_leaves_the_last_library(plan: Plan, capsys: pytest.CaptureFixture[str]) -> None:
    library = Static(proved(plan, "low"), plan.crates["ffi"])
    assert status() == 0
    (plan.crates["ffi"].folder / "src/lib.rt").write_text("y\n", encoding="utf-8")
    (plan.crates["ffi"].folder / "fails").touch()
    made = library.made.read_bytes()
    assert status() == 1 and library.made.read_bytes() == made
    assert capsys.readouterr().out.endswith("ffi is not built\n")


def left_by_gate(plan: Plan, *names: str) -> None:
    """A verdict on the crate with these files."""
    folder = plan.crates["ffi"].folder / CHECKED
    folder.mkdir(parents=True)
    for name in ("verdict", *names):
        (folder / name).touch()
        os.utime(folder / name, (4e9, 4e9))  # later than its sources


def calls_of(plan: Plan) -> list[str]:
    return (plan.crates["ffi"].folder / "calls").read_text(encoding="utf-8").splitlines()


def test_it_is_made_of_the_verdict_that_the_gate_left(plan: Plan) -> None:
    library = Static(proved(plan, "low"), plan.crates["ffi"])
    left_by_gate(plan)
    assert status() == 0 and library.stands()
    (call,) = calls_of(plan)
    assert call.endswith("--crate-checked out/checked") and "--crate-type staticlib" in call
    assert not any(word in call for word in ("--logic-built", "--jobs", "--incremental"))
    assert status(target=ARM) == 0 and "--crate-checked" not in calls_of(plan)[-1]


def test_a_verdict_on_other_files_is_not_taken(plan: Plan) -> None:
    library = Static(proved(plan, "low"), plan.crates["ffi"])
    left_by_gate(plan, "of_others")
    assert status() == 0 and library.stands()
    assert ["--crate-checked" in call for call in calls_of(plan)] == [True, False]
    assert "--logic-built" in calls_of(plan)[-1] and "--incremental out/incremental" in calls_of(plan)[-1]


def test_a_verdict_that_is_older_than_a_source_is_not_tried(plan: Plan) -> None:
    proved(plan, "low")
    left_by_gate(plan)
    os.utime(plan.crates["low"].folder / "src/lib.rt", (5e9, 5e9))
    assert status() == 0 and ["--crate-checked" in call for call in calls_of(plan)] == [False]


def test_without_a_kit_what_is_there_is_taken(plan: Plan, capsys: pytest.CaptureFixture[str]) -> None:
    assert static_library.without_kit(plan, asked()) == static_library.LACKS
    proved(plan, "low")
    assert status() == 0
    assert static_library.without_kit(plan, asked()) == 0
    assert capsys.readouterr().out.splitlines()[0] == "skipped libffi.a: here is no rt"
