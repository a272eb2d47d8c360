"""What tools/check.py proves, in what order, and over what."""

from __future__ import annotations

import pathlib
import sys

import check
import pytest

from building import plan as planning
from building.kit import Kit
from building.proofs import Proofs
from building.static import KEPT
from tries.libraries import whole_plan

# writes down what it is called with and makes what it is asked for; nothing where the crate has a file `fails`
KIT = """#!/bin/sh
name=$(basename "$0")
echo "$name $*" >> "$PWD/said"
flock --nonblock "$PWD" true || echo "$name holds" >> "$PWD/said"
while [ $# != 0 ]; do
    case $1 in -o) made=$2 ;; esac
    shift
done
echo "of $name"
[ ! -e fails ] || { echo "a goal is open" >&2; exit 3; }
[ "$made" = "" ] || echo made > "$made"
"""


@pytest.fixture(name="top", autouse=True)
def top_of(tmp_path: pathlib.Path, monkeypatch: pytest.MonkeyPatch) -> pathlib.Path:
    for file in ("low/src/lib.rt", "ffi/src/lib.rt", "tests/src/lib.rt", "program/src/main.rt"):
        (tmp_path / "crates" / file).parent.mkdir(parents=True)
        (tmp_path / "crates" / file).write_text("x\n", encoding="utf-8")
    crates = "low: hex\nffi staticlib: low\ntests: low ffi\nprogram: low\n"
    (tmp_path / "crates.txt").write_text(crates, encoding="utf-8")
    (tmp_path / "bin").mkdir()
    for name in ("rattle", "rattle-link", "rattle-test", "rt"):
        (tmp_path / "bin" / name).write_text(KIT, encoding="utf-8")
        (tmp_path / "bin" / name).chmod(0o755)
    (tmp_path / "KIT-ID").write_text("a kit", encoding="utf-8")
    monkeypatch.setattr(planning, "TOP", tmp_path)
    monkeypatch.setattr(check, "end_at_sigterm", lambda: None)
    monkeypatch.setenv("PATH", f"{tmp_path}/bin", prepend=":")
    return tmp_path


def checked(monkeypatch: pytest.MonkeyPatch, *words: str) -> int:
    monkeypatch.setattr(sys, "argv", ["check.py", *words])
    return check.main()


def said(top: pathlib.Path, crate: str) -> list[list[str]]:
    """What the kit was called with in a crate, and what it held meanwhile; it is then forgotten."""
    file = top / "crates" / crate / "said"
    lines = file.read_text(encoding="utf-8").splitlines() if file.exists() else []
    file.unlink(missing_ok=True)
    return [line.split() for line in lines]


def stands(*names: str) -> None:
    """An earlier tools/build.py proved these."""
    plan = whole_plan()
    made = Proofs(plan, Kit(planning.TOP), plan.crates[plan.program].folder / "out/proved")
    made.room.mkdir(parents=True, exist_ok=True)
    for name in names:
        made.made(name).touch()
        made.stamp(name).write_text(made.sum_of(name), encoding="ascii")


def test_a_crate_is_checked_over_what_stands(top: pathlib.Path, monkeypatch: pytest.MonkeyPatch) -> None:
    stands("low")
    for _ in range(2):
        assert checked(monkeypatch, "ffi") == 0 and said(top, "low") == []
        words, held = said(top, "ffi")
        assert words[:5] == ["rattle", "check", "--crate-name", "ffi", "src/lib.rt"] and held == ["rattle", "holds"]
        assert f"low={top}/crates/program/out/proved/low.rlib" in words
        assert words[words.index("--crate-type") + 1] == "staticlib" and "-o" not in words
        assert words[-2:] == ["--incremental", f"{top}/crates/ffi/{KEPT}"] and (top / "crates/ffi" / KEPT).is_dir()


def test_what_changed_below_is_proved_first_and_once(
    top: pathlib.Path, monkeypatch: pytest.MonkeyPatch, capfd: pytest.CaptureFixture[str]
) -> None:
    stands("low")
    (top / "crates/low/src/lib.rt").write_text("y\n", encoding="utf-8")
    assert checked(monkeypatch, "ffi") == 0
    words, *_ = said(top, "low")
    assert words[:4] == ["rattle", "build", "--crate-name", "low"] and words[-1] == "--statements"
    assert [line[1] for line in said(top, "ffi")] == ["check", "holds"]
    out, err = capfd.readouterr()
    assert out == "of rattle\n" and err.startswith("proved first: low\n")
    assert checked(monkeypatch, "ffi") == 0 and said(top, "low") == []
    assert capfd.readouterr().err == ""


def test_what_is_not_proved_below_ends_it(
    top: pathlib.Path, monkeypatch: pytest.MonkeyPatch, capfd: pytest.CaptureFixture[str]
) -> None:
    (top / "crates/low/fails").touch()
    assert checked(monkeypatch, "ffi") == 1 and said(top, "ffi") == []
    assert capfd.readouterr().err.endswith(f"a goal is open\nlow failed: {top}/crates/low/out/build.log\n")


def test_the_first_that_fails_ends_it_with_its_status(
    top: pathlib.Path, monkeypatch: pytest.MonkeyPatch, capfd: pytest.CaptureFixture[str]
) -> None:
    stands("low", "ffi")
    (top / "crates/ffi/fails").touch()
    assert checked(monkeypatch, "low", "ffi", "tests") == 3
    assert said(top, "low") and said(top, "ffi") and said(top, "tests") == []
    assert capfd.readouterr() == ("of rattle\n" * 2, "a goal is open\n")


def test_words_behind_two_dashes_are_the_checks(top: pathlib.Path, monkeypatch: pytest.MonkeyPatch) -> None:
    assert checked(monkeypatch, "--processors", "3", "low", "--", "--only", "one::two", "--allow-holes") == 0
    words, _ = said(top, "low")
    assert words[-3:] == ["--only", "one::two", "--allow-holes"] and words[words.index("--jobs") + 1] == "3"
    assert f"hex={top}/rlibs/hex.rlib" in words and "--crate-type" not in words


def test_tests_are_proved_built_and_run(top: pathlib.Path, monkeypatch: pytest.MonkeyPatch) -> None:
    stands("low", "ffi")
    assert checked(monkeypatch, "--tests", "tests") == 0
    built, linked, run = said(top, "tests")
    program = f"{top}/crates/tests/out/tests_tests"
    assert built[1] == "build" and "--test" in built and built[-2:] == ["-o", f"{program}.o"]
    assert linked[0] == "rattle-link" and linked[linked.index("-o") + 1 :][:2] == [program, f"{program}.o"]
    assert run == ["rattle-test", "--seconds", "60", program]


def test_tests_that_are_not_proved_are_not_run(top: pathlib.Path, monkeypatch: pytest.MonkeyPatch) -> None:
    stands("low", "ffi")
    (top / "crates/tests/fails").touch()
    assert checked(monkeypatch, "--tests", "tests") == 3 and len(said(top, "tests")) == 1


def test_a_crate_that_is_none_is_a_fault_of_the_command_line(
    monkeypatch: pytest.MonkeyPatch, capfd: pytest.CaptureFixture[str]
) -> None:
    with pytest.raises(SystemExit) as ended:
        checked(monkeypatch, "low", "middle")
    assert ended.value.code == 2 and "crates.txt has no middle" in capfd.readouterr().err
