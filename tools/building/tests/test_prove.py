"""Of `rt ci` the gate leaves out the edits of must-fail/, which are tried with all other wrong bodies, and keeps the
verdicts on static libraries."""

import pathlib

import prove
import pytest

from building.kit import Kit
from tries.libraries import kit_program

PROGRAM = """
def edits_of(crate):
    return [crate + "/must-fail/wrong.edit"], []


def main(words):
    good, bad = edits_of("dms_wire")
    print(*words, *good, *bad)
    return 3
"""


def kit(folder: pathlib.Path, program: str) -> Kit:
    (folder / "bin").mkdir()
    (folder / "bin/rt").write_text(program, encoding="utf-8")
    return Kit(folder)


def run(found: Kit, monkeypatch: pytest.MonkeyPatch) -> int:
    monkeypatch.setattr(Kit, "found", staticmethod(lambda: found))
    monkeypatch.setattr(prove, "TOP", found.folder)
    monkeypatch.setattr("sys.argv", ["prove.py"])
    monkeypatch.chdir(found.folder)
    return prove.main()


def test_the_kit_itself_finds_the_edits(tmp_path: pathlib.Path) -> None:
    rt = kit_program(kit(tmp_path, PROGRAM))
    assert rt.edits_of("dms_wire") == (["dms_wire/must-fail/wrong.edit"], [])


def test_the_gate_leaves_them_out_and_has_the_status_of_rt_ci(
    tmp_path: pathlib.Path, monkeypatch: pytest.MonkeyPatch, capsys: pytest.CaptureFixture[str]
) -> None:
    assert run(kit(tmp_path, PROGRAM), monkeypatch) == 3
    said = capsys.readouterr()
    assert said.out == "ci\n"
    assert said.err.startswith("proofs, tests and programs: 0.0 minutes")


def test_of_a_kit_without_that_part_all_runs(
    tmp_path: pathlib.Path, monkeypatch: pytest.MonkeyPatch, capsys: pytest.CaptureFixture[str]
) -> None:
    program = PROGRAM.replace("edits_of", "found_edits")
    assert run(kit(tmp_path, program), monkeypatch) == 3
    said = capsys.readouterr()
    assert said.out == "ci dms_wire/must-fail/wrong.edit\n"
    assert "tries must-fail/ itself" in said.err


CHECKS = """

class Crate:
    def __init__(self, name, is_static):
        self.name, self.is_static = name, is_static

    def prove(self, *commands):
        print(self.name, *(" ".join(words) for words in commands), sep=": ")
        return 1 if "fails" in self.name else 0


def main(words):
    check, build = ["check", "--jobs", "1"], ["build"]
    return [
        Crate("ffi", True).prove(check),
        Crate("ffi's tests", True).prove([*check, "--test"]),
        Crate("low", False).prove(build),
        Crate("program", False).prove(check),
        Crate("it fails", True).prove(check),
    ][-1]
"""


def test_the_check_of_a_static_library_leaves_its_verdict(
    tmp_path: pathlib.Path, monkeypatch: pytest.MonkeyPatch, capsys: pytest.CaptureFixture[str]
) -> None:
    assert run(kit(tmp_path, PROGRAM.partition("def main")[0] + CHECKS), monkeypatch) == 1
    check = "check --jobs 1"
    assert capsys.readouterr().out.splitlines() == [
        f"ffi: {check} -o out/checked",
        f"ffi's tests: {check} --test",
        "low: build",
        f"program: {check}",
        f"it fails: {check} -o out/checked",
    ]
