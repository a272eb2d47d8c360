"""What a run says of a crate, and that it keeps nothing of files that changed since it began."""

from __future__ import annotations

import pathlib
from collections.abc import Iterator
from dataclasses import dataclass
from typing import Any

import pytest
import try_edits
from try_edits import Run, Work

from building.plan import TOP
from tries.kept import Kept
from tries.trial import Outcome
from upkeep.edits import edits_of


@dataclass
class Checks:
    """A checker that only counts."""

    checks: int = 0


@dataclass
class Named:
    name: str


def checked(checker: Checks, names: list[list[str]]) -> Iterator[Outcome]:
    """Each group of names in a check, refused."""
    for group in names:
        checker.checks += 1
        yield from (Outcome(Named(name), ["one: returns"]) for name in group)  # type: ignore[arg-type]


class Sums(Run):
    """A run over files whose sums are these, one after the other."""

    def of(self, sums: list[str]) -> Sums:
        self.sums = sums
        return self

    def sum_of(self, crate: Any) -> str:
        return self.sums.pop(0)

    def name_of(self, total: str, edit: Any) -> str:
        return f"{total} {edit.name}"


@pytest.fixture
def run(tmp_path: pathlib.Path, monkeypatch: pytest.MonkeyPatch) -> Sums:
    monkeypatch.setattr(try_edits, "Checker", lambda *_: Checks())
    monkeypatch.setattr(try_edits, "tried", checked)
    return Sums(None, None, Kept(tmp_path), False)  # type: ignore[arg-type]


def work_of(*groups: list[str]) -> Work:
    return Work(Named("tiny"), "same", [], list(groups))  # type: ignore[arg-type]


def test_the_files_are_looked_at_once_a_check(run: Sums, tmp_path: pathlib.Path) -> None:
    work = work_of(["a", "b"], ["c"], ["d", "e"])
    assert [one.edit.name for one in run.of(["same", "another", "same"]).outcomes(work, tmp_path)] == [*"abcde"]
    assert run.sums == [] and work.checks == 3
    assert sorted(path.name for path in tmp_path.iterdir()) == ["same a", "same b", "same d", "same e"]


def test_the_checks_are_told(run: Sums, tmp_path: pathlib.Path, capsys: pytest.CaptureFixture[str]) -> None:
    assert run.of(["same"] * 2).counted(work_of(["a", "b"], ["c"]), tmp_path) == (3, 0, 0)
    assert capsys.readouterr().err.startswith("tiny: 3 of 3 refused, 0 of them by an earlier run, 2 checks (")


def test_a_name_that_no_edit_has_is_refused(monkeypatch: pytest.MonkeyPatch) -> None:
    name = next(edit.name.partition("/")[2] for edit in edits_of(TOP / "crates/dms_face"))
    for names, said in (([name], 0), ([name, "mistyped"], "no edit of these crates is called mistyped")):
        only = [word for one in names for word in ("--only", one)]
        monkeypatch.setattr("sys.argv", ["try_edits.py", "dms_face", "--apply", *only])
        try:
            found: object = try_edits.main()
        except SystemExit as end:
            found = end.code
        assert found == said
