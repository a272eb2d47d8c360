"""What is kept of earlier runs."""

import os
import pathlib

import pytest

from tries.kept import Kept, folder

NAME = "a" * 64


@pytest.fixture
def kept(tmp_path: pathlib.Path) -> Kept:
    found = Kept(tmp_path / "kept")
    found.keep(NAME, ["one: returns"])
    return found


def test_what_refused_an_edit_is_taken_again(kept: Kept) -> None:
    assert kept.goals(NAME) == ["one: returns"]
    assert kept.goals("b" * 64) == []


def test_anew_takes_nothing(kept: Kept) -> None:
    assert Kept(kept.at, anew=True).goals(NAME) == []


def test_what_was_not_refused_is_not_kept(kept: Kept) -> None:
    kept.keep("c" * 64, [])
    assert [path.name for path in kept.at.iterdir()] == [NAME]


@pytest.mark.parametrize("change", ["", "{", "[]", '{"goals": ["other: returns"], "sum": ""}', '{"goals": 1}'])
def test_a_damaged_entry_counts_for_nothing(kept: Kept, change: str) -> None:
    (kept.at / NAME).write_text(change, encoding="utf-8")
    assert kept.goals(NAME) == []
    kept.keep(NAME, ["one: returns"])
    assert kept.goals(NAME) == ["one: returns"]


def test_an_entry_of_other_goals_or_under_another_name_counts_for_nothing(kept: Kept) -> None:
    text = (kept.at / NAME).read_text(encoding="utf-8")
    (kept.at / NAME).write_text(text.replace("one", "two"), encoding="utf-8")
    (kept.at / ("d" * 64)).write_text(text, encoding="utf-8")
    assert kept.goals(NAME) == kept.goals("d" * 64) == []


def test_a_folder_that_cannot_be_used_keeps_nothing(tmp_path: pathlib.Path) -> None:
    (tmp_path / "file").write_text("", encoding="utf-8")
    kept = Kept(tmp_path / "file/kept")
    kept.keep(NAME, ["one: returns"])
    assert kept.goals(NAME) == []
    kept.shrink()


def test_what_no_run_took_for_long_goes(kept: Kept) -> None:
    kept.keep("e" * 64, ["one: returns"])
    os.utime(kept.at / NAME, (0, 0))
    kept.shrink()
    assert [path.name for path in kept.at.iterdir()] == ["e" * 64]


def test_it_stands_outside_the_repository(monkeypatch: pytest.MonkeyPatch) -> None:
    monkeypatch.setenv("XDG_CACHE_HOME", "/cache")
    assert folder() == pathlib.Path("/cache/wisangub/wrong-bodies")
