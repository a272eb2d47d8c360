"""Which functions an edit changes, by their paths, and which name the constants and types that it changes."""

import pathlib

import pytest

from upkeep.edits import Edit, edits_of

CODE = """//! A crate.
use other::LIMIT;

const MOST: u8 = 3;
const TABLE: [u8; 2] = [
    1, 2,
];

pub enum Kind {
    One = 1,
}

impl Kind {
    pub fn number(self) -> u8 {
        self as u8
    }
}

pub fn first(n: u8) -> u8 {
    if n > MOST {
        0
    } else if n > LIMIT {
        1
    } else {
        TABLE[0]
    }
}

pub fn second(n: u8) -> u8 {
    MOST
}
"""


def edit_of(tmp_path: pathlib.Path, *pairs: tuple[str, str]) -> Edit:
    """The one edit of a crate."""
    crate = tmp_path / "one"
    for name in ("src", "must-fail"):
        (crate / name).mkdir(parents=True)
    (crate / "src/lib.rt").write_text(CODE, encoding="utf-8")
    lines = ["file: src/lib.rt", *(f"old: {old}\nnew: {new}" for old, new in pairs)]
    (crate / "must-fail/wrong.edit").write_text("\n".join(lines) + "\n", encoding="utf-8")
    return edits_of(crate)[0]


@pytest.mark.parametrize(
    "old, function",
    [
        ("} else if n > LIMIT {", "one::first"),
        ("self as u8", "one::Kind::number"),
        ("fn second(n: u8) -> u8 {", "one::second"),
    ],
)
def test_a_text_stands_in_a_function(tmp_path: pathlib.Path, old: str, function: str) -> None:
    edit = edit_of(tmp_path, (old, "other"))
    assert edit.functions == {function} and edit.users == set()


def test_an_earlier_pair_may_make_what_a_later_one_changes(tmp_path: pathlib.Path) -> None:
    edit = edit_of(tmp_path, ("TABLE[0]", "TABLE[1 + 0]"), ("[1 + 0]", "[1]"))
    assert edit.functions == {"one::first"}


@pytest.mark.parametrize(
    "old, users",
    [
        ("u8 = 3;", {"one::first", "one::second"}),
        ("    1, 2,", {"one::first"}),
        ("use other::LIMIT;", {"one::first"}),
        ("One = 1", {"one::Kind::number"}),
        ("//! A crate.", set()),
    ],
)
def test_what_stands_in_no_function_is_named_by_some(tmp_path: pathlib.Path, old: str, users: set[str]) -> None:
    edit = edit_of(tmp_path, (old, "other"))
    assert edit.functions == {None} and edit.users == users


def test_an_edit_of_a_type_and_of_functions_is_tried_in_these_too(tmp_path: pathlib.Path) -> None:
    edit = edit_of(tmp_path, ("One = 1,", "One = 1, Two = 2,"), ("if n > MOST {", "if n >= MOST {"))
    assert edit.functions == {None, "one::first"} and edit.users == {"one::first", "one::Kind::number"}
