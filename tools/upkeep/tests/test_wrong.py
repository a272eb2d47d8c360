"""The bars of the wrong bodies on a small tree."""

import pathlib

import pytest

from upkeep import wrong
from upkeep.tree import Tree

CODE = "pub fn one() -> u8\n    ensures { result ≡ 1 }\n{\n    1\n}\n\npub fn two() -> u8 {\n    2\n}\n"
EDIT = "file: src/lib.rt\nold:     1\nnew:     2\n"


@pytest.fixture
def top(tmp_path: pathlib.Path) -> pathlib.Path:
    put(tmp_path, "crates.txt", "one:\n")
    put(tmp_path, "crates/one/src/lib.rt", CODE)
    put(tmp_path, "crates/one/must-fail/two_for_one.edit", EDIT)
    put(tmp_path, wrong.LIST, "# words\n* one/two_for_one\none/three: nobody counts to three\n")
    return tmp_path


def put(top: pathlib.Path, name: str, text: str) -> None:
    (top / name).parent.mkdir(parents=True, exist_ok=True)
    (top / name).write_text(text, encoding="utf-8")


def below(top: pathlib.Path) -> list[str]:
    tree = Tree(top)
    return [*wrong.listed(tree), *wrong.owed(tree), *wrong.read(tree)]


def test_all_is_well(top: pathlib.Path) -> None:
    assert below(top) == []


def test_none_goes_without_a_reason(top: pathlib.Path) -> None:
    put(top, wrong.LIST, "one/two_for_one: a reason\none/three\nno row of this kind\n")
    assert below(top) == [
        f"{wrong.LIST}:1: one/two_for_one is not gone, and a reason is given",
        f"{wrong.LIST}:2: one/three is gone, and no reason is given",
        f"{wrong.LIST}:3: no row of a wrong body",
    ]


def test_what_the_whole_stands_on_is_tried_by_rt_ci(top: pathlib.Path) -> None:
    (top / "crates/one/wrong-bodies").mkdir()
    (top / "crates/one/must-fail/two_for_one.edit").rename(top / "crates/one/wrong-bodies/two_for_one.edit")
    assert below(top) == [
        f"{wrong.LIST}:2: one/two_for_one does not stand in must-fail/",
        "crates/one/must-fail: no wrong body",
    ]


def test_laws_and_what_promises_nothing_owe_none(top: pathlib.Path) -> None:
    (top / "crates/one/must-fail/two_for_one.edit").unlink()
    put(top, wrong.LIST, "")
    laws = "pub fn law()\n    ensures { 1 ≡ 1 }\n{}\n"
    for code in (laws, "pub fn two() -> u8 {\n    2\n}\n", CODE + "pub fn three() -> u8 {\n    3\n}\n" * 4):
        put(top, "crates/one/src/lib.rt", code)
        assert below(top) == []
    put(top, "crates/one/src/lib.rt", CODE)
    assert below(top) == ["crates/one/must-fail: no wrong body"]


@pytest.mark.parametrize(
    "edit, why",
    [
        ("file: src/lib.rt\nold:     7\nnew:     2\n", "`    7` stands 0 times in lib.rt"),
        ("file: src/lib.rt\nold:     1\nnew:     1\n", "it changes nothing"),
        ("old:     1\nnew:     2\n", "a `new:` line stands before any `file:` or `old:` line"),
        ("words\n", "it has no `old:` and `new:` pair"),
    ],
)
def test_each_can_be_applied(top: pathlib.Path, edit: str, why: str) -> None:
    put(top, "crates/one/must-fail/two_for_one.edit", edit)
    assert below(top) == [f"crates/one/must-fail/two_for_one.edit: {why}"]


def test_a_file_that_is_gone_is_a_word(top: pathlib.Path) -> None:
    put(top, "crates/one/must-fail/two_for_one.edit", EDIT.replace("lib", "gone"))
    assert "No such file" in below(top)[0]
