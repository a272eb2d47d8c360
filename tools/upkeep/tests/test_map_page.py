"""The links of docs/MAP.md: to the line of each name, and none where a name is not there."""

import pathlib

import pytest

from upkeep import map_page
from upkeep.tree import Tree

_PAGE = """| rule | definition | code | proof | test |
|---|---|---|---|---|
| A rule | `wire/Names: is_name`, `wire/Names` | `tool/read: read` | | {test} |
"""


@pytest.fixture
def tree(tmp_path: pathlib.Path) -> Tree:
    """A map and the files that it cites, but for that of its last test."""
    files = {
        "crates/dms_wire/specs/Names.antt": "-- names\n\npub is_name : List -> Bool\n",
        "crates/tool/src/read.rt": "//! reads\nuse a;\npub fn read() {}\n",
        "docs/MAP.md": _PAGE.format(test="`wire_tests/names: each`"),
    }
    for name, text in files.items():
        path = tmp_path / name
        path.parent.mkdir(parents=True)
        path.write_text(text, encoding="utf-8")
    return Tree(tmp_path, sorted(files))


def test_a_link_leads_to_the_line_of_its_name(tree: Tree) -> None:
    row = map_page.linked(tree).splitlines()[2]
    assert "[`wire/Names: is_name`](../crates/dms_wire/specs/Names.antt#L3)," in row
    assert " [`wire/Names`](../crates/dms_wire/specs/Names.antt) |" in row
    assert " [`tool/read: read`](../crates/tool/src/read.rt#L3) |" in row
    assert row.endswith("| | `wire_tests/names: each` |")


def test_a_name_that_is_not_there_is_found(tree: Tree) -> None:
    assert map_page.missing(tree) == ["docs/MAP.md:3: no test wire_tests/names: each"]
    other = Tree(tree.top, tree.names, {"docs/MAP.md": _PAGE.format(test="each test")})
    assert map_page.missing(other) == ["docs/MAP.md:3: each test is no name"]


def test_links_that_are_written_are_not_stale_until_a_line_moves(tree: Tree) -> None:
    assert map_page.stale(tree) == ["docs/MAP.md:3: a link leads elsewhere (tools/house.py --links mends it)"]
    map_page.write(tree)
    assert not map_page.stale(Tree(tree.top, tree.names))
    moved = tree.top / "crates/tool/src/other.rt"
    (tree.top / "crates/tool/src/read.rt").rename(moved)
    assert map_page.stale(Tree(tree.top, tree.names))


def test_a_test_stands_among_the_tests_of_a_crate_too(tree: Tree) -> None:
    path = tree.top / "crates/dms_wire_tests/src/tests/names.rt"
    path.parent.mkdir(parents=True)
    path.write_text("#[test]\nfn each() {}\n", encoding="utf-8")
    row = map_page.linked(tree).splitlines()[2]
    assert row.endswith("| | [`wire_tests/names: each`](../crates/dms_wire_tests/src/tests/names.rt#L2) |")
    assert not map_page.missing(tree)
