"""The numbers of the page on tests: near, too far off, not said, and the last gate's line."""

import pathlib

from upkeep import counts
from upkeep.counts import COUNTS, LAST, PAGE
from upkeep.tree import Tree

TOP = pathlib.Path(__file__).resolve().parents[3]


def tree(top: pathlib.Path, page: str) -> Tree:
    """Twenty vectors, and a page."""
    for name, text in {PAGE: page, "vectors/texts.jsonl": "{}\n" * 20}.items():
        (top / name).parent.mkdir(parents=True, exist_ok=True)
        (top / name).write_text(text, encoding="utf-8")
    return Tree(top)


def of_vectors(top: pathlib.Path, words: str) -> list[str]:
    found = counts.stale(tree(top, f"# Page\n\n{LAST}none\n\n{words}\n"))
    return [line for line in found if "vectors" in line]


def test_a_number_may_be_a_tenth_off(tmp_path: pathlib.Path) -> None:
    for words in ("some 20 cases of vectors", "some 18 cases of vectors", "some 22 cases\nof vectors"):
        assert of_vectors(tmp_path, words) == []


def test_a_number_that_is_further_off_is_found(tmp_path: pathlib.Path) -> None:
    for number in (0, 17, 23, 2000):
        found = of_vectors(tmp_path, f"some {number:,} cases of vectors, and some 20 cases of vectors")
        assert found == [f"{PAGE}: some {number:,} cases of vectors, where there are 20"]


def test_a_number_has_to_be_said(tmp_path: pathlib.Path) -> None:
    for words in ("20 cases of vectors", "some 20 cases", ""):
        assert of_vectors(tmp_path, words) == [f"{PAGE}: it does not say 'some 20 cases of vectors'"]


def test_the_last_gates_line_has_to_stand_there(tmp_path: pathlib.Path) -> None:
    assert f"{PAGE}: no line '{LAST}..'" in counts.stale(tree(tmp_path, "# Page\n"))
    assert f"{PAGE}: no line '{LAST}..'" not in counts.stale(tree(tmp_path, f"# Page\n\n{LAST}well\n"))


def test_a_repository_without_the_page_has_no_numbers(tmp_path: pathlib.Path) -> None:
    assert counts.stale(Tree(tmp_path)) == []


def test_each_of_them_is_counted_here() -> None:
    here = Tree(TOP)
    assert {count.words: count.of(here) for count in COUNTS if count.of(here) < 10} == {}
