"""Families of crates: names, and what crates.txt says of each."""

import pathlib

from upkeep import families
from upkeep.tree import Tree

LISTED = """# NAME: a sentence.

## octets: wire, codes

# elements, lengths, integers [clock]
wire_ber: array
# messages
wire: wire_ber array
# numbers
codes:
# tests of all of it
wire_tests: wire codes

## sign: sign

# what can be set [a centre sets nothing]
sign_access: wire
# the controller
sign: sign_access
"""


def made(top: pathlib.Path, listed: str = LISTED) -> Tree:
    (top / "crates.txt").write_text(listed, encoding="utf-8")
    return Tree(top)


def changed(top: pathlib.Path, old: str, new: str) -> list[str]:
    assert old in LISTED
    return families.kept(made(top, LISTED.replace(old, new)))


def test_what_agrees_is_kept(tmp_path: pathlib.Path) -> None:
    tree = made(tmp_path)
    assert families.families(tree) == {"octets": ["wire", "codes"], "sign": ["sign"]}
    assert families.said(tree)["wire_ber"] == ("elements, lengths, integers", "clock")
    assert families.kept(tree) == []


def test_a_name_begins_with_a_family_of_its_group(tmp_path: pathlib.Path) -> None:
    assert families.family("sign_text_tests", ["sign", "sign_text", "sign_te"]) == "sign_text"
    assert families.family("signtool", ["sign"]) is None
    listed = LISTED.replace("wire_ber", "ber").replace("sign_access", "wire_access")
    assert families.kept(made(tmp_path, listed)) == [
        "crates.txt: ber begins with none of wire, codes",
        "crates.txt: wire_access begins with none of sign",
    ]


def test_a_family_has_a_crate_of_its_name(tmp_path: pathlib.Path) -> None:
    assert changed(tmp_path, "wire, codes\n", "wire, codes, mib\n") == ["crates.txt: there is no crate mib"]


def test_each_crate_is_said_in_ten_words(tmp_path: pathlib.Path) -> None:
    nothing = ["crates.txt: what wire is, in one to 10 words, does not stand above it"]
    assert changed(tmp_path, "# messages\n", "") == nothing
    assert changed(tmp_path, "# messages\n", f"# {'word ' * 10}word\n") == nothing
    assert changed(tmp_path, "# messages\n", f"# {'word ' * 9}word\n") == []


def test_what_is_apart_says_why(tmp_path: pathlib.Path) -> None:
    assert changed(tmp_path, " [clock]", "") == [
        "crates.txt: why wire_ber is apart does not stand above it, in brackets"
    ]
    assert changed(tmp_path, "[clock]", "[no reason]") == []
